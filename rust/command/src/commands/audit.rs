//! Is a kept list sound?
use super::Command;
use crate::form::{count, csv_row, list, quoted, Form, CSV, JSON};
use crate::listed::Listed;
use crate::marks;
use crate::out::Out;
use crate::problem::Problem;
use crate::words::Words;
use ullimaqsu::Finding;

pub const COMMAND: Command = Command {
    name: "audit",
    usage: "CIRCUIT FAULTS PATTERNS KEPT [--csv | --json]",
    wants: "a circuit, a file of faults, one of patterns and one of marks",
    counts: 4..=4,
    choices: &[CSV, JSON],
    says: "says whether a list of kept patterns is sound, whichever tool has made it",
    more: "\
KEPT has a letter for each pattern in order, K if it is kept or D if it is dropped, with blanks, line ends and # comments anywhere. The list is sound if
the kept patterns detect every fault and tell apart every pair of detected faults that all together do, and none of them can be spared. Else the first
thing that is wrong is printed, and the status is 1.

At most 256 faults and 256 patterns.",
    example: "ullimaqsu audit examples/c17/circuit.rec examples/c17/faults.rec examples/c17/patterns.rec kept",
    run,
};

fn run(words: &Words, out: &mut Out) -> Result<(), Problem> {
    let form = Form::of(words, &COMMAND)?;
    let listed = Listed::load(words, &COMMAND)?;
    let marks = marks::load(words.at(3), listed.patterns.len())?;
    let finding = ullimaqsu::audit(listed.faults.len() as u64, listed.patterns.len() as u64, &listed.table, &marks)
        .expect("the table of a dictionary and a mark for each pattern are never refused");
    out.print(&Found::of(finding, &listed, &marks).printed(form))?;
    // a finding that can't be printed is no answer
    out.flush()?;
    match finding {
        Finding::Sound => Ok(()),
        _ => Err(Problem::Printed),
    }
}

/// A finding by names.
struct Found {
    name: &'static str,
    faults: Vec<String>,
    /// The pattern that it is about, or that shows it.
    pattern: Option<usize>,
    /// The whole in words.
    says: String,
}

impl Found {
    fn of(finding: Finding, listed: &Listed, marks: &[u8]) -> Found {
        let named = |fault: usize| listed.faults[fault].named(&listed.circuit);
        let met = "what is lost is met by some pattern";
        match finding {
            Finding::Sound => {
                let (kept, all) = (marks.iter().filter(|mark| **mark == 1).count(), count(marks.len(), "pattern"));
                let says = format!("sound: {kept} of {all} kept, every need is met, and none of them can be spared");
                Found { name: "sound", faults: vec![], pattern: None, says }
            }
            Finding::BadMark(mark) => {
                let mark = mark as usize;
                let says = format!("bad mark {mark}: {} is neither 0 nor 1", marks[mark]);
                Found { name: "bad mark", faults: vec![], pattern: Some(mark), says }
            }
            Finding::LostFault(fault) => {
                let fault = fault as usize;
                let pattern = listed.failed_by(fault).expect(met);
                let says = format!("lost fault: {} is failed by pattern {pattern}, and by no kept one", named(fault));
                Found { name: "lost fault", faults: vec![named(fault)], pattern: Some(pattern), says }
            }
            Finding::LostPair(first, second) => {
                let pair = [first as usize, second as usize];
                let pattern = listed.told_apart_by(pair).expect(met);
                let [one, other] = pair.map(named);
                let says = format!("lost pair: {one} and {other} are told apart by pattern {pattern}, and by no kept one");
                Found { name: "lost pair", faults: vec![one, other], pattern: Some(pattern), says }
            }
            Finding::SparePattern(pattern) => {
                let pattern = pattern as usize;
                let says = format!("spare pattern {pattern}: the others that are kept meet every need");
                Found { name: "spare pattern", faults: vec![], pattern: Some(pattern), says }
            }
        }
    }

    fn printed(&self, form: Form) -> String {
        let pattern = |none: &str| self.pattern.map_or(none.to_string(), |pattern| pattern.to_string());
        match form {
            Form::Table => format!("{}\n", self.says),
            Form::Csv => {
                let fault = |k: usize| self.faults.get(k).cloned().unwrap_or_default();
                csv_row(["finding", "fault", "other fault", "pattern"]) + &csv_row([self.name.to_string(), fault(0), fault(1), pattern("")])
            }
            Form::Json => {
                format!("{{\"finding\": {}, \"faults\": {}, \"pattern\": {}}}\n", quoted(self.name), list(&self.faults), pattern("null"))
            }
        }
    }
}
