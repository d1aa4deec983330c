//! Which patterns can be dropped.
use super::Command;
use crate::form::{count, csv_row, list, quoted, Form, CSV, JSON};
use crate::listed::Listed;
use crate::marks::letter;
use crate::out::Out;
use crate::pattern::Pattern;
use crate::problem::Problem;
use crate::replace::once_printed;
use crate::words::{Choice, Words};

pub const COMMAND: Command = Command {
    name: "compact",
    usage: "CIRCUIT FAULTS PATTERNS [-o FILE] [--marks FILE] [--csv | --json]",
    wants: "a circuit, a file of faults and one of patterns",
    counts: 3..=3,
    choices: &[
        Choice { name: "-o", value: Some("FILE"), says: "writes the kept patterns to FILE" },
        Choice { name: "--marks", value: Some("FILE"), says: "writes the letters K and D to FILE, for audit" },
        CSV,
        JSON,
    ],
    says: "drops patterns that the others make needless",
    more: "\
Prints for each pattern its number, K if it is kept or D if it is dropped, and its values. The kept ones detect every fault that all together detect, and
tell apart every pair of detected faults that all together tell apart; and none of them can be spared.

At most 256 faults and 256 patterns.",
    example: "ullimaqsu compact examples/c17/circuit.rec examples/c17/faults.rec examples/c17/patterns.rec --marks kept",
    run,
};

fn run(words: &Words, out: &mut Out) -> Result<(), Problem> {
    let form = Form::of(words, &COMMAND)?;
    let listed = Listed::load(words, &COMMAND)?;
    let marks = listed.marks();
    let kept_lines: String = kept(&listed, &marks).map(|pattern| pattern.letters() + "\n").collect();
    let mark_lines: String = marks.iter().map(|&mark| format!("{}\n", letter(mark))).collect();
    let sources = [words.at(0), words.at(1), words.at(2)];
    let asked = [(words.place("-o", &sources)?, kept_lines), (words.place("--marks", &sources)?, mark_lines)];
    let files = asked.into_iter().filter_map(|(place, lines)| Some((place?, lines)));
    once_printed(files, printed(&listed, &marks, form), out)
}

/// The patterns that are kept.
fn kept<'a>(listed: &'a Listed, marks: &'a [u8]) -> impl Iterator<Item = &'a Pattern> {
    listed.patterns.iter().zip(marks).filter(|(_, mark)| **mark == 1).map(|(pattern, _)| pattern)
}

fn printed(listed: &Listed, marks: &[u8], form: Form) -> String {
    let rows =
        || (0..).zip(listed.patterns.iter().zip(marks)).map(|(number, (pattern, &mark)): (usize, _)| (number, letter(mark), pattern));
    match form {
        Form::Table => {
            let width = marks.len().saturating_sub(1).to_string().len();
            let lines: String = rows().map(|(number, mark, pattern)| format!("{number:>width$} {mark} {}\n", pattern.letters())).collect();
            let (kept, all, detected) = (kept(listed, marks).count(), count(marks.len(), "pattern"), count(listed.detected(), "fault"));
            lines + &format!("{kept} of {all} kept: {detected} detected and the same pairs told apart as by all of them\n")
        }
        Form::Csv => {
            let row = |(number, mark, pattern): (usize, char, &Pattern)| csv_row([number.to_string(), mark.to_string(), pattern.letters()]);
            csv_row(["number", "mark", "pattern"]) + &rows().map(row).collect::<String>()
        }
        Form::Json => {
            let marks = quoted(marks.iter().map(|&mark| letter(mark)).collect::<String>());
            format!("{{\"patterns\": {},\n\"marks\": {marks}}}\n", list(listed.patterns.iter().map(Pattern::letters)))
        }
    }
}
