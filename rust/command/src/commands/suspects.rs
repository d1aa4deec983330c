//! Which faults remain, report by report.
mod reports;
mod split;
mod standing;

use super::Command;
use crate::form::{Form, CSV, JSON};
use crate::listed::Listed;
use crate::out::Out;
use crate::problem::Problem;
use crate::words::Words;
use reports::{Lines, Report};
use standing::{head, Standing};
use ullimaqsu::Suspects;

pub const COMMAND: Command = Command {
    name: "suspects",
    usage: "CIRCUIT FAULTS PATTERNS [REPORTS] [--csv | --json]",
    wants: "a circuit, a file of faults and one of patterns, and if need be one of reports",
    counts: 3..=4,
    choices: &[CSV, JSON],
    says: "says which faults remain as a tester reports patterns that failed or passed, and which pattern to try next",
    more: "\
Reads a report a line, from REPORTS or else from standard input: the number of a pattern, as dictionary counts, and then fail or pass; failed, passed, F
and P will do too. Blanks, empty lines and # comments may stand between. Before the first report and after each it prints how many faults remain and which,
and the pattern to try.

A fault remains if the dictionary has pass for it under no pattern that failed, and fail under none that passed; any other is ruled out. Unknown rules out
nothing. Reports may come in any order and again, and all of them count: a fault that is ruled out never comes back.

The pattern to try is one that compact keeps: the one that leaves the fewest faults in the worse of its two cases, and of equals the first. It is shown with
its values, and with how many faults remain in either case. Where no kept pattern tells two that remain apart, the best of the dropped ones is proposed by
the same rule, and the answer says so; where no pattern at all does, none is. If by then none has failed, the answer says that the part may have no fault.
Any other pattern may be reported as well.

A line that is not understood is told with its number on standard error and changes nothing. The session goes on, and at its end the status is 2. With
--csv and --json each answer is one line, and its next is the pattern to try, kept or dropped.

At most 256 faults and 256 patterns. A line may have 64 KiB; a longer one ends the session, with status 2.",
    example: "ullimaqsu suspects examples/c17/circuit.rec examples/c17/faults.rec examples/c17/patterns.rec",
    run,
};

fn run(words: &Words, out: &mut Out) -> Result<(), Problem> {
    let form = Form::of(words, &COMMAND)?;
    let listed = Listed::load(words, &COMMAND)?;
    let (mut lines, mut session, mut all_read) = (Lines::open(words.path(3))?, Session::open(&listed), true);
    out.print(&head(form))?;
    // whoever reports waits for the answer
    let mut answer = |standing: Standing| out.print(&standing.printed(form)).and_then(|()| out.flush());
    answer(session.standing(None))?;
    lines.invite();
    while let Some(line) = lines.next()? {
        match Report::read(&line, listed.patterns.len()) {
            Ok(None) => (),
            Ok(Some(report)) => answer(session.after(report))?,
            Err((byte, says)) => {
                all_read = false;
                lines.wrong(byte, &says).tell();
            }
        }
    }
    match all_read {
        true => Ok(()),
        false => Err(Problem::Told),
    }
}

/// The library's state, with the table that each report lends again.
struct Session<'a> {
    listed: &'a Listed,
    /// For each pattern whether compaction keeps it.
    kept: Vec<bool>,
    state: Suspects,
    any_failed: bool,
}

impl Session<'_> {
    fn open(listed: &Listed) -> Session<'_> {
        let kept = listed.marks().iter().map(|mark| *mark == 1).collect();
        let state = Suspects::open(listed.faults.len() as u64, listed.patterns.len() as u64, &listed.table)
            .expect("the table of a dictionary is never refused");
        Session { listed, kept, state, any_failed: false }
    }

    /// Where one stands once this is reported.
    fn after(&mut self, report: Report) -> Standing {
        self.state
            .report(&self.listed.table, report.pattern as u64, report.failed)
            .expect("the table of the opening and the number of a pattern are never refused");
        self.any_failed |= report.failed;
        self.standing(Some(report))
    }

    fn standing(&self, report: Option<Report>) -> Standing {
        let (listed, marks) = (self.listed, self.state.marks());
        let faults = listed.faults.iter().zip(&marks).filter(|(_, mark)| **mark).map(|(fault, _)| fault.named(&listed.circuit)).collect();
        let patterns = self.kept.iter().enumerate().map(|(pattern, kept)| (*kept, listed.row(pattern)));
        let next = split::best(patterns, &marks);
        let next = next.map(|split| (split, listed.patterns[split.pattern].letters()));
        Standing { report, any_failed: self.any_failed, remaining: self.state.remaining() as usize, faults, next }
    }
}
