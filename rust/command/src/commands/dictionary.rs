//! The fault dictionary: which pattern fails which fault.
mod directory;
mod of;

use super::Command;
use crate::columns::widest;
use crate::entry::Entry;
use crate::fault::{self, Fault};
use crate::form::{count, csv_row, list, quoted, Form, CSV, JSON};
use crate::out::Out;
use crate::pattern::{self, Pattern};
use crate::problem::Problem;
use crate::table::{pieces, rows};
use crate::unfolded::steps;
use crate::words::{Choice, Words};
use of::Of;

const STEPS: &str = "--steps";

pub const COMMAND: Command = Command {
    name: "dictionary",
    usage: "(CIRCUIT FAULTS PATTERNS [--csv | --json] | DIR) [--steps K]",
    wants: "a circuit, a file of faults and one of patterns, or a directory of circuit.rec, faults.rec and patterns.rec",
    counts: 1..=3,
    choices: &[
        Choice { name: STEPS, value: Some("K"), says: "of a circuit with flip-flops over K clock steps, 1 to 8" },
        CSV,
        JSON,
    ],
    says: "makes the fault dictionary: which pattern fails which fault",
    more: "\
Prints a row for each fault, and in it for each pattern F where the circuit with the fault fails, P where it passes, and U where an X leaves it unknown. A
tester compares the outputs whose good value is known. A fault is detected if some pattern fails it.

With --steps the circuit is a text with flip-flops, as unfold takes it. Its faults are those of one step, and each is there in all steps at once. A
pattern has a value for each input of the unfolded circuit, in this order: all inputs of step 1, the flip-flops among them, in the order of the text,
and then those of each later step that are no flip-flops. The outputs of all steps are compared, and at the last step also what the flip-flops would
take over.

Of a directory it prints a line for each pattern instead: its number, K if compaction keeps it and else D, and a letter for each fault; or `refused`, the
number of the refusal and its place. A file that is absent counts as empty. With --steps there must also be states.rec, with 4 bytes for each state
line: the number of its data line and then its own, the low byte first.",
    example: "ullimaqsu dictionary examples/a",
    run,
};

fn run(words: &Words, out: &mut Out) -> Result<(), Problem> {
    let form = Form::of(words, &COMMAND)?;
    let steps = words.value(STEPS).map(|word| steps(word, &COMMAND)).transpose()?;
    match (words.path(1), words.path(2)) {
        (None, _) => directory::run(words.at(0), steps, form, out),
        (Some(_), None) => Err(COMMAND.misused(&format!("wants {}", COMMAND.wants))),
        (Some(faults), Some(patterns)) => {
            let of = Of::load(words.at(0), steps)?;
            let (faults, patterns) = (fault::load(faults, of.faulty())?, pattern::load(patterns, of.stimulated())?);
            print(&Given { of, faults, patterns }, form, out)
        }
    }
}

/// What a dictionary is made of.
struct Given {
    of: Of,
    faults: Vec<Fault>,
    patterns: Vec<Pattern>,
}

/// Prints it by pieces.
fn print(given: &Given, form: Form, out: &mut Out) -> Result<(), Problem> {
    let Given { of, faults, patterns } = given;
    let name = |fault: &Fault| fault.named(of.faulty());
    let width = widest(faults.iter().map(name)).max("fault".len());
    out.print(&head(given, form, width))?;
    let (mut detected, mut comma) = (0, "");
    for piece in pieces(faults, patterns) {
        for (fault, row) in piece.iter().zip(rows(|faults, patterns| of.entries(faults, patterns), piece, patterns)) {
            detected += usize::from(row.contains(Entry::Fail.letter()));
            let name = name(fault);
            out.print(&match form {
                Form::Table => format!("{name:width$} {row}\n"),
                Form::Csv => csv_row([name].into_iter().chain(row.chars().map(String::from))),
                Form::Json => format!("{comma}\n{}", quoted(row)),
            })?;
            comma = ",";
        }
        out.flush()?;
    }
    match form {
        Form::Table => out.print(&foot(given, detected)),
        Form::Csv => Ok(()),
        Form::Json => out.print("\n]}\n"),
    }
}

fn foot(given: &Given, detected: usize) -> String {
    let over = given.of.steps().map_or(String::new(), |steps| format!(" over {}", count(steps as usize, "step")));
    format!("{}, {}{over}: {detected} detected\n", count(given.faults.len(), "fault"), count(given.patterns.len(), "pattern"))
}

/// What stands above the rows.
fn head(given: &Given, form: Form, width: usize) -> String {
    let Given { of, faults, patterns } = given;
    match form {
        Form::Table => numbers(patterns.len(), width),
        Form::Csv => csv_row(["fault".to_string()].into_iter().chain((0..patterns.len()).map(|number| number.to_string()))),
        Form::Json => {
            let names = list(faults.iter().map(|fault| fault.named(of.faulty())));
            let steps = of.steps().map_or(String::new(), |steps| format!("\"steps\": {steps},\n"));
            format!("{{{steps}\"faults\": {names},\n\"patterns\": {},\n\"entries\": [", list(patterns.iter().map(Pattern::letters)))
        }
    }
}

/// The numbers of the patterns, each written downwards behind a first column of this width.
fn numbers(patterns: usize, width: usize) -> String {
    let digits = patterns.saturating_sub(1).to_string().len();
    let written: Vec<String> = (0..patterns).map(|number| format!("{number:>digits$}")).collect();
    let row = |digit: usize| -> String {
        let name = if digit + 1 == digits { "fault" } else { "" };
        let across: String = written.iter().map(|number| &number[digit..=digit]).collect();
        format!("{name:width$} {across}\n")
    };
    (0..digits).map(row).collect()
}
