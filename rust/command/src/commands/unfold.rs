//! Several clock steps as one circuit.
use super::Command;
use crate::circuit::{counted, Circuit};
use crate::columns;
use crate::out::Out;
use crate::problem::Problem;
use crate::replace::{once_printed, Place};
use crate::unfolded::{steps, Unfolded};
use crate::words::{Choice, Words};

pub const COMMAND: Command = Command {
    name: "unfold",
    usage: "TEXT K [OUT] [--lines]",
    wants: "a text, a number of steps, and perhaps where to write",
    counts: 2..=3,
    choices: &[Choice { name: "--lines", value: None, says: "also lists the lines: their numbers, and their names with their steps" }],
    says: "unfolds a circuit with flip-flops over K clock steps, 1 to 8, into a circuit without, and writes its records to OUT",
    more: "\
TEXT is in the bench notation, with flip-flops besides: Q = DFF(D). D is any name of the text, and Q the state line that has at each step, from the
second on, what D had at the step before; at the first step it is an input.

It says how many lines, inputs and outputs all steps have together, and how many steps, lines a step and state lines there are. In the records the lines
of step 1 come first, then those of step 2, and so on. A state line from step 2 on is a buffer of its data line one step earlier. The outputs of all
steps are outputs, and so are the data lines of the last step. The inputs are, in the order of the lines, all of step 1, the state lines among them,
and then of each later step those that are no state lines: a pattern has its values in this order. In the list line G17 of step 2 is G17@2.

OUT is replaced as a whole when all has gone well, and else stays, as with bench. Where none is named, nothing is written. Gates of three and
more sources are refused; ullimaqsu narrow rewrites them.",
    example: "ullimaqsu unfold examples/s27/s27.bench 2 --lines",
    run,
};

fn run(words: &Words, out: &mut Out) -> Result<(), Problem> {
    let (file, steps) = (words.at(0), steps(words.at(1).as_os_str(), &COMMAND)?);
    let unfolded = Unfolded::load(file, steps)?;
    let place = words.path(2).map(|path| Place::find(path, &[file])).transpose()?;
    let lines = if words.has("--lines") { listed(&unfolded.circuit) } else { String::new() };
    once_printed(place.map(|place| (place, &unfolded.circuit.records)), summary(&unfolded) + &lines, out)
}

fn summary(unfolded: &Unfolded) -> String {
    let Unfolded { clocked, steps, circuit } = unfolded;
    let (lines, states) = (clocked.circuit.size(), clocked.states.len() / 4);
    format!("{}steps {steps}, lines a step {lines}, state lines {states}\n", counted(&circuit.counts))
}

/// The lines, a row each.
fn listed(circuit: &Circuit) -> String {
    let heads = ["number", "line", "kind", "sources", "output"].map(String::from).to_vec();
    let row = |line: usize| {
        let output = if circuit.is_output(line) { "output" } else { "" };
        [line.to_string()].into_iter().chain(circuit.cells(line)).chain([output.to_string()]).collect()
    };
    columns::table(&[heads].into_iter().chain((0..circuit.size()).map(row)).collect::<Vec<Vec<String>>>())
}
