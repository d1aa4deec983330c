//! Tests for faults.
mod brought;
mod pieces;
mod printer;
mod way;

use super::Command;
use crate::circuit::Circuit;
use crate::fault::{self, Fault};
use crate::form::{Form, CSV, JSON};
use crate::out::Out;
use crate::problem::Problem;
use crate::replace::once_printed;
use crate::words::{cited, Choice, Words};
use pieces::{search_all, Found};
use printer::Printer;
use std::path::Path;
use way::Way;

pub const COMMAND: Command = Command {
    name: "search",
    usage: "CIRCUIT (FAULT.. | --all | --faults FILE) [--heads [--compare]] [--budget N] [-o FILE] [--csv | --json]",
    wants: "a circuit and then faults, or --all, or --faults FILE",
    counts: 1..=usize::MAX,
    choices: &[
        Choice { name: "--all", value: None, says: "searches for every fault of the circuit, at its pins too" },
        Choice { name: "--faults", value: Some("FILE"), says: "searches for the faults of FILE" },
        Choice { name: "--heads", value: None, says: "decides at head lines instead of inputs, for the faults that this serves" },
        Choice { name: "--compare", value: None, says: "with --heads: searches over inputs too, and says what head lines brought" },
        Choice { name: "--budget", value: Some("N"), says: "looks at N nodes at most for each fault (100000 if nothing is said)" },
        Choice { name: "-o", value: Some("FILE"), says: "writes the tests to FILE, as patterns with their faults as comments" },
        CSV,
        JSON,
    ],
    says: "searches for a test of each fault, or finds that there is none",
    more: "\
Prints for each fault the outcome, how many nodes were looked at, and the test, a value for each input: 0, 1, or X where either will do. The outcome
is `test`; `redundant` where no pattern at all detects the fault; or `given up` where the search would look at more nodes than its budget.

With --heads the search decides at head lines, which check --heads lists, and once it has a test sets the trees behind them: a wide tree is one
decision. It does so for faults at bound lines and their pins, and for a head line that is stuck; for any other fault it is the search over inputs. Where
both reach a verdict, a test or redundant, they agree, though nodes and tests may differ. Each fault is searched for alone, so that where head lines
serve few faults it takes longer. A line below the table says how many faults were searched for which way.

With --compare the faults that are searched for over head lines are searched for over inputs too. One line more says how many nodes that takes and
how many faults it gives up, and how many verdicts head lines bring and lose. This can take far longer: on wide trees the search over inputs uses up its
budget.",
    example: "ullimaqsu search examples/bench/c17.bench --all",
    run,
};

/// The budget if nothing is said, as the help has it.
const BUDGET: u64 = 100_000;

fn run(words: &Words, out: &mut Out) -> Result<(), Problem> {
    let (form, budget) = (Form::of(words, &COMMAND)?, budget(words)?);
    let ways = [words.path(1).is_some(), words.has("--all"), words.has("--faults")];
    if ways.into_iter().filter(|way| *way).count() != 1 {
        return Err(COMMAND.misused(&format!("wants {}", COMMAND.wants)));
    }
    if words.has("--compare") && !words.has("--heads") {
        return Err(COMMAND.misused("wants --heads where --compare is given"));
    }
    let circuit = Circuit::load(words.at(0))?;
    let (faults, way) = (asked(words, &circuit)?, Way::asked(words, &circuit));
    // a search may be long: whether its tests can be written is seen before
    let place = words.place("-o", &sources(words))?;
    let mut printer = Printer::new(form, &circuit, &faults, budget, &way);
    out.print(&printer.head())?;
    out.flush()?;
    let found = search_all(&circuit, &faults, budget, &way, |piece| {
        piece.iter().try_for_each(|found| out.print(&printer.line(found)))?;
        out.flush()
    })?;
    once_printed(place.map(|place| (place, tests(&circuit, &found))), printer.foot(&found), out)
}

fn budget(words: &Words) -> Result<u64, Problem> {
    let Some(value) = words.value("--budget") else { return Ok(BUDGET) };
    let none = || COMMAND.misused(&format!("wants a number of nodes after --budget, and {} is none", cited(value)));
    value.to_string_lossy().parse().map_err(|_| none())
}

/// The faults that are searched for.
fn asked(words: &Words, circuit: &Circuit) -> Result<Vec<Fault>, Problem> {
    match words.file("--faults") {
        Some(file) => fault::load(file, circuit),
        None if words.has("--all") => Ok(fault::all(circuit, true)),
        None => words.from(1).map(|word| Fault::given(&word, circuit)).collect(),
    }
}

/// The files that were read.
fn sources(words: &Words) -> Vec<&Path> {
    [Some(words.at(0)), words.file("--faults")].into_iter().flatten().collect()
}

/// The tests as a file of patterns.
fn tests(circuit: &Circuit, found: &[Found]) -> String {
    let line = |found: &Found| Some(format!("{} # {}\n", found.test.as_ref()?.letters(), found.fault.named(circuit)));
    found.iter().filter_map(line).collect()
}
