//! Is it a circuit?
use super::Command;
use crate::circuit::{counted, Circuit};
use crate::columns::widest;
use crate::heads::{Heads, Tree};
use crate::out::Out;
use crate::problem::Problem;
use crate::words::{Choice, Words};

pub const COMMAND: Command = Command {
    name: "check",
    usage: "CIRCUIT [--heads]",
    wants: "a circuit",
    counts: 1..=1,
    choices: &[Choice { name: "--heads", value: None, says: "also lists the head lines" }],
    says: "reads a circuit and says how many lines, inputs and outputs it has, or what is wrong where",
    more: "\
A line is bound if it can be reached from a branch of a line that two or more pins read. The other lines are free, and a head line is a free line that a
bound gate reads or that itself branches. The gates behind it are a tree, so that it can be set to 0 or 1 whatever the other head lines have: search
--heads decides at them. Each is listed by its name, with the numbers of inputs and of lines in its tree, itself included.",
    example: "ullimaqsu check examples/bench/c17.bench",
    run,
};

fn run(words: &Words, out: &mut Out) -> Result<(), Problem> {
    let circuit = Circuit::load(words.at(0))?;
    let heads = if words.has("--heads") { listed(&circuit) } else { String::new() };
    out.print(&(counted(&circuit.counts) + &heads))
}

/// The head lines, a row each.
fn listed(circuit: &Circuit) -> String {
    let heads = Heads::of(circuit);
    let width = widest(heads.lines.iter().map(|&head| circuit.name(head))).max("head".len());
    let row = |&head: &usize| {
        let Tree { inputs, lines } = Tree::behind(circuit, head);
        format!("{:width$} {inputs:>6} {lines:>5}\n", circuit.name(head))
    };
    let rows: String = heads.lines.iter().map(row).collect();
    format!("{:width$} inputs lines\n{rows}{}\n", "head", heads.counted(circuit))
}
