//! The clauses of a fault, for a SAT solver.
use super::Command;
use crate::circuit::Circuit;
use crate::fault::Fault;
use crate::out::Out;
use crate::problem::Problem;
use crate::replace::write_or_print;
use crate::words::{Choice, Words};
use std::fmt::Write;

pub const COMMAND: Command = Command {
    name: "clauses",
    usage: "CIRCUIT FAULT [--comments] [-o FILE]",
    wants: "a circuit and a fault",
    counts: 2..=2,
    choices: &[
        Choice { name: "--comments", value: None, says: "says before the clauses what each variable means" },
        Choice { name: "-o", value: Some("FILE"), says: "writes the clauses to FILE instead" },
    ],
    says: "writes clauses for a SAT solver that can be satisfied exactly if the fault has a test",
    more: "\
The clauses are in the DIMACS form. A vector of input values detects the fault exactly if it extends to an assignment that satisfies them all,
and then in exactly one way: where a solver finds one, its values of the inputs are a test, and where it proves that there is none, the fault
is redundant. The good value of line k, from 0, is variable 2k+1, and its faulty value 2k+2.",
    example: "ullimaqsu clauses examples/bench/c17.bench 16/0 --comments",
    run,
};

fn run(words: &Words, out: &mut Out) -> Result<(), Problem> {
    let file = words.at(0);
    let circuit = Circuit::load(file)?;
    let fault = Fault::given(&words.from(1).next().expect("two words were asked for"), &circuit)?;
    let comments = if words.has("--comments") { comments(&circuit, fault) } else { String::new() };
    let text = comments + &dimacs(&circuit, fault);
    write_or_print(words.place("-o", &[file])?, text.as_bytes(), out)
}

/// Asks how many words there will be, and then for the words.
fn dimacs(circuit: &Circuit, fault: Fault) -> String {
    let needed =
        ullimaqsu::clauses(&circuit.records, &fault.record(), &mut []).map_or_else(|refusal| refusal.place, |written| written.words);
    let mut words = vec![0; needed as usize];
    let written = ullimaqsu::clauses(&circuit.records, &fault.record(), &mut words)
        .expect("a circuit and a fault that were read, and as many words as are needed, are never refused");
    let mut text = format!("p cnf {} {}\n", written.variables, written.clauses);
    for word in words {
        let after = if word == 0 { '\n' } else { ' ' };
        write!(text, "{word}{after}").expect("a string takes all that is written to it");
    }
    text
}

/// What each variable means, as the library numbers them.
fn comments(circuit: &Circuit, fault: Fault) -> String {
    let stuck = 2 * circuit.size() + 1;
    let mut text = format!("c can be satisfied exactly if {} has a test\n", fault.named(circuit));
    for line in 0..circuit.size() {
        let name = circuit.name(line);
        text += &format!("c {} good value of {name}\nc {} faulty value of {name}\n", 2 * line + 1, 2 * line + 2);
    }
    text += &format!("c {stuck} stuck value\n");
    for (number, line) in (stuck + 1..).zip((0..circuit.size()).filter(|&line| circuit.is_output(line))) {
        text += &format!("c {number} difference at {}\n", circuit.name(line));
    }
    text
}
