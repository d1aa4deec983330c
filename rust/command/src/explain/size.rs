//! Refusals 1, 4 and 5: a text that says too little, or too much. The header's words for them are about records.
use crate::notation::{Statement, Text};
use ullimaqsu::MOST_LINES;

/// The most inputs of a circuit.
pub const MOST_INPUTS: usize = 64;

const LINES: u32 = 1;
const INPUTS: u32 = 4;
const OUTPUTS: u32 = 5;

/// Nothing where the text has no such fault.
pub fn explain(text: &Text, number: u32) -> Option<String> {
    let lines = text.definitions().count();
    let inputs = lines - text.gates().count();
    // a flip-flop is an input of the circuit whose steps are unfolded
    let [all, those] = match text.flip_flops().next() {
        None => ["inputs and gates", "inputs"],
        Some(_) => ["inputs, flip-flops and gates", "inputs and flip-flops"],
    };
    match number {
        LINES if lines == 0 => Some("there is no INPUT and no gate in this text".to_string()),
        LINES if lines > MOST_LINES => Some(too_large("circuit", lines, all, MOST_LINES)),
        INPUTS if inputs > MOST_INPUTS => Some(too_large("circuit", inputs, those, MOST_INPUTS)),
        OUTPUTS if !has_output(text) => Some("there is no OUTPUT in this text".to_string()),
        _ => None,
    }
}

fn has_output(text: &Text) -> bool {
    text.statements.iter().any(|statement| matches!(statement, Statement::Output(_)))
}

pub fn too_large(what: &str, count: usize, of: &str, most: usize) -> String {
    format!("this {what} has {} {of}, and a {what} has at most {}", thousands(count), thousands(most))
}

/// A number as people read it.
pub fn thousands(number: usize) -> String {
    match number {
        0..1000 => number.to_string(),
        _ => format!("{},{:03}", thousands(number / 1000), number % 1000),
    }
}
