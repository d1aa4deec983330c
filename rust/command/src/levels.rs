//! The levels of lines: how far a line is from the inputs.
use crate::circuit::Circuit;

/// For each line the number of gates on the longest way to it: an input has 0, a gate one more than the highest of its sources.
pub fn levels(circuit: &Circuit) -> Vec<usize> {
    let mut levels = Vec::with_capacity(circuit.size());
    for line in 0..circuit.size() {
        let behind = circuit.sources(line).into_iter().map(|source: usize| levels[source] + 1).max();
        levels.push(behind.unwrap_or(0));
    }
    levels
}
