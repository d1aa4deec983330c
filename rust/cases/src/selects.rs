//! What selectors are seen to do, so that a test can say that it has seen them do everything.
use crate::circuits::selectors;
use crate::Sort;

/// How selectors are wired.
pub const WIRED: [Sort; 5] = ["selector", "three lines", "select is a source", "one line for both sources", "one line for all three"];

/// What is stuck: the select pin, or the line that it reads.
pub const STUCK: [Sort; 4] = ["select pin at 0", "select pin at 1", "select line at 0", "select line at 1"];

/// What stands at the pins.
pub const VALUED: [Sort; 5] = ["select 0", "select 1", "select X, equal", "select X, unequal", "select X, source X"];

/// All of these.
pub const EVERY: [&[Sort]; 3] = [&WIRED, &STUCK, &VALUED];

/// What the selectors of a circuit do with some of its faults, where its lines have these values; none where nothing is known of them.
pub fn all(circuit: &[u8], faults: &[u8], values: &[u8]) -> Vec<Sort> {
    [wired(circuit), stuck(circuit, faults), valued(circuit, values)].concat()
}

/// How the selectors of a circuit are wired.
pub fn wired(circuit: &[u8]) -> Vec<Sort> {
    let sorts = |[first, second, select]: [usize; 3]| {
        let is_source = select == first || select == second;
        let hold = [true, first != second && !is_source, is_source, first == second, first == second && is_source];
        WIRED.into_iter().zip(hold).filter(|(_, holds)| *holds).map(|(sort, _)| sort)
    };
    selectors(circuit).flat_map(sorts).collect()
}

/// Which selects some faults of a circuit are at.
pub fn stuck(circuit: &[u8], faults: &[u8]) -> Vec<Sort> {
    let sort = |fault: &[u8]| {
        let (line, value) = (usize::from(u16::from_le_bytes([fault[0], fault[1]])), usize::from(fault[3]));
        match fault[2] {
            3 => Some(STUCK[value]),
            0 if selectors(circuit).any(|[.., select]| select == line) => Some(STUCK[2 + value]),
            _ => None,
        }
    };
    faults.chunks_exact(8).filter_map(sort).collect()
}

/// What stands at the selectors of a circuit whose lines have these values, first in the good circuit and then in a faulty one.
pub fn valued(circuit: &[u8], values: &[u8]) -> Vec<Sort> {
    let sort = |pins: [u8; 3]| match pins {
        [.., 0] => VALUED[0],
        [.., 1] => VALUED[1],
        [0, 0, _] | [1, 1, _] => VALUED[2],
        [0 | 1, 0 | 1, _] => VALUED[3],
        _ => VALUED[4],
    };
    let either = values.chunks_exact(circuit.len() / 8);
    either.flat_map(|values| selectors(circuit).map(move |pins| sort(pins.map(|line| values[line])))).collect()
}
