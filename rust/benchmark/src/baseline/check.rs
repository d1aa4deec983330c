//! The circuit check.
use super::{pins, report, word, SELECTOR};

fn pin_ok(circuit: &[u8], k: usize, s: usize) -> bool {
    let from = word(circuit, 8 * k + 2 * s);
    if s <= pins(circuit[8 * k]) {
        return from < k;
    }
    from == 0
}

/// Where in the record of line k the first field begins that breaks its rule.
fn bad_byte(circuit: &[u8], k: usize) -> Option<usize> {
    if circuit[8 * k] > SELECTOR {
        return Some(0);
    }
    if circuit[8 * k + 1] > 1 {
        return Some(1);
    }
    (1..=3).find(|&s| !pin_ok(circuit, k, s)).map(|s| 2 * s)
}

/// The numbers of lines, inputs and outputs, or the number of the refusal and its place.
pub fn check(circuit: &[u8]) -> Result<[usize; 3], (u32, usize)> {
    if circuit.is_empty() || !circuit.len().is_multiple_of(8) || circuit.len() / 8 > 2048 {
        return Err((1, 0));
    }
    let n = circuit.len() / 8;
    let (mut inputs, mut outputs) = (0, 0);
    for k in 0..n {
        if let Some(byte) = bad_byte(circuit, k) {
            return Err((2, 8 * k + byte));
        }
        inputs += usize::from(circuit[8 * k] == 0);
        outputs += usize::from(circuit[8 * k + 1]);
    }
    match (inputs, outputs) {
        (65.., _) => Err((4, 0)),
        (_, 0) => Err((5, 0)),
        _ => Ok([n, inputs, outputs]),
    }
}

pub fn enter(circuit: &[u8], answer: &mut [u8; 32]) -> u32 {
    match check(circuit) {
        Ok(counts) => report(0, counts.map(|count| count as u64), answer),
        Err((number, place)) => report(number, [place as u64, 0, 0], answer),
    }
}
