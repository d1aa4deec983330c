//! The clause writer: words counted first, then written once.
use super::check::check;
use super::dictionary::check_faults;
use super::simulate::Fault;
use super::{report, word, SELECTOR};

/// Words and clauses of a gate.
fn size(kind: u8) -> (usize, usize) {
    match kind {
        0 => (0, 0),
        1 | 2 => (6, 2),
        3..=6 => (10, 3),
        _ => (16, 4),
    }
}

fn put(words: &mut [i32], at: usize, clause: &[i32]) -> usize {
    words[at..at + clause.len()].copy_from_slice(clause);
    at + clause.len()
}

/// The clauses of a gate by its shape and signs, from place `at` on; the next place comes back.
fn put_gate(words: &mut [i32], at: usize, kind: u8, y: usize, pins: [usize; 3]) -> usize {
    let own = matches!(kind, 4 | 5 | 8);
    let of_negated = matches!(kind, 2 | 5 | 6);
    let literal = |v: usize, negated: bool| if negated { -(v as i32) } else { v as i32 };
    let (y, [a, b, s]) = (literal(y, own), pins.map(|pin| literal(pin, of_negated)));
    match kind {
        0 => at,
        1 | 2 => put(words, at, &[-y, a, 0, y, -a, 0]),
        3..=6 => put(words, at, &[-y, a, 0, -y, b, 0, y, -a, -b, 0]),
        SELECTOR => put(words, at, &[s, -y, a, 0, s, y, -a, 0, -s, -y, b, 0, -s, y, -b, 0]),
        _ => put(words, at, &[-y, a, b, 0, -y, -a, -b, 0, y, -a, b, 0, y, a, -b, 0]),
    }
}

fn faulty_kind(circuit: &[u8], fault: Fault, k: usize) -> u8 {
    if fault.line == k && fault.site == 0 {
        1
    } else {
        circuit[8 * k].max(1)
    }
}

fn clauses(circuit: &[u8], fault: &[u8], words: &mut [i32]) -> Result<[u64; 3], (u32, usize)> {
    let [n, _, outputs] = check(circuit)?;
    check_faults(circuit, fault, 1)?;
    let fault = Fault::read(fault, 0);
    let (mut need, mut count) = (17 * outputs + 3, 4 * outputs + 2);
    for k in 0..n {
        let (good, faulty) = (size(circuit[8 * k]), size(faulty_kind(circuit, fault, k)));
        need += good.0 + faulty.0;
        count += good.1 + faulty.1;
    }
    if words.len() < need {
        return Err((11, need));
    }
    let mut at = 0;
    for k in 0..n {
        let source = |s: usize| 2 * word(circuit, 8 * k + 2 * s) + 1;
        at = put_gate(words, at, circuit[8 * k], 2 * k + 1, [1, 2, 3].map(source));
    }
    let stuck = 2 * n + 1;
    at = put(words, at, &[if fault.value == 1 { stuck as i32 } else { -(stuck as i32) }, 0]);
    for k in 0..n {
        let source = |s: usize| {
            if fault.line == k && fault.site as usize == s {
                stuck
            } else {
                2 * word(circuit, 8 * k + 2 * s) + 2
            }
        };
        at = match circuit[8 * k] {
            _ if fault.line == k && fault.site == 0 => put_gate(words, at, 1, 2 * k + 2, [stuck; 3]),
            0 => put_gate(words, at, 1, 2 * k + 2, [2 * k + 1; 3]),
            kind => put_gate(words, at, kind, 2 * k + 2, [1, 2, 3].map(source)),
        };
    }
    let mut j = 0;
    for k in 0..n {
        if circuit[8 * k + 1] == 1 {
            at = put_gate(words, at, 7, 2 * n + 2 + j, [2 * k + 1, 2 * k + 2, 0]);
            j += 1;
        }
    }
    for j in 0..outputs {
        words[at] = (2 * n + 2 + j) as i32;
        at += 1;
    }
    words[at] = 0;
    Ok([need as u64, count as u64, (2 * n + 1 + outputs) as u64])
}

pub fn enter(circuit: &[u8], fault: &[u8], words: &mut [i32], answer: &mut [u8; 32]) -> u32 {
    match clauses(circuit, fault, words) {
        Ok(numbers) => report(0, numbers, answer),
        Err((number, place)) => report(number, [place as u64, 0, 0], answer),
    }
}

#[cfg(test)]
mod tests {
    use super::*;
    use cases::{circuits, damage, drawn, faults, Random};
    use second::entries::{self, Seen};

    /// A circuit and a fault, which one thing or several may be wrong with.
    fn given(random: &mut Random) -> [Vec<u8>; 2] {
        let mut circuit = circuits::small(random);
        let mut fault = faults::some(random, &circuit, 1);
        match random.below(4) {
            0 => damage::several(random, &mut circuit, damage::circuit),
            1 => damage::faults(random, &mut fault, circuit.len() / 8),
            _ => (),
        }
        [circuit, fault]
    }

    /// It writes the same as the second program.
    #[test]
    fn answers_as_the_second_program_does() {
        for [circuit, fault] in drawn(1, 5_000, given) {
            let (mut words, mut answer) = (vec![7; 20 * circuit.len() / 8], [7; 32]);
            let said = entries::clauses(&circuit, &fault, &words, &answer);
            let returned = enter(&circuit, &fault, &mut words, &mut answer);
            assert_eq!(Seen { returned, answer: answer.to_vec(), lent: vec![words.into()] }, said, "{circuit:?} {fault:?}");
        }
    }
}
