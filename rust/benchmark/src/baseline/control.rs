//! How hard lines are to set: the readings of each line are counted, as far as 2, and then one pass goes over the lines.
use super::check::check;
use super::report;
use super::search_heads::{count_reads, source};

/// 2^-500, by its bits.
const FLOOR: f64 = f64::from_bits((1023 - 500) << 52);

/// The chances of 0 and of 1.
type Chances = [f64; 2];

fn larger(a: f64, b: f64) -> f64 {
    if a < b {
        b
    } else {
        a
    }
}

fn not([zero, one]: Chances) -> Chances {
    [one, zero]
}

fn and(p: Chances, q: Chances) -> Chances {
    [larger(p[0], q[0]), p[1] * q[1]]
}

fn or(p: Chances, q: Chances) -> Chances {
    [p[0] * q[0], larger(p[1], q[1])]
}

fn xor(p: Chances, q: Chances) -> Chances {
    [larger(p[0] * q[0], p[1] * q[1]), larger(p[0] * q[1], p[1] * q[0])]
}

fn selected(p: Chances, q: Chances, select: Chances) -> Chances {
    [0, 1].map(|value| larger(select[0] * p[value], select[1] * q[value]))
}

/// What a gate of this kind makes of what its pins see.
fn made(kind: u8, pin: impl Fn(usize) -> Chances) -> Chances {
    match kind {
        0 => [1.0, 1.0],
        1 => pin(1),
        2 => not(pin(1)),
        3 => and(pin(1), pin(2)),
        4 => not(and(pin(1), pin(2))),
        5 => or(pin(1), pin(2)),
        6 => not(or(pin(1), pin(2))),
        7 => xor(pin(1), pin(2)),
        8 => not(xor(pin(1), pin(2))),
        _ => selected(pin(1), pin(2), pin(3)),
    }
}

fn control(circuit: &[u8], ones: &mut [f64], zeros: &mut [f64]) -> Result<[u64; 3], (u32, usize)> {
    let [n, ..] = check(circuit)?;
    if ones.len() != n || zeros.len() != n {
        return Err((10, 0));
    }
    let mut reads = [0; 2048];
    count_reads(circuit, &mut reads[..n]);
    for k in 0..n {
        let [zero, one] = made(circuit[8 * k], |s| {
            let from = source(circuit, k, s);
            let seen = if reads[from] == 2 { 0.5 } else { 1.0 };
            [seen * zeros[from], seen * ones[from]]
        });
        zeros[k] = larger(zero, FLOOR);
        ones[k] = larger(one, FLOOR);
    }
    Ok([0; 3])
}

pub fn enter(circuit: &[u8], ones: &mut [f64], zeros: &mut [f64], answer: &mut [u8; 32]) -> u32 {
    match control(circuit, ones, zeros) {
        Ok(numbers) => report(0, numbers, answer),
        Err((number, place)) => report(number, [place as u64, 0, 0], answer),
    }
}

#[cfg(test)]
mod tests {
    use super::*;
    use cases::{circuits, control, damage, drawn, trees, Random};
    use second::entries::{self, Seen};

    /// A circuit, and what is lent.
    type Given = (Vec<u8>, Vec<f64>, Vec<f64>);

    fn lend(random: &mut Random, circuit: Vec<u8>) -> Given {
        let [ones, zeros] = [(); 2].map(|_| random.junk_f64(circuit.len() / 8));
        (circuit, ones, zeros)
    }

    fn sound(random: &mut Random) -> Given {
        let circuit = random.pick(&[circuits::small, trees::few_inputs, trees::many_inputs])(random);
        lend(random, circuit)
    }

    /// One thing or several are wrong.
    fn damaged(random: &mut Random) -> Given {
        let mut given = sound(random);
        damage::several(random, &mut given, |random, (circuit, ones, zeros)| match random.below(3) {
            0 => damage::circuit(random, circuit),
            1 => ones.resize(damage::size(random, ones.len()), 7.0),
            _ => zeros.resize(damage::size(random, zeros.len()), 7.0),
        });
        given
    }

    #[test]
    fn answers_as_the_second_program_does() {
        let random = &mut Random::new(3);
        let by_hand = control::every().into_iter().map(|by_hand| lend(random, by_hand.circuit));
        for (circuit, ones, zeros) in drawn(1, 10_000, sound).chain(drawn(2, 10_000, damaged)).chain(by_hand) {
            let (mut left_ones, mut left_zeros, mut answer) = (ones.clone(), zeros.clone(), [7; 32]);
            let returned = enter(&circuit, &mut left_ones, &mut left_zeros, &mut answer);
            let seen = Seen { returned, answer: answer.to_vec(), lent: vec![left_ones.into(), left_zeros.into()] };
            assert_eq!(seen, entries::control(&circuit, &ones, &zeros, &[7; 32]), "{circuit:?}");
        }
    }
}
