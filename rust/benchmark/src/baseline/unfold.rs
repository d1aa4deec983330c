//! The unfolding of a clocked circuit: each step a copy with its sources moved, then the state lines and the data lines.
use super::check::check;
use super::{pins, report, word};

/// A clocked circuit that is sound: its numbers of lines in a step, of steps, and of inputs over all steps.
pub struct Sizes {
    pub each: usize,
    pub steps: usize,
    pub inputs: usize,
}

fn state_ok(circuit: &[u8], states: &[u8], j: usize) -> bool {
    let (data, line) = (word(states, 4 * j), word(states, 4 * j + 2));
    8 * data < circuit.len() && 8 * line < circuit.len() && circuit[8 * line] == 0 && (0..j).all(|i| word(states, 4 * i + 2) != line)
}

/// Refusals 1, 2, 4, 5, 21, 18 and 19.
pub fn check_clocked(circuit: &[u8], states: &[u8], steps: u64) -> Result<Sizes, (u32, usize)> {
    let [each, inputs, _] = check(circuit)?;
    if !(1..=8).contains(&steps) {
        return Err((21, 0));
    }
    if !states.len().is_multiple_of(4) {
        return Err((18, 0));
    }
    if let Some(bad) = (0..states.len() / 4).find(|&j| !state_ok(circuit, states, j)) {
        return Err((18, bad));
    }
    let steps = steps as usize;
    let inputs = inputs + (steps - 1) * (inputs - states.len() / 4);
    if steps * each > 2048 || inputs > 64 {
        return Err((19, 0));
    }
    Ok(Sizes { each, steps, inputs })
}

fn put(bytes: &mut [u8], at: usize, number: usize) {
    bytes[at..at + 2].copy_from_slice(&(number as u16).to_le_bytes());
}

/// Writes the unfolded circuit of a sound one.
pub fn write(circuit: &[u8], states: &[u8], steps: usize, unfolded: &mut [u8]) {
    let each = circuit.len() / 8;
    for (step, copy) in unfolded.chunks_exact_mut(circuit.len()).enumerate() {
        copy.copy_from_slice(circuit);
        for record in copy.chunks_exact_mut(8) {
            for s in 1..=pins(record[0]) {
                put(record, 2 * s, word(record, 2 * s) + step * each);
            }
        }
    }
    for state in states.chunks_exact(4) {
        let (data, line) = (word(state, 0), word(state, 2));
        for step in 1..steps {
            let at = 8 * (step * each + line);
            unfolded[at] = 1;
            put(unfolded, at + 2, (step - 1) * each + data);
        }
        unfolded[8 * ((steps - 1) * each + data) + 1] = 1;
    }
}

fn unfold(circuit: &[u8], states: &[u8], steps: u64, unfolded: &mut [u8]) -> Result<usize, (u32, usize)> {
    let Sizes { each, steps, .. } = check_clocked(circuit, states, steps)?;
    if unfolded.len() != 8 * steps * each {
        return Err((10, 0));
    }
    write(circuit, states, steps, unfolded);
    Ok(steps * each)
}

pub fn enter(circuit: &[u8], states: &[u8], steps: u64, unfolded: &mut [u8], answer: &mut [u8; 32]) -> u32 {
    match unfold(circuit, states, steps, unfolded) {
        Ok(lines) => report(0, [lines as u64, 0, 0], answer),
        Err((number, place)) => report(number, [place as u64, 0, 0], answer),
    }
}

#[cfg(test)]
mod tests {
    use super::*;
    use cases::clocked::{self, small, Clocked};
    use cases::{damage, drawn, Random};
    use second::entries::{self, Seen};

    /// What is read, and what is lent.
    type Given = (Clocked, Vec<u8>);

    fn given(random: &mut Random) -> Given {
        let clocked = small(random);
        let unfolded = random.junk(8 * clocked.lines());
        (clocked, unfolded)
    }

    /// One thing or several are wrong.
    fn damaged(random: &mut Random) -> Given {
        let mut given = given(random);
        let lines = given.0.each();
        damage::several(random, &mut given, |random, (Clocked { circuit, states, steps }, unfolded)| match random.below(6) {
            0 => damage::circuit(random, circuit),
            1..=3 => damage::states(random, states, lines),
            4 => *steps = damage::steps(random, *steps),
            _ => unfolded.resize(damage::size(random, unfolded.len()), 7),
        });
        given
    }

    /// At and beyond the most lines and inputs.
    fn bounds(random: &mut Random) -> Vec<Given> {
        let all = [clocked::input_bounds(random), clocked::line_bounds(random)].concat();
        all.into_iter().map(|clocked| (clocked.clone(), random.junk(8 * clocked.lines()))).collect()
    }

    #[test]
    fn answers_as_the_second_program_does() {
        for given in drawn(1, 5_000, given).chain(drawn(2, 20_000, damaged)).chain(drawn(3, 5, bounds).flatten()) {
            let (Clocked { circuit, states, steps }, unfolded) = &given;
            let (mut left, mut answer) = (unfolded.clone(), [7; 32]);
            let returned = enter(circuit, states, *steps, &mut left, &mut answer);
            let seen = Seen { returned, answer: answer.to_vec(), lent: vec![left.into()] };
            assert_eq!(seen, entries::unfold(circuit, states, *steps, unfolded, &[7; 32]), "{given:?}");
        }
    }
}
