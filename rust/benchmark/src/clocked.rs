//! Several clock steps: s27 over four, and a circuit over eight that then has as many lines and inputs as it may.
use crate::baseline::gates::{Branches, Table};
use crate::baseline::lanes::gates::{self as word_gates, Choices};
use crate::baseline::unfold_dictionary::{bytes, words, Fill};
use crate::baseline::{unfold, unfold_dictionary};
use crate::timing::{race, race_all, timed, Row};
use cases::clocked::{self, s27, Clocked, Given};
use cases::{faults, Random};
use std::hint::black_box;
use ullimaqsu::raw::{enter, Call};

/// A table, a work memory and an answer.
type Made = (Vec<u8>, Vec<u8>, [u8; 32]);

fn unmade(given: &Given) -> Made {
    (vec![0; given.entries()], vec![0; 2 * given.clocked.lines()], [0; 32])
}

/// Faults on lines, and patterns.
fn given(clocked: Clocked, fault_count: usize, pattern_count: usize) -> Given {
    let random = &mut Random::new(8);
    let faults = (0..fault_count).flat_map(|_| faults::record(random.below(clocked.each()), 0, random.below(2) == 1)).collect();
    let patterns = (0..pattern_count * clocked.inputs()).map(|_| random.below(3) as u8).collect();
    Given { clocked, faults, patterns }
}

fn small() -> Given {
    given(s27(4), 32, 16)
}

fn large() -> Given {
    given(clocked::clocked(&mut Random::new(9), 256, 15, 8, 8), 256, 64)
}

fn unfolding(name: &str, Clocked { circuit, states, steps }: &Clocked) -> Row {
    let mut proved = (vec![0; *steps as usize * circuit.len()], [0; 32]);
    let mut plain = proved.clone();
    let row = race(
        name,
        || {
            let (unfolded, answer) = &mut proved;
            enter(Call::Unfold { circuit: black_box(circuit), states, steps: *steps, unfolded, answer })
        },
        || unfold::enter(black_box(circuit), states, *steps, &mut plain.0, &mut plain.1),
    );
    assert_eq!(proved, plain);
    row
}

fn proved(Given { clocked, faults, patterns }: &Given, (table, work, answer): &mut Made) -> u32 {
    let Clocked { circuit, states, steps } = clocked;
    enter(Call::UnfoldDictionary { circuit: black_box(circuit), states, steps: *steps, faults, patterns, table, work, answer })
}

fn plain(fill: Fill, Given { clocked, faults, patterns }: &Given, (table, work, answer): &mut Made) -> u32 {
    let Clocked { circuit, states, steps } = clocked;
    unfold_dictionary::enter(fill, (black_box(circuit), states, *steps), faults, patterns, table, work, answer)
}

/// The proved dictionary that simulates a byte at a time, of the circuit that is unfolded already: with as many faults, each in step 1 alone.
fn proved_bytes(unfolded: &[u8], Given { faults, patterns, .. }: &Given, (table, work, answer): &mut Made) -> u32 {
    enter(Call::Dictionary { circuit: black_box(unfolded), faults, patterns, table, work, answer })
}

/// The dictionary, in the columns of `BESIDE_LANES`. The last has another table, since no proved dictionary has a fault in each step but this.
fn dictionary(name: &str, given: &Given) -> Row<6> {
    let Clocked { circuit, states, steps } = &given.clocked;
    let mut unfolded = vec![0; 8 * given.clocked.lines()];
    ullimaqsu::unfold(circuit, states, *steps, &mut unfolded).expect("sound");
    let [mut made, mut choices, mut branches, mut by_byte, mut by_table, mut in_step_1] = [(); 6].map(|_| unmade(given));
    let row = race_all(
        name,
        [
            &mut timed(|| proved(given, &mut made)),
            &mut timed(|| plain(words::<Choices>, given, &mut choices)),
            &mut timed(|| plain(words::<word_gates::Branches>, given, &mut branches)),
            &mut timed(|| plain(bytes::<Branches>, given, &mut by_byte)),
            &mut timed(|| plain(bytes::<Table>, given, &mut by_table)),
            &mut timed(|| proved_bytes(&unfolded, given, &mut in_step_1)),
        ],
    );
    assert_eq!(proved_bytes(&unfolded, given, &mut in_step_1), 0, "sound");
    assert_eq!([&made; 4], [&choices, &branches, &by_byte, &by_table], "{name}");
    row
}

/// What is timed, from the large to the small.
fn sizes() -> [(&'static str, Given); 2] {
    [("8 steps of 256 lines", large()), ("4 steps of s27", small())]
}

pub fn unfoldings() -> impl Iterator<Item = Row> {
    sizes().into_iter().map(|(name, given)| unfolding(name, &given.clocked))
}

pub fn dictionaries() -> impl Iterator<Item = Row<6>> {
    sizes().into_iter().map(|(name, given)| {
        let (faults, patterns) = (given.faults.len() / 8, given.patterns.len() / given.clocked.inputs());
        dictionary(&format!("{name}, {faults} faults, {patterns} patterns"), &given)
    })
}

#[cfg(test)]
mod tests {
    use super::*;

    #[test]
    fn sizes_are_what_rows_say() {
        let sizes = |Given { clocked, faults, .. }: Given| (clocked.lines(), clocked.inputs(), clocked.states.len() / 4, faults.len() / 8);
        assert_eq!(sizes(small()), (4 * 17, 19, 3, 32));
        assert_eq!(sizes(large()), (8 * 256, 64, 8, 256));
    }
}
