//! The dictionary maker for a clocked circuit: it is unfolded once, and then a table made of that, with each fault in every step; a byte at a time,
//! or 64 patterns at once.
use super::dictionary::{check_faults, check_patterns, Given};
use super::gates::Table;
use super::lanes::{self, gates::WordGates, ByPattern};
use super::report;
use super::simulate::{faulty_in_steps, good_values, Fault};
use super::unfold::{check_clocked, write, Sizes};

/// The records, the state records and the number of steps.
pub type Clocked<'a> = (&'a [u8], &'a [u8], u64);

/// Fills the table and the work memory, given the unfolded circuit.
pub type Fill = fn(&Given, &mut [u8], &mut [u8]);

/// A byte at a time.
pub use super::dictionary::fill as bytes;

/// 64 patterns at once, in words of its own. Then the last pattern with the last fault a byte at a time, for the work memory.
pub fn words<G: WordGates>(given: &Given, table: &mut [u8], work: &mut [u8]) {
    let n = given.lines();
    lanes::fill::<G, ByPattern>(given, table, &mut [0; 8192][..4 * n]);
    good_values::<Table>(given.circuit, &given.patterns[given.patterns.len() - given.inputs..], work, n);
    faulty_in_steps::<Table>(given.circuit, Fault::read(given.faults, given.fault_count() - 1), work, n, given.each);
}

fn dictionary(
    fill: Fill,
    (circuit, states, steps): Clocked,
    faults: &[u8],
    patterns: &[u8],
    table: &mut [u8],
    work: &mut [u8],
) -> Result<(), (u32, usize)> {
    let Sizes { each, steps, inputs } = check_clocked(circuit, states, steps)?;
    check_faults(circuit, faults, 256)?;
    check_patterns(patterns, inputs)?;
    let unfolded = &mut [0; 16384][..8 * steps * each];
    write(circuit, states, steps, unfolded);
    let given = Given { circuit: unfolded, each, inputs, faults, patterns };
    if table.len() != given.entries() || work.len() != 2 * given.lines() {
        return Err((10, 0));
    }
    fill(&given, table, work);
    Ok(())
}

pub fn enter(
    fill: Fill,
    clocked: Clocked,
    faults: &[u8],
    patterns: &[u8],
    table: &mut [u8],
    work: &mut [u8],
    answer: &mut [u8; 32],
) -> u32 {
    match dictionary(fill, clocked, faults, patterns, table, work) {
        Ok(()) => report(0, [0; 3], answer),
        Err((number, place)) => report(number, [place as u64, 0, 0], answer),
    }
}

#[cfg(test)]
mod tests {
    use super::super::gates::Branches;
    use super::super::lanes::gates::{Branches as WordBranches, Choices};
    use super::*;
    use cases::clocked::{self, small_given, Given};
    use cases::{damage, drawn, Random};
    use second::entries::{self, Seen};

    /// What is read, and what is lent.
    type Lent = (Given, Vec<u8>, Vec<u8>);

    /// A few patterns, or about as many as make one group or several.
    fn lent(random: &mut Random) -> Lent {
        let mut given = small_given(random);
        if random.once_in(4) {
            let count = random.pick(&[63, 64, 65, 128, 200]);
            given.patterns = given.clocked.patterns(random, count);
        }
        let (table, work) = (random.junk(given.entries()), random.junk(2 * given.clocked.lines()));
        (given, table, work)
    }

    /// One thing or several are wrong.
    fn damaged(random: &mut Random) -> Lent {
        let mut lent = lent(random);
        let lines = lent.0.clocked.each();
        damage::several(random, &mut lent, |random, (Given { clocked, faults, patterns }, table, work)| match random.below(8) {
            0..=3 => damage::files(random, [&mut clocked.circuit, faults, patterns], lines),
            4 => damage::states(random, &mut clocked.states, lines),
            5 => clocked.steps = damage::steps(random, clocked.steps),
            6 => table.resize(damage::size(random, table.len()), 7),
            _ => work.resize(damage::size(random, work.len()), 7),
        });
        lent
    }

    fn seen(fill: Fill, (Given { clocked, faults, patterns }, table, work): &Lent) -> Seen {
        let (mut table, mut work, mut answer) = (table.clone(), work.clone(), [7; 32]);
        let clocked::Clocked { circuit, states, steps } = clocked;
        let returned = enter(fill, (circuit, states, *steps), faults, patterns, &mut table, &mut work, &mut answer);
        Seen { returned, answer: answer.to_vec(), lent: vec![table.into(), work.into()] }
    }

    /// It leaves the same as the second program, which never unfolds, whatever fills the table.
    #[test]
    fn answers_as_the_second_program_does() {
        for lent in drawn(1, 5_000, lent).chain(drawn(2, 10_000, damaged)) {
            let (Given { clocked: clocked::Clocked { circuit, states, steps }, faults, patterns }, table, work) = &lent;
            let clocked = second::Clocked::read(circuit, states, *steps);
            let said = entries::unfold_dictionary(clocked, faults, patterns, table, work, &[7; 32]);
            for fill in [bytes::<Branches>, bytes::<Table>, words::<WordBranches>, words::<Choices>] {
                assert_eq!(seen(fill, &lent), said, "{lent:?}");
            }
        }
    }
}
