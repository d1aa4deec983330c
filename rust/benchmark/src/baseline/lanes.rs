//! The dictionary maker that carries 64 patterns at once: the good circuit once a group, the faulty one from the fault's line on.
pub mod gates;

use super::dictionary::{check_given, Given};
use super::simulate::Fault;
use super::{report, word, SELECTOR};
use gates::{Lanes, WordGates};

/// Where the entries of a table stand.
pub trait Order {
    fn place(pattern: usize, fault: usize, patterns: usize, faults: usize) -> usize;
}

/// Row by row, as the table has them.
pub struct ByPattern;

impl Order for ByPattern {
    fn place(pattern: usize, fault: usize, _patterns: usize, faults: usize) -> usize {
        pattern * faults + fault
    }
}

/// Those of a fault in one run of memory.
pub struct ByFault;

impl Order for ByFault {
    fn place(pattern: usize, fault: usize, patterns: usize, _faults: usize) -> usize {
        fault * patterns + pattern
    }
}

/// The lanes of line k, a gate, whose pins see this.
fn lanes<G: WordGates>(circuit: &[u8], k: usize, pin: impl Fn(u8) -> Lanes) -> Lanes {
    match circuit[8 * k] {
        SELECTOR => pin(1).selected(pin(2), pin(3)),
        kind => G::lanes(kind, pin(1), pin(2)),
    }
}

/// Gives every line from `start` on its lanes; an input's line has them already.
fn simulate_from<G: WordGates>(circuit: &[u8], words: &mut [[u64; 2]], start: usize) {
    for k in start..words.len() {
        if circuit[8 * k] != 0 {
            words[k] = lanes::<G>(circuit, k, |site| Lanes::of(words, word(circuit, 8 * k + 2 * site as usize))).words();
        }
    }
}

/// The good lanes of a group of patterns. Those that no pattern has are X.
fn good_lanes<G: WordGates>(circuit: &[u8], group: &[u8], inputs: usize, good: &mut [[u64; 2]]) {
    let mut used = 0;
    for k in 0..good.len() {
        if circuit[8 * k] == 0 {
            let (mut ones, mut zeros) = (0, 0);
            for i in 0..group.len() / inputs {
                let value = group[i * inputs + used];
                ones |= u64::from(value == 1) << i;
                zeros |= u64::from(value == 0) << i;
            }
            good[k] = [ones, zeros];
            used += 1;
        }
    }
    simulate_from::<G>(circuit, good, 0);
}

/// The lanes of a line where the fault is.
fn stuck_lanes<G: WordGates>(circuit: &[u8], fault: Fault, line: usize, words: &[[u64; 2]]) -> Lanes {
    let stuck = Lanes::stuck(fault.value);
    let pin = |site: u8| if site == fault.site { stuck } else { Lanes::of(words, word(circuit, 8 * line + 2 * site as usize)) };
    if fault.site == 0 {
        stuck
    } else {
        lanes::<G>(circuit, line, pin)
    }
}

/// The faulty lanes, with the fault in each step of so many lines: those below its line in the first are the good ones.
fn faulty_lanes<G: WordGates>(circuit: &[u8], fault: Fault, each: usize, good: &[[u64; 2]], faulty: &mut [[u64; 2]]) {
    faulty.copy_from_slice(good);
    let mut line = fault.line;
    while line < good.len() {
        let next = line + each;
        faulty[line] = stuck_lanes::<G>(circuit, fault, line, faulty).words();
        simulate_from::<G>(circuit, &mut faulty[..next.min(good.len())], line + 1);
        line = next;
    }
}

/// The lanes whose entry is fail, and those whose entry is unknown. Below the fault's line both circuits agree.
fn entries(circuit: &[u8], line: usize, good: &[[u64; 2]], faulty: &[[u64; 2]]) -> [u64; 2] {
    let (mut fails, mut misses) = (0, 0);
    for k in line..good.len() {
        if circuit[8 * k + 1] == 1 {
            let (a, b) = (Lanes::of(good, k), Lanes::of(faulty, k));
            fails |= a.ones & b.zeros | a.zeros & b.ones;
            misses |= a.ones & !b.ones | a.zeros & !b.zeros;
        }
    }
    [fails, misses & !fails]
}

/// Fills the table. The work memory has the good lanes, then the faulty ones.
pub fn fill<G: WordGates, O: Order>(given: &Given, table: &mut [u8], work: &mut [u64]) {
    let Given { circuit, each, inputs, faults, patterns } = *given;
    let [fault_count, pattern_count] = [given.fault_count(), given.pattern_count()];
    let (lines, _) = work.as_chunks_mut();
    let (good, faulty) = lines.split_at_mut(given.lines());
    for (number, group) in patterns.chunks(64 * inputs).enumerate() {
        good_lanes::<G>(circuit, group, inputs, good);
        for j in 0..fault_count {
            let fault = Fault::read(faults, j);
            faulty_lanes::<G>(circuit, fault, each, good, faulty);
            let [mut fails, mut unknown] = entries(circuit, fault.line, good, faulty);
            for i in 0..group.len() / inputs {
                table[O::place(64 * number + i, j, pattern_count, fault_count)] = (fails & 1) as u8 + 2 * (unknown & 1) as u8;
                fails >>= 1;
                unknown >>= 1;
            }
        }
    }
}

fn dictionary<G: WordGates, O: Order>(
    circuit: &[u8],
    faults: &[u8],
    patterns: &[u8],
    table: &mut [u8],
    work: &mut [u64],
) -> Result<(), (u32, usize)> {
    let given = check_given(circuit, faults, patterns)?;
    if table.len() != given.entries() || work.len() != 4 * given.lines() {
        return Err((10, 0));
    }
    fill::<G, O>(&given, table, work);
    Ok(())
}

pub fn enter<G: WordGates, O: Order>(
    circuit: &[u8],
    faults: &[u8],
    patterns: &[u8],
    table: &mut [u8],
    work: &mut [u64],
    answer: &mut [u8; 32],
) -> u32 {
    match dictionary::<G, O>(circuit, faults, patterns, table, work) {
        Ok(()) => report(0, [0; 3], answer),
        Err((number, place)) => report(number, [place as u64, 0, 0], answer),
    }
}

#[cfg(test)]
mod tests {
    use super::gates::{Branches, Choices};
    use super::*;
    use cases::{damage, drawn, files, Files, Random};
    use second::entries::{self, Seen};

    /// What is read, and what is lent.
    type Given = (Files, Vec<u8>, Vec<u64>);

    fn given(random: &mut Random) -> Given {
        let count = random.pick(&[1, 5, 63, 64, 65, 128, 200]);
        let files = files::small(random, count);
        let (table, work) = (random.junk(files.entries()), random.junk_words(4 * files.lines()));
        (files, table, work)
    }

    /// One thing or several are wrong.
    fn damaged(random: &mut Random) -> Given {
        let mut given = given(random);
        let lines = given.0.lines();
        damage::several(random, &mut given, |random, (Files { circuit, faults, patterns }, table, work)| match random.below(4) {
            0..=1 => damage::files(random, [circuit, faults, patterns], lines),
            2 => table.resize(damage::size(random, table.len()), 7),
            _ => work.resize(damage::size(random, work.len()), 7),
        });
        given
    }

    fn seen<G: WordGates>((Files { circuit, faults, patterns }, table, work): &Given) -> Seen {
        let (mut table, mut work, mut answer) = (table.clone(), work.clone(), [7; 32]);
        let returned = enter::<G, ByPattern>(circuit, faults, patterns, &mut table, &mut work, &mut answer);
        Seen { returned, answer: answer.to_vec(), lent: vec![table.into(), work.into()] }
    }

    /// It leaves the same as the second program, which simulates each pattern on its own.
    #[test]
    fn answers_as_the_second_program_does() {
        for given in drawn(1, 2_000, given).chain(drawn(2, 5_000, damaged)) {
            let (Files { circuit, faults, patterns }, table, work) = &given;
            let said = entries::dictionary_lanes(circuit, faults, patterns, table, work, &[7; 32]);
            assert_eq!(seen::<Branches>(&given), said, "{given:?}");
            assert_eq!(seen::<Choices>(&given), said, "{given:?}");
        }
    }
}
