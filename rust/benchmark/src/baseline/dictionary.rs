//! The dictionary maker: the good circuit once a pattern, the faulty one from the fault's line on.
use super::check::check;
use super::gates::Gates;
use super::simulate::{entry, faulty_in_steps, good_values, Fault};
use super::{pins, report, word};

/// What a table is made of, and is sound. So many lines are a step, and a fault is in each; as a rule all lines are one.
pub struct Given<'a> {
    pub circuit: &'a [u8],
    pub each: usize,
    pub inputs: usize,
    pub faults: &'a [u8],
    pub patterns: &'a [u8],
}

impl Given<'_> {
    pub fn lines(&self) -> usize {
        self.circuit.len() / 8
    }

    pub fn fault_count(&self) -> usize {
        self.faults.len() / 8
    }

    pub fn pattern_count(&self) -> usize {
        self.patterns.len() / self.inputs
    }

    pub fn entries(&self) -> usize {
        self.fault_count() * self.pattern_count()
    }
}

fn fault_ok(circuit: &[u8], faults: &[u8], j: usize) -> bool {
    let fault = Fault::read(faults, j);
    fault.line < circuit.len() / 8
        && fault.site as usize <= pins(circuit[8 * fault.line])
        && fault.value <= 1
        && word(faults, 8 * j + 4) == 0
        && word(faults, 8 * j + 6) == 0
}

/// Refusals 6 and 7.
pub fn check_faults(circuit: &[u8], faults: &[u8], most: usize) -> Result<(), (u32, usize)> {
    if faults.is_empty() || !faults.len().is_multiple_of(8) || faults.len() / 8 > most {
        return Err((6, 0));
    }
    match (0..faults.len() / 8).find(|&j| !fault_ok(circuit, faults, j)) {
        Some(bad) => Err((7, bad)),
        None => Ok(()),
    }
}

/// Refusals 8 and 9.
pub fn check_patterns(patterns: &[u8], inputs: usize) -> Result<(), (u32, usize)> {
    if patterns.is_empty() || !patterns.len().is_multiple_of(inputs) || patterns.len() / inputs > 256 {
        return Err((8, 0));
    }
    match patterns.iter().position(|&v| v > 2) {
        Some(bad) => Err((9, bad)),
        None => Ok(()),
    }
}

/// Refusals 1, 2 and 4 to 9.
pub fn check_given<'a>(circuit: &'a [u8], faults: &'a [u8], patterns: &'a [u8]) -> Result<Given<'a>, (u32, usize)> {
    let [n, inputs, _] = check(circuit)?;
    check_faults(circuit, faults, 256)?;
    check_patterns(patterns, inputs)?;
    Ok(Given { circuit, each: n, inputs, faults, patterns })
}

/// Fills the table. The work memory has the good values, then the faulty ones.
pub fn fill<G: Gates>(given: &Given, table: &mut [u8], work: &mut [u8]) {
    let (circuit, n) = (given.circuit, given.lines());
    for (pattern, row) in given.patterns.chunks_exact(given.inputs).zip(table.chunks_exact_mut(given.fault_count())) {
        good_values::<G>(circuit, pattern, work, n);
        for (j, cell) in row.iter_mut().enumerate() {
            faulty_in_steps::<G>(circuit, Fault::read(given.faults, j), work, n, given.each);
            *cell = entry(true, circuit, work, n);
        }
    }
}

fn dictionary<G: Gates>(circuit: &[u8], faults: &[u8], patterns: &[u8], table: &mut [u8], work: &mut [u8]) -> Result<(), (u32, usize)> {
    let given = check_given(circuit, faults, patterns)?;
    if table.len() != given.entries() || work.len() != 2 * given.lines() {
        return Err((10, 0));
    }
    fill::<G>(&given, table, work);
    Ok(())
}

pub fn enter<G: Gates>(circuit: &[u8], faults: &[u8], patterns: &[u8], table: &mut [u8], work: &mut [u8], answer: &mut [u8; 32]) -> u32 {
    match dictionary::<G>(circuit, faults, patterns, table, work) {
        Ok(()) => report(0, [0; 3], answer),
        Err((number, place)) => report(number, [place as u64, 0, 0], answer),
    }
}
