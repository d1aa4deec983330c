//! The test search for a list of faults.
use crate::circuit::Circuit;
use crate::fault::Fault;
use crate::refusal::{ensure, Refusal};
use crate::search::{searched, Searched};

/// What is lent.
#[derive(Clone, Copy)]
pub struct Lent<'a> {
    pub outcomes: &'a [u8],
    pub counts: &'a [u64],
    pub tests: &'a [u8],
    pub work: &'a [u8],
}

/// The test search for a list of faults with one budget each, lent memory whose sizes are looked at: what the single searches leave, one
/// after the other.
pub fn search_all(circuit: &[u8], faults: &[u8], budgets: &[u64], lent: Lent) -> Result<Vec<Searched>, Refusal> {
    let circuit = Circuit::read(circuit)?;
    let faults = Fault::read_all(&circuit, faults, 256)?;
    ensure(budgets.len() == faults.len(), 10)?;
    ensure(lent.outcomes.len() == faults.len(), 10)?;
    ensure(lent.counts.len() == faults.len(), 10)?;
    ensure(lent.tests.len() == faults.len() * circuit.inputs().count(), 10)?;
    ensure(lent.work.len() == 2 * circuit.lines.len(), 10)?;
    Ok(faults.iter().zip(budgets).map(|(&fault, &budget)| searched(&circuit, fault, budget)).collect())
}
