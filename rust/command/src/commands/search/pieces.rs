//! The search for any number of faults, by pieces that the library takes, or over head lines one by one: none depends on another.
use super::way::Way;
use crate::bar::Bar;
use crate::circuit::Circuit;
use crate::fault::{self, Fault};
use crate::heads::Heads;
use crate::pattern::Pattern;
use crate::problem::Problem;
use crate::table::MOST;
use std::time::{Duration, Instant};
use ullimaqsu::{Outcome, Search};

/// A piece should take about so long, since what is found comes when it is done: the next one is twice as large, or half.
const PIECE: Duration = Duration::from_millis(100);

/// What was found for a fault.
pub struct Found {
    pub fault: Fault,
    pub search: Search,
    /// The test, if that is the outcome.
    pub test: Option<Pattern>,
    /// What the search over inputs found, where it is compared with the one over head lines.
    pub over_inputs: Option<Search>,
}

impl Found {
    /// With what the library has in the test buffer.
    fn new(fault: Fault, search: Search, buffer: &[u8]) -> Found {
        let test = (search.outcome == Outcome::Test).then(|| Pattern(buffer.to_vec()));
        Found { fault, search, test, over_inputs: None }
    }
}

/// Why the library takes every call of this file.
const NEVER: &str = "a circuit and faults that were read, and memory of its exact size, are never refused";

/// Searches for all, and tells of each piece that is done.
pub fn search_all(
    circuit: &Circuit,
    faults: &[Fault],
    budget: u64,
    way: &Way,
    mut tell: impl FnMut(&[Found]) -> Result<(), Problem>,
) -> Result<Vec<Found>, Problem> {
    let (bar, mut all, mut size) = (Bar::new(faults.len()), Vec::new(), 1);
    while all.len() < faults.len() {
        bar.show(all.len());
        let began = Instant::now();
        let piece = &faults[all.len()..faults.len().min(all.len() + size)];
        let found = search_piece(circuit, piece, budget, way);
        size = if began.elapsed() < PIECE { MOST.min(2 * size) } else { 1.max(size / 2) };
        bar.erase();
        tell(&found)?;
        all.extend(found);
    }
    Ok(all)
}

/// Of at most 256 faults.
fn search_piece(circuit: &Circuit, faults: &[Fault], budget: u64, way: &Way) -> Vec<Found> {
    match way {
        Way::Inputs => over_inputs(circuit, faults, budget),
        Way::Heads(_) => over_heads(circuit, faults, budget),
        Way::Both(heads) => both(circuit, faults, budget, heads),
    }
}

fn over_inputs(circuit: &Circuit, faults: &[Fault], budget: u64) -> Vec<Found> {
    let inputs = circuit.counts.inputs as usize;
    let records = fault::records(faults);
    let (budgets, mut tests, mut work) = (vec![budget; faults.len()], vec![0; faults.len() * inputs], vec![0; 2 * circuit.size()]);
    let searches = ullimaqsu::search_all(&circuit.records, &records, &budgets, &mut tests, &mut work).expect(NEVER);
    let found = |((&fault, search), test): ((&Fault, Search), &[u8])| Found::new(fault, search, test);
    faults.iter().zip(searches).zip(tests.chunks_exact(inputs)).map(found).collect()
}

fn over_heads(circuit: &Circuit, faults: &[Fault], budget: u64) -> Vec<Found> {
    let (mut test, mut work) = (vec![0; circuit.counts.inputs as usize], vec![0; 2 * circuit.size()]);
    let mut found = |&fault: &Fault| {
        let search = ullimaqsu::search_heads(&circuit.records, &fault.record(), budget, &mut test, &mut work).expect(NEVER);
        Found::new(fault, search, &test)
    };
    faults.iter().map(&mut found).collect()
}

/// Over head lines, and for the faults that these serve over inputs too.
fn both(circuit: &Circuit, faults: &[Fault], budget: u64, heads: &Heads) -> Vec<Found> {
    let mut all = over_heads(circuit, faults, budget);
    let served: Vec<Fault> = faults.iter().copied().filter(|&fault| heads.serve(fault)).collect();
    // the library takes one fault at least
    let others = if served.is_empty() { Vec::new() } else { over_inputs(circuit, &served, budget) };
    let same = all.iter_mut().filter(|found| heads.serve(found.fault));
    same.zip(others).for_each(|(found, other)| found.over_inputs = Some(other.search));
    all
}
