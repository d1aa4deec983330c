//! Searches for a list of faults that are wrong in one way each.
use super::changed::{accepted, written_though_refused};
use super::exchanged::exchanged;
use super::{parts, Case, SearchAll};
use cases::faults::inputs;
use second::entries::Seen;
use second::search::search_circuit;
use second::Outcome;

/// What the second program says, where it accepts, of the list with other budgets.
fn with_budgets(case: &SearchAll, budgets: fn(&SearchAll) -> Vec<u64>) -> Seen {
    accepted(case, |seen| *seen = SearchAll { budgets: budgets(case), ..case.clone() }.second())
}

/// What the second program says, where it accepts, with something written to the tests of faults of this outcome.
fn with_tests(case: &SearchAll, outcome: Outcome) -> Seen {
    accepted(case, |seen| {
        let outcomes = seen.lent[0].u8().clone();
        let tests = seen.lent[2].u8().chunks_exact_mut(inputs(&case.circuit));
        tests.zip(outcomes).filter(|(_, other)| *other == outcome as u8).for_each(|(test, _)| test.fill(2));
    })
}

/// What the second program says, where it accepts, with another work memory, if there is another.
fn with_work(case: &SearchAll, work: fn(&SearchAll) -> Option<Vec<u8>>) -> Seen {
    accepted(case, |seen| {
        if let Some(work) = work(case) {
            seen.lent[3] = work.into();
        }
    })
}

/// What is left of each budget is added to the next.
fn carried(case: &SearchAll) -> Vec<u64> {
    let (circuit, faults) = parts(&case.circuit, &case.faults);
    let mut left = 0;
    let each = faults.into_iter().zip(&case.budgets).map(|(fault, budget)| {
        let budget = budget.saturating_add(left);
        left = budget - search_circuit(&circuit, fault, budget).nodes;
        budget
    });
    each.collect()
}

/// The first budget of a fault, wherever the fault stands again.
fn first_of_the_same(case: &SearchAll) -> Vec<u64> {
    let records = || case.faults.chunks_exact(8);
    records().map(|record| case.budgets[records().position(|other| other == record).expect("itself")]).collect()
}

/// The work memory of the node that all searches together reach last, with the last fault that looks at it.
fn last_of_all(case: &SearchAll) -> Option<Vec<u8>> {
    let (circuit, faults) = parts(&case.circuit, &case.faults);
    let last = |(fault, &budget)| Some((search_circuit(&circuit, fault, budget).last?, fault));
    // X before 0 before 1 is the order of the search
    let (node, fault) = faults.into_iter().zip(&case.budgets).filter_map(last).max_by(|one, other| one.0.cmp(&other.0))?;
    Some(circuit.work(&node, fault))
}

type Wrong = (&'static str, fn(&SearchAll) -> Seen);

pub const PROGRAMS: [Wrong; 17] = [
    ("takes the first budget for all", |case| with_budgets(case, |case| vec![case.budgets[0]; case.budgets.len()])),
    ("takes one budget for a fault that is repeated", |case| with_budgets(case, first_of_the_same)),
    ("lets what is left of a budget serve the next fault", |case| with_budgets(case, carried)),
    ("exchanges a selector's sources", |case| {
        accepted(case, |seen| *seen = SearchAll { circuit: exchanged(&case.circuit), ..case.clone() }.second())
    }),
    ("writes a test for a redundant fault", |case| with_tests(case, Outcome::Redundant)),
    ("writes a test for a fault that it gives up", |case| with_tests(case, Outcome::GivenUp)),
    ("leaves tests unwritten", |case| accepted(case, |seen| seen.lent[2] = case.tests.clone().into())),
    ("gives its results from the last fault to the first", |case| {
        accepted(case, |seen| {
            seen.lent[0].u8().reverse();
            seen.lent[1].u64().reverse();
            let tests = seen.lent[2].u8();
            *tests = tests.rchunks_exact(inputs(&case.circuit)).flatten().copied().collect();
        })
    }),
    ("counts the nodes of all faults together", |case| {
        accepted(case, |seen| {
            let mut all = 0;
            for count in seen.lent[1].u64() {
                all += *count;
                *count = all;
            }
        })
    }),
    ("leaves the work of the first fault", |case| {
        with_work(case, |case| {
            let (circuit, faults) = parts(&case.circuit, &case.faults);
            Some(circuit.work(&search_circuit(&circuit, faults[0], case.budgets[0]).last?, faults[0]))
        })
    }),
    ("leaves the work of the last node of all", |case| with_work(case, last_of_all)),
    ("clears the work memory where a budget is 0", |case| {
        with_work(case, |case| (case.budgets.last() == Some(&0)).then(|| vec![0; case.work.len()]))
    }),
    ("looks at its start though the budget is 0", |case| {
        with_work(case, |case| {
            let (circuit, faults) = parts(&case.circuit, &case.faults);
            (case.budgets.last() == Some(&0)).then(|| circuit.work(&vec![None; inputs(&case.circuit)], faults[faults.len() - 1]))
        })
    }),
    ("answers the last outcome", |case| accepted(case, |seen| seen.answer[0] = *seen.lent[0].u8().last().expect("a fault"))),
    ("counts 256 faults in a byte", |case| {
        let mut seen = case.second();
        if case.faults.len() == 256 * 8 && seen.returned == 0 {
            seen = SearchAll { faults: vec![], ..case.clone() }.second();
        }
        seen
    }),
    ("gives the byte in place of the record", |case| {
        let mut seen = case.second();
        if seen.returned == 7 {
            let byte = 8 * u16::from(seen.answer[0]);
            seen.answer[..2].copy_from_slice(&byte.to_le_bytes());
        }
        seen
    }),
    ("writes outcomes though something is refused", written_though_refused),
];
