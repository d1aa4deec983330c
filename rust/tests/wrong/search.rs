//! Searches that are wrong in one way each.
use super::rules::Rule;
use super::{Case, OneFault, Search, GIVEN_UP, REDUNDANT, TEST};
use second::circuit::Gate;
use second::entries::Seen;
use second::values::byte;
use second::{Pattern, Value};

/// A search that tries the sides in this order and leaves nodes by another rule, and otherwise what the second program says.
fn by(case: &Search, sides: [bool; 2], leaves: fn(&[(Value, Value)]) -> bool) -> Seen {
    by_rule(case, Gate::value, sides, leaves)
}

/// A search that goes by another gate rule.
pub fn with_rule(case: &Search, rule: Rule) -> Seen {
    by_rule(case, rule, [false, true], equal)
}

fn by_rule(case: &Search, rule: Rule, sides: [bool; 2], leaves: fn(&[(Value, Value)]) -> bool) -> Seen {
    let mut seen = case.second();
    if seen.returned != 0 {
        return seen;
    }
    let (circuit, fault) = case.parts();
    let mut waiting = vec![vec![None; case.test.len()]];
    let mut looked: Vec<Pattern> = vec![];
    let outcome = loop {
        let Some(node) = waiting.pop() else { break 1 };
        if looked.len() as u64 == case.budget {
            break 2;
        }
        looked.push(node.clone());
        let (good, faulty) = (circuit.values_by(rule, &node, None), circuit.values_by(rule, &node, Some(fault)));
        let outputs: Vec<_> = circuit.outputs().map(|line| (good[line], faulty[line])).collect();
        if outputs.iter().any(|(good, faulty)| good.zip(*faulty).is_some_and(|(good, faulty)| good != faulty)) {
            break 0;
        }
        if let (false, Some(first)) = (leaves(&outputs), node.iter().position(Option::is_none)) {
            let side = |value| node.iter().enumerate().map(|(k, &old)| if k == first { Some(value) } else { old }).collect();
            waiting.extend([side(sides[1]), side(sides[0])]);
        }
    };
    seen.answer = [outcome, looked.len() as u64, 0, 0].map(u64::to_le_bytes).concat();
    seen.lent = vec![case.test.clone().into(), case.work.clone().into()];
    if let Some(last) = looked.last() {
        seen.lent[1] = circuit.work(last, fault).into();
        if outcome == 0 {
            *seen.lent[0].u8() = last.iter().map(byte).collect();
        }
    }
    seen
}

/// What document 01 has for leaving a node.
fn equal(outputs: &[(Value, Value)]) -> bool {
    outputs.iter().all(|(good, faulty)| good.is_some() && good == faulty)
}

/// What the second program says, changed where it accepts and the outcome is one of these.
fn then(case: &Search, outcomes: &[u32], change: impl Fn(&mut Seen)) -> Seen {
    let mut seen = case.second();
    if outcomes.contains(&Search::counted(&seen)) {
        change(&mut seen);
    }
    seen
}

type Wrong = (&'static str, fn(&Search) -> Seen);

pub const PROGRAMS: [Wrong; 10] = [
    ("looks at its start and idles", |case| by(case, [false, true], |_| true)),
    ("tries 1 before 0", |case| by(case, [true, false], equal)),
    ("leaves a node because good is X everywhere", |case| {
        by(case, [false, true], |outputs| equal(outputs) || outputs.iter().all(|(good, _)| good.is_none()))
    }),
    ("leaves a node that the dictionary passes", |case| {
        by(case, [false, true], |outputs| outputs.iter().all(|(good, faulty)| good.is_none() || good == faulty))
    }),
    ("leaves a node where X stands against X", |case| {
        by(case, [false, true], |outputs| outputs.iter().all(|(good, faulty)| good == faulty))
    }),
    ("never leaves a node before the last input", |case| by(case, [false, true], |_| false)),
    ("invents its node count", |case| then(case, &[TEST, REDUNDANT], |seen| seen.answer[8] = seen.answer[8].wrapping_add(1))),
    ("gives up when the budget is just enough", |case| {
        let sparing = Search { budget: case.budget.saturating_sub(1), ..case.clone() };
        if Search::counted(&sparing.second()) == GIVEN_UP {
            then(&sparing, &[GIVEN_UP], |seen| seen.answer[8..16].copy_from_slice(&case.budget.to_le_bytes()))
        } else {
            case.second()
        }
    }),
    ("writes the test buffer without a test", |case| then(case, &[REDUNDANT, GIVEN_UP], |seen| seen.lent[0].u8().fill(2))),
    ("leaves the work of its start", |case| {
        then(case, &[TEST, REDUNDANT, GIVEN_UP], |seen| {
            let (circuit, fault) = case.parts();
            seen.lent[1] = circuit.work(&vec![None; case.test.len()], fault).into();
        })
    }),
];
