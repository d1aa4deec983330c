//! The second program against what complete input vectors do.
mod vectors;

use cases::selects::{valued, wired, VALUED, WIRED};
use cases::{drawn, Random, Tally};
use second::clauses::clauses_of;
use second::search::{search_circuit, Search};
use second::values::byte;
use second::{Circuit, Entry, Fault, Look, Outcome, Value};
use vectors::{detects, every_pattern, fillings, tiny_of, truth};

fn tiny(random: &mut Random) -> (Circuit, Vec<Fault>) {
    tiny_of(random, 10)
}

/// Where an entry is fail, one and the same compared output differs under every filling; where it is pass, no compared output does under any.
/// Without X nothing is unknown, and pass is "not detected".
#[test]
fn entries_speak_of_all_fillings() {
    let mut seen = [0; 3];
    let mut detected_under_pass = 0;
    let mut tally = Tally::default();
    for (circuit, faults) in drawn(1, 800, tiny) {
        tally.count_sorts(wired(&circuit.write()));
        for pattern in every_pattern(circuit.inputs().count()) {
            let good = circuit.values(&pattern, None);
            tally.count_sorts(valued(&circuit.write(), &good.iter().map(byte).collect::<Vec<_>>()));
            let compared: Vec<_> = circuit.outputs().filter(|&line| good[line].is_some()).collect();
            let fillings = fillings(&pattern);
            for &fault in &faults {
                let differs = |vector: &[bool], line| truth(&circuit, vector, None, line) != truth(&circuit, vector, Some(fault), line);
                let detected = fillings.iter().any(|vector| detects(&circuit, vector, fault));
                let entry = circuit.entry(&pattern, fault);
                match entry {
                    Entry::Fail => assert!(compared.iter().any(|&line| fillings.iter().all(|vector| differs(vector, line)))),
                    Entry::Pass => assert!(compared.iter().all(|&line| !fillings.iter().any(|vector| differs(vector, line)))),
                    Entry::Unknown => (),
                }
                if fillings.len() == 1 {
                    assert_eq!(entry, if detected { Entry::Fail } else { Entry::Pass });
                }
                seen[entry as usize] += 1;
                detected_under_pass += usize::from(entry == Entry::Pass && detected);
            }
        }
    }
    assert!(seen.iter().chain([&detected_under_pass]).all(|&times| times > 1000), "{seen:?}, {detected_under_pass}");
    tally.with_sorts(&[&WIRED, &VALUED]);
}

/// The nodes from here on, in order, up to the first that fails: the definition as a recursion.
fn visit(circuit: &Circuit, fault: Fault, node: Vec<Value>, looked: &mut Vec<Vec<Value>>) -> bool {
    looked.push(node.clone());
    match circuit.look(&node, fault) {
        Look::Fails => true,
        Look::Settled => false,
        Look::Open => [Some(false), Some(true)].into_iter().any(|value| {
            let mut side = node.clone();
            *side.iter_mut().find(|value| value.is_none()).expect("an X") = value;
            visit(circuit, fault, side, looked)
        }),
    }
}

#[test]
fn searches_agree_with_all_vectors_and_all_budgets() {
    let mut seen = [0; 3];
    let mut tally = Tally::default();
    for (circuit, faults) in drawn(2, 300, tiny) {
        tally.count_sorts(wired(&circuit.write()));
        let inputs = circuit.inputs().count();
        for fault in faults {
            let mut looked = vec![];
            let found = visit(&circuit, fault, vec![None; inputs], &mut looked);
            assert_eq!(found, fillings(&vec![None; inputs]).iter().any(|vector| detects(&circuit, vector, fault)));
            assert!(looked.len() < 1 << (inputs + 1));
            for budget in 0..looked.len() + 3 {
                let outcome = match found {
                    _ if looked.len() > budget => Outcome::GivenUp,
                    true => Outcome::Test,
                    false => Outcome::Redundant,
                };
                let nodes = looked.len().min(budget);
                let last = nodes.checked_sub(1).map(|last| looked[last].clone());
                assert_eq!(search_circuit(&circuit, fault, budget as u64), Search { outcome, nodes: nodes as u64, last });
                seen[outcome as usize] += 1;
            }
        }
    }
    assert!(seen.iter().all(|&times| times > 1000), "{seen:?}");
    tally.with_sorts(&[&WIRED]);
}

/// The clauses of tiny circuits, over all assignments: a vector extends to one that satisfies them exactly if it detects the fault, and then in
/// one way.
#[test]
fn clauses_are_satisfied_by_detecting_vectors() {
    let mut seen = [0; 2];
    let mut tally = Tally::default();
    for (circuit, faults) in drawn(3, 400, |random| tiny_of(random, 4)) {
        tally.count_sorts(wired(&circuit.write()));
        let variables = 2 * circuit.lines.len() + 1 + circuit.outputs().count();
        for fault in faults {
            let clauses = clauses_of(&circuit, fault);
            assert!(clauses.iter().flatten().all(|literal| (1..=variables).contains(&(literal.unsigned_abs() as usize))));
            let mut ways = std::collections::HashMap::new();
            for assignment in 0..1usize << variables {
                let truth = |variable: i32| assignment >> (variable - 1) & 1 == 1;
                let holds = |&literal: &i32| truth(literal.abs()) == (literal > 0);
                if clauses.iter().all(|clause| clause.iter().any(holds)) {
                    let vector: Vec<bool> = circuit.inputs().map(|line| truth(2 * line as i32 + 1)).collect();
                    *ways.entry(vector).or_insert(0) += 1;
                }
            }
            for vector in fillings(&vec![None; circuit.inputs().count()]) {
                let detected = detects(&circuit, &vector, fault);
                assert_eq!(ways.get(&vector), detected.then_some(&1));
                seen[usize::from(detected)] += 1;
            }
        }
    }
    assert!(seen.iter().all(|&times| times > 1000), "{seen:?}");
    tally.with_sorts(&[&WIRED]);
}
