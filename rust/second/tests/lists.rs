//! The second program's search for a list of faults: single searches one after the other, each with the work memory that the one before
//! left.
use cases::selects::{self, EVERY};
use cases::{circuits, drawn, faults, Random, Tally};
use second::entries::{self, Seen};
use second::search_all::Lent;

/// A circuit, some of its faults with their budgets, and what is lent.
struct List {
    circuit: Vec<u8>,
    faults: Vec<u8>,
    budgets: Vec<u64>,
    tests: Vec<u8>,
    work: Vec<u8>,
}

fn list(random: &mut Random) -> List {
    let circuit = circuits::few_inputs(random);
    let count = 1 + random.below(6);
    let faults = faults::some(random, &circuit, count);
    let budgets = (0..count).map(|_| random.pick(&[0, 0, 1, 2, 5, 20, u64::MAX])).collect();
    let (tests, work) = (random.junk(faults::inputs(&circuit) * count), random.junk(circuit.len() / 4));
    List { circuit, faults, budgets, tests, work }
}

fn in_one_call(list: &List) -> Seen {
    let count = list.budgets.len();
    let lent = Lent { outcomes: &vec![7; count], counts: &vec![7; count], tests: &list.tests, work: &list.work };
    entries::search_all(&list.circuit, &list.faults, &list.budgets, lent, &[7; 32])
}

fn one_by_one(list: &List) -> Seen {
    let (mut outcomes, mut counts, mut tests, mut work) = (vec![], vec![], vec![], list.work.clone());
    let each_test = list.tests.chunks_exact(faults::inputs(&list.circuit));
    for ((fault, &budget), test) in list.faults.chunks_exact(8).zip(&list.budgets).zip(each_test) {
        let mut single = entries::search(&list.circuit, fault, budget, test, &work, &[7; 32]);
        outcomes.push(single.answer[0]);
        counts.push(u64::from_le_bytes(single.answer[8..16].try_into().expect("eight bytes")));
        tests.append(single.lent[0].u8());
        work = single.lent[1].u8().clone();
    }
    Seen { returned: 0, answer: vec![0; 32], lent: vec![outcomes.into(), counts.into(), tests.into(), work.into()] }
}

#[test]
fn lists_are_single_searches() {
    let mut tally = Tally::default();
    for list in drawn(1, 5_000, list) {
        assert_eq!(in_one_call(&list), one_by_one(&list), "{:?} {:?} {:?}", list.circuit, list.faults, list.budgets);
        tally.count_sorts(selects::all(&list.circuit, &list.faults, &[]));
    }
    tally.with_sorts(&EVERY[..2]);
}
