//! The second program on the marked examples of document 01.
use cases::circuits::{always_0, example_a, record, INPUT, NOT};
use cases::{faults, files, Files};
use second::entries;
use second::search_all::Lent;
use second::{Counts, Dictionary, Outcome, Refusal, Written};

#[test]
fn bytes_of_example_a() {
    assert_eq!(example_a()[24..], [3, 0, 0, 0, 1, 0, 0, 0, 5, 1, 3, 0, 2, 0, 0, 0]);
}

#[test]
fn check() {
    let inputs = |count| record(INPUT, true, 0, 0).repeat(count);
    assert_eq!(second::check(&example_a()), Ok(Counts { lines: 5, inputs: 3, outputs: 1 }));
    assert_eq!(second::check(&inputs(64)), Ok(Counts { lines: 64, inputs: 64, outputs: 64 }));
    assert_eq!(second::check(&inputs(65)), Err(Refusal { number: 4, place: 0 }));
    assert_eq!(second::check(&[1, 1, 0, 0, 0, 0, 0, 0]), Err(Refusal { number: 2, place: 2 }));
}

/// Entries as letters.
fn letters(table: &[u8]) -> String {
    table.iter().map(|&entry| ["P", "F", "U"][entry as usize]).collect()
}

#[test]
fn dictionary() {
    let Files { circuit, faults, patterns } = files::example_a();
    let Dictionary { table, work } = second::dictionary(&circuit, &faults, &patterns, 16, 10).expect("sound");
    assert_eq!(letters(&table), "FPPFPFFPPFFPPPPP");
    assert_eq!(work, [2, 1, 0, 2, 2, 0, 1, 0, 0, 0]);
}

/// The patterns stand in lanes 0 to 3. Line 0 stuck at 0 makes line 3 a 0 in all lanes, and line 4 an X in the spare ones.
#[test]
fn dictionary_lanes() {
    let Files { circuit, faults, patterns } = files::example_a();
    let Dictionary { table, work } = second::dictionary_lanes(&circuit, &faults, &patterns, 16, 20).expect("sound");
    assert_eq!(letters(&table), "FPPFPFFPPFFPPPPP");
    let (good, faulty) = work.split_at(10);
    assert_eq!(good, [0b0001, 0b0110, 0b1011, 0, 0, 0b1111, 0b0001, 0b0110, 0b0001, 0b0110]);
    assert_eq!(faulty, [0, u64::MAX, 0b1011, 0, 0, 0b1111, 0, u64::MAX, 0, 0b1111]);
}

/// Example A's table, the rows FUP and FFF, and one unknown entry.
#[test]
fn compaction() {
    let a = [1, 0, 0, 1, 0, 1, 1, 0, 0, 1, 1, 0, 0, 0, 0, 0];
    assert_eq!(second::compact(4, 4, &a, 4), Ok(vec![1, 1, 0, 0]));
    assert_eq!(second::compact(3, 2, &[1, 2, 0, 1, 1, 1], 2), Ok(vec![1, 1]));
    assert_eq!(second::compact(1, 1, &[2], 1), Ok(vec![0]));
}

/// The outcome, the number of nodes, and the test if there is one.
fn searched(circuit: &[u8], line: usize, stuck: bool, budget: u64) -> (Outcome, u64, Option<Vec<u8>>) {
    let inputs = second::check(circuit).expect("sound").inputs;
    let searched = second::search(circuit, &faults::record(line, 0, stuck), budget, inputs, circuit.len() / 4).expect("sound");
    (searched.outcome, searched.nodes, searched.test)
}

#[test]
fn search() {
    let a = example_a();
    assert_eq!(searched(&a, 3, true, u64::MAX), (Outcome::Test, 4, Some(vec![0, 0, 0])));
    assert_eq!(searched(&a, 3, true, 3), (Outcome::GivenUp, 3, None));
    assert_eq!(searched(&a, 3, false, u64::MAX), (Outcome::Test, 14, Some(vec![1, 1, 0])));
    let never = always_0();
    assert_eq!(searched(&never, 2, false, u64::MAX), (Outcome::Redundant, 3, None));
    assert_eq!(searched(&never, 2, false, 2), (Outcome::GivenUp, 2, None));
    assert_eq!(searched(&never, 2, false, 0), (Outcome::GivenUp, 0, None));
}

/// What the searches for these faults leave of memory full of 9s: outcomes, counts, tests and work.
fn all_searched(circuit: &[u8], faults: &[[u8; 8]], budgets: &[u64]) -> (Vec<u8>, Vec<u64>, Vec<u8>, Vec<u8>) {
    let Counts { lines, inputs, .. } = second::check(circuit).expect("sound");
    let count = faults.len();
    let lent = Lent { outcomes: &vec![9; count], counts: &vec![9; count], tests: &vec![9; inputs * count], work: &vec![9; 2 * lines] };
    let mut lent = entries::search_all(circuit, &faults.concat(), budgets, lent, &[9; 32]).lent.into_iter();
    let mut next = || lent.next().expect("lent");
    (next().u8().clone(), next().u64().clone(), next().u8().clone(), next().u8().clone())
}

#[test]
fn search_all() {
    let [at_1, at_0] = [true, false].map(|stuck| faults::record(3, 0, stuck));
    let found = (vec![0, 2, 0], vec![4, 3, 14], vec![0, 0, 0, 9, 9, 9, 1, 1, 0], vec![1, 1, 0, 1, 1, 1, 1, 0, 0, 0]);
    assert_eq!(all_searched(&example_a(), &[at_1, at_1, at_0], &[u64::MAX, 3, u64::MAX]), found);
    let found = (vec![1, 2, 2], vec![3, 2, 0], vec![9, 9, 9], vec![0, 1, 0, 0, 1, 0]);
    assert_eq!(all_searched(&always_0(), &[faults::record(2, 0, false); 3], &[u64::MAX, 2, 0]), found);
}

/// Line 0 input, 1 = NOT 0 output, line 1 stuck at 0.
#[test]
fn clauses() {
    let not = [record(INPUT, false, 0, 0), record(NOT, true, 0, 0)].concat();
    let Written { words, clauses, variables } = second::clauses(&not, &faults::record(1, 0, false), 38).expect("sound");
    let marked = "-3 -1 0 3 1 0 -5 0 -2 1 0 2 -1 0 -4 5 0 4 -5 0 -6 3 4 0 -6 -3 -4 0 6 -3 4 0 6 3 -4 0 6 0";
    assert_eq!(words.iter().map(i32::to_string).collect::<Vec<_>>().join(" "), marked);
    assert_eq!((words.len(), clauses, variables), (38, 12, 6));
    let refused = second::clauses(&not, &faults::record(1, 0, false), 37).err();
    assert_eq!(refused, Some(Refusal { number: 11, place: 38 }));
}
