//! The library on selectors that are marked by hand: both dictionaries, the searches over patterns and over head lines, the search for a list, and
//! the clauses.
use cases::faults::inputs;
use cases::marked::{selectors, Marked};
use ullimaqsu::{Clauses, Outcome, Search};

/// The entries of a fault, as both dictionary makers have them.
fn tables(marked: &Marked) -> [Vec<u8>; 2] {
    let (Marked { circuit, fault, .. }, patterns) = (marked, marked.patterns());
    let (mut table, mut in_lanes) = (marked.table(), marked.table());
    table.fill(9);
    in_lanes.fill(9);
    ullimaqsu::dictionary(circuit, fault, &patterns, &mut table, &mut vec![9; circuit.len() / 4]).expect("sound");
    ullimaqsu::dictionary_lanes(circuit, fault, &patterns, &mut in_lanes, &mut vec![9; circuit.len() / 2]).expect("sound");
    [table, in_lanes]
}

/// What the search finds, alone, over head lines and in a list, and what it leaves in a test buffer. The circuits have no tree before a head line, so
/// that head lines are inputs.
fn searched(Marked { circuit, fault, .. }: &Marked, budget: u64) -> [(Search, Vec<u8>); 3] {
    let ([mut test, mut at_heads, mut tests], mut work) = ([(); 3].map(|_| vec![9; inputs(circuit)]), vec![9; circuit.len() / 4]);
    let alone = ullimaqsu::search(circuit, fault, budget, &mut test, &mut work).expect("sound");
    let heads = ullimaqsu::search_heads(circuit, fault, budget, &mut at_heads, &mut work).expect("sound");
    let list = ullimaqsu::search_all(circuit, fault, &[budget], &mut tests, &mut work).expect("sound");
    [(alone, test), (heads, at_heads), (list[0], tests)]
}

#[test]
fn entries() {
    for marked in selectors() {
        assert_eq!(tables(&marked), [marked.table(), marked.table()], "{}", marked.name);
    }
}

/// With just enough of a budget, and with one node less.
#[test]
fn verdicts() {
    for marked in selectors() {
        let nothing = vec![9; inputs(&marked.circuit)];
        let (outcome, test) = if marked.outcome == 0 { (Outcome::Test, marked.test()) } else { (Outcome::Redundant, nothing.clone()) };
        let found = (Search { outcome, nodes: marked.nodes }, test);
        assert_eq!(searched(&marked, marked.nodes), [(); 3].map(|_| found.clone()), "{}", marked.name);
        let given_up = (Search { outcome: Outcome::GivenUp, nodes: marked.nodes - 1 }, nothing);
        assert_eq!(searched(&marked, marked.nodes - 1), [(); 3].map(|_| given_up.clone()), "{}", marked.name);
    }
}

#[test]
fn clauses() {
    for marked in selectors() {
        let expected = marked.words();
        let mut words = vec![77; expected.len() + 1];
        let written = ullimaqsu::clauses(&marked.circuit, &marked.fault, &mut words).expect("room");
        let variables = *expected.iter().max().expect("a variable") as u64;
        assert_eq!(written, Clauses { words: expected.len() as u64, clauses: marked.clause_count() as u64, variables }, "{}", marked.name);
        assert_eq!(words, [&expected[..], &[77]].concat(), "{}", marked.name);
    }
}
