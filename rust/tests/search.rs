//! The test search against the second program, and its verdicts against all input vectors.
#[path = "harness/budgets.rs"]
mod budgets;
#[path = "harness/defects.rs"]
mod defects;
mod harness;
#[path = "wrong/rules.rs"]
mod rules;
#[path = "harness/searches.rs"]
mod searches;
#[path = "wrong/search.rs"]
mod wrong;

use cases::circuits::{self, always_0, selecting};
use cases::faults;
use cases::selects::{self, EVERY};
use cases::{drawn, Random, Sort};
use harness::{compare, first_defect_is_told, wrong_programs_are_seen, Case, Defect, Search};
use rules::RULES;
use searches::{hold_to_all_vectors, largest, lend, many_inputs, one_fault_defects, parity_stuck_at_0, verdict_or_refusal, with_budget};
use searches::{OneFault, GIVEN_UP, REDUNDANT, TEST};
use second::entries::{self, Seen};
use second::search::search_circuit;
use ullimaqsu::Outcome;

impl Case for Search {
    fn second(&self) -> Seen {
        entries::search(&self.circuit, &self.fault, self.budget, &self.test, &self.work, &self.answer)
    }
    fn counted(seen: &Seen) -> u32 {
        verdict_or_refusal(seen)
    }
    fn sorts(&self, seen: &mut Seen) -> Vec<Sort> {
        selects::all(&self.circuit, &self.fault, if self.budget > 0 { seen.lent[1].u8() } else { &[] })
    }
}

impl OneFault for Search {
    fn given(&self) -> (&[u8], &[u8]) {
        (&self.circuit, &self.fault)
    }
}

fn few_inputs(random: &mut Random) -> Search {
    let circuit = circuits::few_inputs(random);
    lend(random, circuit)
}

fn sound(random: &mut Random) -> Search {
    let case = few_inputs(random);
    with_budget(random, case, |circuit, fault| search_circuit(circuit, fault, u64::MAX).nodes)
}

fn damaged(random: &mut Random) -> Search {
    let case = sound(random);
    searches::damaged(random, case)
}

#[test]
fn sound_searches() {
    assert_eq!(compare("search, sound", drawn(1, 60_000, sound)).with_sorts(&EVERY).seen(), [TEST, REDUNDANT, GIVEN_UP]);
}

#[test]
fn damaged_searches() {
    let seen = [1, 2, 4, 5, 6, 7, 10, TEST, REDUNDANT, GIVEN_UP];
    assert_eq!(compare("search, damaged", drawn(2, 150_000, damaged)).with_sorts(&EVERY).seen(), seen);
}

#[test]
fn searches_with_many_inputs() {
    assert_eq!(compare("search, 60 to 64 inputs", drawn(3, 3_000, many_inputs)).with_sorts(&EVERY).seen(), [TEST, REDUNDANT, GIVEN_UP]);
    let budgets = [0, 1, 64, 65, 66, 67, u64::MAX].into_iter().map(|budget| Search { budget, ..parity_stuck_at_0() });
    assert_eq!(compare("search, parity of 64 inputs", budgets).seen(), [TEST, GIVEN_UP]);
    assert_eq!(compare("search, 2,048 lines", drawn(4, 50, largest)).with_sorts(&EVERY[..1]).seen(), [TEST, GIVEN_UP]);
}

#[test]
fn verdicts_and_all_vectors() {
    let cases: Vec<_> = drawn(5, 3_000, few_inputs).collect();
    hold_to_all_vectors(&cases, |circuit, _| circuit.inputs().count()).with_sorts(&EVERY);
}

const DEFECTS: [Defect<Search>; 15] = one_fault_defects!();

#[test]
fn two_defects_at_once() {
    first_defect_is_told(&lend(&mut Random::new(6), selecting()), &DEFECTS);
}

#[test]
fn wrong_programs() {
    let cases: Vec<_> = drawn(7, 4_000, sound).chain(drawn(8, 2_000, damaged)).collect();
    wrong_programs_are_seen(&cases, wrong::PROGRAMS);
    wrong_programs_are_seen(&cases, RULES.map(|(name, rule)| (name, move |case: &Search| wrong::with_rule(case, rule))));
}

#[test]
fn bindings() {
    let never = always_0();
    let (mut test, mut work) = ([9; 1], [9; 6]);
    let mut search = |budget| ullimaqsu::search(&never, &faults::record(2, 0, false), budget, &mut test, &mut work).expect("sound");
    let found = |outcome, nodes| ullimaqsu::Search { outcome, nodes };
    assert_eq!(search(0), found(Outcome::GivenUp, 0));
    assert_eq!(search(2), found(Outcome::GivenUp, 2));
    assert_eq!(search(3), found(Outcome::Redundant, 3));
    assert_eq!((test, work), ([9], [1, 0, 0, 1, 0, 0]));
    let refused = ullimaqsu::search(&never, &[0; 16], 1, &mut test, &mut work).unwrap_err();
    assert_eq!((refused.number, refused.place), (6, 0));
}
