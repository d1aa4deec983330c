//! The search for a list of faults against the second program, and against single calls of the search one after the other.
#[path = "harness/budgets.rs"]
mod budgets;
#[path = "wrong/changed.rs"]
mod changed;
#[path = "harness/defects.rs"]
mod defects;
#[path = "wrong/exchanged.rs"]
mod exchanged;
mod harness;
#[path = "harness/mixes.rs"]
mod mixes;
#[path = "wrong/search_all.rs"]
mod wrong;

use budgets::around;
use cases::circuits::{always_0, circuit, example_a, few_inputs, parity};
use cases::faults::{self, inputs, some};
use cases::selects::{self, EVERY};
use cases::{damage, drawn, Random, Sort};
use defects::defects;
use harness::{compare, first_defect_is_told, first_difference, library, wrong_programs_are_seen, Case, Defect, SearchAll};
use mixes::{mix_or_refusal, OF};
use second::entries::{self, Seen};
use second::search::search_circuit;
use second::search_all::Lent;
use second::{Circuit, Fault};
use ullimaqsu::{Outcome, Refusal, Search};

/// An accepted list is counted with the sum of these over the outcomes that it has.
const TEST: u32 = OF[0];
const REDUNDANT: u32 = OF[1];
const GIVEN_UP: u32 = OF[2];

/// Every mix of outcomes, and from the fourth on those with a fault that is given up.
const MIXES: [u32; 7] = [TEST, REDUNDANT, TEST + REDUNDANT, GIVEN_UP, TEST + GIVEN_UP, REDUNDANT + GIVEN_UP, TEST + REDUNDANT + GIVEN_UP];

impl Case for SearchAll {
    fn second(&self) -> Seen {
        let lent = Lent { outcomes: &self.outcomes, counts: &self.counts, tests: &self.tests, work: &self.work };
        entries::search_all(&self.circuit, &self.faults, &self.budgets, lent, &self.answer)
    }
    fn counted(seen: &Seen) -> u32 {
        mix_or_refusal(seen)
    }
    fn sorts(&self, seen: &mut Seen) -> Vec<Sort> {
        let looked = self.budgets.iter().any(|&budget| budget > 0);
        selects::all(&self.circuit, &self.faults, if looked { seen.lent[3].u8() } else { &[] })
    }
}

/// What bytes that are accepted stand for.
fn parts(circuit: &[u8], faults: &[u8]) -> (Circuit, Vec<Fault>) {
    let circuit = Circuit::read(circuit).expect("sound");
    let faults = Fault::read_all(&circuit, faults, 256).expect("sound");
    (circuit, faults)
}

/// Lends junk of the right sizes.
fn lend(random: &mut Random, circuit: Vec<u8>, faults: Vec<u8>, budgets: Vec<u64>) -> SearchAll {
    let count = budgets.len();
    let (outcomes, tests) = (random.junk(count), random.junk(count * inputs(&circuit)));
    let counts = random.junk_words(count);
    let (work, answer) = (random.junk(circuit.len() / 4), random.junk(32));
    SearchAll { circuit, faults, budgets, outcomes, counts, tests, work, answer }
}

/// So many faults, in every other list out of a few, with budgets around the numbers of nodes that they need.
fn list(random: &mut Random, count: usize) -> SearchAll {
    let circuit = few_inputs(random);
    let different = if random.once_in(2) { count } else { 1 + random.below(count) };
    let few = some(random, &circuit, different);
    let faults: Vec<u8> = (0..count).flat_map(|place| few[8 * (place % different)..][..8].to_vec()).collect();
    let (read, all) = parts(&circuit, &faults);
    let budgets = all.iter().map(|&fault| around(random, search_circuit(&read, fault, u64::MAX).nodes)).collect();
    lend(random, circuit, faults, budgets)
}

fn few_faults(random: &mut Random) -> SearchAll {
    let count = 1 + random.below(8);
    list(random, count)
}

/// There is no budget from one of the faults on, perhaps from the first one.
fn last_without_budget(random: &mut Random) -> SearchAll {
    let mut case = few_faults(random);
    let first = random.below(case.budgets.len());
    case.budgets[first..].fill(0);
    case
}

fn sound(random: &mut Random) -> SearchAll {
    let list = random.pick(&[few_faults, last_without_budget]);
    list(random)
}

fn most_faults(random: &mut Random) -> SearchAll {
    list(random, 256)
}

/// One fault with each budget up to what it needs, and one without end, in any order.
fn every_budget(random: &mut Random) -> SearchAll {
    let circuit = few_inputs(random);
    let fault = some(random, &circuit, 1);
    let (read, faults) = parts(&circuit, &fault);
    let count = search_circuit(&read, faults[0], u64::MAX).nodes;
    let mut budgets: Vec<u64> = (0..=count).take(255).chain([u64::MAX]).collect();
    budgets.sort_by_cached_key(|_| random.word());
    lend(random, circuit, fault.repeat(budgets.len()), budgets)
}

/// So many faults of a circuit, with budgets out of these.
fn with_budgets(random: &mut Random, circuit: Vec<u8>, count: usize, budgets: &[u64]) -> SearchAll {
    let faults = some(random, &circuit, count);
    let budgets = (0..count).map(|_| random.pick(budgets)).collect();
    lend(random, circuit, faults, budgets)
}

/// 60 to 64 inputs, and small budgets.
fn many_inputs(random: &mut Random) -> SearchAll {
    let inputs = 60 + random.below(5);
    let lines = inputs + random.below(100);
    let circuit = circuit(random, lines, inputs);
    with_budgets(random, circuit, 8, &[0, 1, 2, 63, 64, 65, 66, 67, 100])
}

/// Every search goes down to the last input before it knows anything.
fn of_parity(random: &mut Random) -> SearchAll {
    with_budgets(random, parity(), 256, &[0, 1, 64, 65, 66, 67, 100])
}

/// The sizes at which something changes.
fn boundaries(random: &mut Random) -> Vec<SearchAll> {
    let mut all = vec![];
    for (lines, wide) in [(1, 1), (2, 1), (64, 64), (65, 64), (66, 65), (2047, 64), (2048, 1), (2048, 64), (2049, 64)] {
        for count in [0, 1, 2, 255, 256, 257] {
            let circuit = circuit(random, lines, wide);
            all.push(with_budgets(random, circuit, count, &[0, 1, 2]));
        }
    }
    all
}

/// 2,048 lines, 64 inputs, 256 faults.
fn largest(random: &mut Random) -> SearchAll {
    let circuit = circuit(random, 2048, 64);
    with_budgets(random, circuit, 256, &[0, 1, 5, 10])
}

/// One thing or several are wrong.
fn damaged(random: &mut Random) -> SearchAll {
    let mut case = sound(random);
    let lines = case.circuit.len() / 8;
    damage::several(random, &mut case, |random, case| match random.below(14) {
        0..=2 => damage::several(random, &mut case.circuit, damage::circuit),
        3..=7 => damage::several(random, &mut case.faults, |random, bytes| damage::faults(random, bytes, lines)),
        8 => case.budgets.resize(damage::size(random, case.budgets.len()), 7),
        9 => case.outcomes.resize(damage::size(random, case.outcomes.len()), 7),
        10 => case.counts.resize(damage::size(random, case.counts.len()), 7),
        11 => case.tests.resize(damage::size(random, case.tests.len()), 7),
        12 => case.work.resize(damage::size(random, case.work.len()), 7),
        _ => case.answer.resize(random.pick(&[0, 31, 33, 64]), 7),
    });
    // a damaged circuit may have many inputs: no long searches
    case.budgets.iter_mut().for_each(|budget| *budget = 300.min(*budget));
    case
}

#[test]
fn sound_lists() {
    assert_eq!(compare("search_all, up to 8 faults", drawn(1, 10_000, few_faults)).with_sorts(&EVERY).seen(), MIXES);
    assert_eq!(compare("search_all, the last without budget", drawn(2, 5_000, last_without_budget)).with_sorts(&EVERY).seen(), MIXES[3..]);
    assert_eq!(compare("search_all, 256 faults", drawn(3, 60, most_faults)).with_sorts(&EVERY[..2]).seen(), MIXES[4..]);
    assert_eq!(compare("search_all, every budget of a fault", drawn(4, 200, every_budget)).with_sorts(&EVERY[..2]).seen(), MIXES[4..6]);
}

#[test]
fn damaged_lists() {
    let refusals = [1, 2, 4, 5, 6, 7, 10];
    assert_eq!(compare("search_all, damaged", drawn(5, 30_000, damaged)).with_sorts(&EVERY).seen(), [&refusals[..], &MIXES].concat());
}

#[test]
fn lists_with_many_inputs() {
    let mixes = [REDUNDANT, GIVEN_UP, TEST + GIVEN_UP, REDUNDANT + GIVEN_UP];
    assert_eq!(compare("search_all, 60 to 64 inputs", drawn(6, 300, many_inputs)).with_sorts(&EVERY).seen(), mixes);
    assert_eq!(compare("search_all, parity of 64 inputs", drawn(7, 3, of_parity)).seen(), [TEST + GIVEN_UP]);
}

#[test]
fn boundaries_and_largest() {
    let boundaries = boundaries(&mut Random::new(8)).into_iter();
    assert_eq!(compare("search_all, boundaries", boundaries).with_sorts(&EVERY[..2]).seen(), [1, 4, 6, GIVEN_UP, TEST + GIVEN_UP]);
    assert_eq!(
        compare("search_all, 2,048 lines, 256 faults", drawn(9, 4, largest)).with_sorts(&EVERY[..2]).seen(),
        [GIVEN_UP, TEST + GIVEN_UP]
    );
}

/// What single calls of the search leave, one after the other with the same work memory.
fn one_by_one(case: &SearchAll) -> Seen {
    let SearchAll { circuit, faults, budgets, mut outcomes, mut counts, mut tests, mut work, .. } = case.clone();
    let each_test = tests.chunks_exact_mut(inputs(&circuit));
    for (place, (fault, test)) in faults.chunks_exact(8).zip(each_test).enumerate() {
        let found = ullimaqsu::search(&circuit, fault, budgets[place], test, &mut work).expect("sound");
        (outcomes[place], counts[place]) = (found.outcome as u8, found.nodes);
    }
    Seen { returned: 0, answer: vec![0; 32], lent: vec![outcomes.into(), counts.into(), tests.into(), work.into()] }
}

/// Every fault is given up before its first node, and tests and work memory stay.
fn nothing_looked_at(case: &SearchAll) -> Seen {
    let (outcomes, counts) = (vec![Outcome::GivenUp as u8; case.budgets.len()], vec![0u64; case.budgets.len()]);
    let lent = vec![outcomes.into(), counts.into(), case.tests.clone().into(), case.work.clone().into()];
    Seen { returned: 0, answer: vec![0; 32], lent }
}

/// The library does what this program says.
fn agrees(cases: impl Iterator<Item = SearchAll>, program: fn(&SearchAll) -> Seen) {
    let cases: Vec<_> = cases.collect();
    let said: Vec<_> = cases.iter().map(program).collect();
    assert_eq!(first_difference(&cases, &library(&cases), &said), None);
}

#[test]
fn single_calls_one_after_the_other() {
    let many = drawn(12, 100, many_inputs).chain(drawn(13, 1, of_parity)).chain(drawn(14, 1, largest));
    agrees(drawn(10, 3_000, sound).chain(drawn(11, 20, most_faults)).chain(many), one_by_one);
}

#[test]
fn no_budget_at_all() {
    let lists = drawn(15, 300, few_faults).chain(drawn(16, 3, most_faults));
    agrees(lists.map(|case| SearchAll { budgets: vec![0; case.budgets.len()], ..case }), nothing_looked_at);
}

/// What can be wrong, in the order in which it is looked for, sizes by one too many.
const DEFECTS: [Defect<SearchAll>; 18] = defects![
    (6, |case| case.faults.push(0)),
    (7, |case| case.faults[8..11].copy_from_slice(&[1, 0, 3])),
    (7, |case| case.faults[11] = 2),
    (10, |case| case.budgets.push(0)),
    (10, |case| case.outcomes.push(0)),
    (10, |case| case.counts.push(0)),
    (10, |case| case.tests.push(0)),
    (10, |case| case.work.push(0)),
];

fn shorten<T>(elements: &mut Vec<T>) {
    elements.pop();
}

/// Sizes by one too few, in the same order.
const TOO_FEW: [Defect<SearchAll>; 8] = [
    (10, |case| shorten(&mut case.answer)),
    (1, |case| shorten(&mut case.circuit)),
    (6, |case| shorten(&mut case.faults)),
    (10, |case| shorten(&mut case.budgets)),
    (10, |case| shorten(&mut case.outcomes)),
    (10, |case| shorten(&mut case.counts)),
    (10, |case| shorten(&mut case.tests)),
    (10, |case| shorten(&mut case.work)),
];

#[test]
fn two_defects_at_once() {
    let case = with_budgets(&mut Random::new(17), example_a(), 4, &[0, 3, u64::MAX]);
    first_defect_is_told(&case, &DEFECTS);
    first_defect_is_told(&case, &TOO_FEW);
}

/// All records from one of them on are bad: its place is told, the last one's too.
#[test]
fn first_bad_fault() {
    let case = most_faults(&mut Random::new(18));
    let bad_from = |place: usize| {
        let mut case = case.clone();
        case.faults[8 * place..].chunks_exact_mut(8).for_each(|record| record[3] = 2);
        case
    };
    assert_eq!(compare("search_all, bad faults", (0..256).map(bad_from)).seen(), [7]);
}

#[test]
fn wrong_programs() {
    let cases: Vec<_> = drawn(19, 600, sound).chain(drawn(20, 2, most_faults)).chain(drawn(21, 400, damaged)).collect();
    wrong_programs_are_seen(&cases, wrong::PROGRAMS);
}

/// The safe call, on the marked examples of document 01.
#[test]
fn bindings() {
    let found = |outcome, nodes| Search { outcome, nodes };
    let [at_1, at_0] = [true, false].map(|stuck| faults::record(3, 0, stuck));
    let (mut tests, mut work) = ([9; 9], [9; 10]);
    let mut search_all = |faults: &[u8], budgets: &[u64]| ullimaqsu::search_all(&example_a(), faults, budgets, &mut tests, &mut work);
    let marked = [found(Outcome::Test, 4), found(Outcome::GivenUp, 3), found(Outcome::Test, 14)];
    assert_eq!(search_all(&[at_1, at_1, at_0].concat(), &[u64::MAX, 3, u64::MAX]), Ok(marked.to_vec()));
    assert_eq!(search_all(&[at_1, at_1, at_0].concat(), &[u64::MAX, 3]), Err(Refusal::new(10, 0)));
    assert_eq!(search_all(&[at_1, at_0, [5, 0, 0, 0, 0, 0, 0, 0]].concat(), &[0; 3]), Err(Refusal::new(7, 2)));
    assert_eq!((tests, work), ([0, 0, 0, 9, 9, 9, 1, 1, 0], [1, 1, 0, 1, 1, 1, 1, 0, 0, 0]));

    let (mut tests, mut work) = ([9; 3], [9; 6]);
    let redundant = faults::record(2, 0, false).repeat(3);
    let marked = [found(Outcome::Redundant, 3), found(Outcome::GivenUp, 2), found(Outcome::GivenUp, 0)];
    assert_eq!(ullimaqsu::search_all(&always_0(), &redundant, &[u64::MAX, 2, 0], &mut tests, &mut work), Ok(marked.to_vec()));
    assert_eq!((tests, work), ([9; 3], [0, 1, 0, 0, 1, 0]));
}
