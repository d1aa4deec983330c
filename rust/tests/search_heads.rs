//! The search over head lines against the second program, against the search over patterns, and its verdicts against all input vectors.
#[path = "harness/budgets.rs"]
mod budgets;
#[path = "wrong/changed.rs"]
mod changed;
#[path = "harness/defects.rs"]
mod defects;
mod harness;
#[path = "wrong/rules.rs"]
mod rules;
#[path = "harness/searches.rs"]
mod searches;
#[path = "wrong/search_heads.rs"]
mod wrong;

use cases::circuits::{self, always_0, circuit, example_a, parity, sources, NAND, NOR, XNOR, XOR};
use cases::selects::{self, EVERY};
use cases::{drawn, faults, placed, trees, Random, Sort, Tally};
use harness::{compare, first_defect_is_told, first_difference, library, wrong_programs_are_seen, Case, Defect, Search, SearchHeads};
use rules::RULES;
use searches::{
    hold_to_all_vectors, largest, lend, lend_for, many_inputs, nodes, one_fault_defects, parity_stuck_at_0, verdict_or_refusal,
};
use searches::{with_budget, OneFault, GIVEN_UP, REDUNDANT, TEST};
use second::entries::{self, Seen};
use second::search_heads::{searched, Place, Placed};
use second::{Circuit, Fault, Site};
use ullimaqsu::Outcome;
use wrong::{by, RIGHT};

/// Where a fault is.
const SITES: [Sort; 6] = ["bound line", "bound pin", "head line", "head pin", "other free line", "other free pin"];

/// Those that the search over head lines serves, and those for which it is the search over patterns.
const SERVED: [Sort; 3] = [SITES[0], SITES[1], SITES[2]];
const NOT_SERVED: [Sort; 3] = [SITES[3], SITES[4], SITES[5]];

/// What is seen of a head line, and of another free line: that it is an output.
const OUTPUTS: [Sort; 2] = ["head line is an output", "other free line is an output"];

/// All that is seen of trees, and of selectors.
const ALL: [&[Sort]; 5] = [&SITES, &OUTPUTS, EVERY[0], EVERY[1], EVERY[2]];

fn site(placed: &Placed, fault: Fault) -> Sort {
    let pin = usize::from(fault.site != Site::Line);
    match placed.places[fault.line] {
        Place::Bound => SITES[pin],
        Place::Head => SITES[2 + pin],
        Place::Other => SITES[4 + pin],
    }
}

fn outputs(placed: &Placed) -> Vec<Sort> {
    let is_output = |place| placed.circuit.outputs().any(|line| placed.places[line] == place);
    OUTPUTS.into_iter().zip([Place::Head, Place::Other]).filter(|&(_, place)| is_output(place)).map(|(sort, _)| sort).collect()
}

impl Case for SearchHeads {
    fn second(&self) -> Seen {
        entries::search_heads(&self.circuit, &self.fault, self.budget, &self.test, &self.work, &self.answer)
    }
    fn counted(seen: &Seen) -> u32 {
        verdict_or_refusal(seen)
    }
    fn sorts(&self, seen: &mut Seen) -> Vec<Sort> {
        let (circuit, fault) = self.parts();
        let placed = Placed::new(&circuit);
        let work = if self.budget > 0 { seen.lent[1].u8() } else { &[][..] };
        [vec![site(&placed, fault)], outputs(&placed), selects::all(&self.circuit, &self.fault, work)].concat()
    }
}

impl OneFault for SearchHeads {
    fn given(&self) -> (&[u8], &[u8]) {
        (&self.circuit, &self.fault)
    }
}

/// The search over patterns is given the same.
impl From<Search> for SearchHeads {
    fn from(Search { circuit, fault, budget, test, work, answer }: Search) -> SearchHeads {
        SearchHeads { circuit, fault, budget, test, work, answer }
    }
}

impl From<SearchHeads> for Search {
    fn from(SearchHeads { circuit, fault, budget, test, work, answer }: SearchHeads) -> Search {
        Search { circuit, fault, budget, test, work, answer }
    }
}

/// Any fault of a circuit, at a bound line, at a head line or at another as often, since in wide trees most lines are neither; or at a select.
fn lend_anywhere(random: &mut Random, bytes: Vec<u8>) -> Search {
    let places = Placed::new(&Circuit::read(&bytes).expect("sound")).places;
    let place = random.pick(&[Place::Bound, Place::Head, Place::Other]);
    let lines: Vec<usize> = (0..places.len()).filter(|&line| places[line] == place).collect();
    if lines.is_empty() || random.once_in(4) {
        return lend(random, bytes);
    }
    let line = random.pick(&lines);
    let site = random.below(sources(bytes[8 * line]) + 1) as u8;
    let fault = faults::record(line, site, random.once_in(2));
    lend_for(random, bytes, fault.to_vec())
}

/// A circuit with trees, or any.
fn few_inputs(random: &mut Random) -> Search {
    let circuit = random.pick(&[trees::few_inputs, trees::few_inputs, circuits::few_inputs])(random);
    lend_anywhere(random, circuit)
}

fn sound(random: &mut Random) -> SearchHeads {
    let case = few_inputs(random);
    with_budget(random, case, |circuit, fault| searched(circuit, fault, u64::MAX).nodes).into()
}

fn damaged(random: &mut Random) -> SearchHeads {
    let case = sound(random);
    searches::damaged(random, case.into()).into()
}

/// Up to 64 inputs in trees, and a small budget.
fn many_inputs_in_trees(random: &mut Random) -> SearchHeads {
    let circuit = trees::many_inputs(random);
    let budget = random.pick(&[0, 1, 2, 10, 60, 200]);
    Search { budget, ..lend_anywhere(random, circuit) }.into()
}

/// 2,048 lines, half of them in trees.
fn largest_trees(random: &mut Random) -> SearchHeads {
    let circuit = trees::circuit(random, 64, 1_000, 984);
    Search { budget: 50, ..lend_anywhere(random, circuit) }.into()
}

/// A circuit with each of its faults, and no more nodes than this.
fn every_fault(circuit: Vec<u8>, budget: u64) -> impl Iterator<Item = SearchHeads> {
    let random = &mut Random::new(circuit.len() as u64);
    let case = |fault: [u8; 8]| Search { budget, ..lend_for(random, circuit.clone(), fault.to_vec()) }.into();
    faults::every(&circuit).into_iter().map(case).collect::<Vec<_>>().into_iter()
}

#[test]
fn sound_searches() {
    assert_eq!(compare("search_heads, sound", drawn(1, 60_000, sound)).with_sorts(&ALL).seen(), [TEST, REDUNDANT, GIVEN_UP]);
}

#[test]
fn damaged_searches() {
    let seen = [1, 2, 4, 5, 6, 7, 10, TEST, REDUNDANT, GIVEN_UP];
    assert_eq!(compare("search_heads, damaged", drawn(2, 150_000, damaged)).with_sorts(&ALL).seen(), seen);
}

#[test]
fn searches_with_many_inputs() {
    let every = [TEST, REDUNDANT, GIVEN_UP];
    assert_eq!(compare("search_heads, up to 64 inputs in trees", drawn(3, 4_000, many_inputs_in_trees)).with_sorts(&ALL).seen(), every);
    let any = drawn(4, 2_000, many_inputs).map(SearchHeads::from);
    assert_eq!(compare("search_heads, 60 to 64 inputs", any).with_sorts(&EVERY).seen(), every);
    assert_eq!(compare("search_heads, 2,048 lines", drawn(5, 30, largest).map(SearchHeads::from)).seen(), [TEST, GIVEN_UP]);
    let large = compare("search_heads, 2,048 lines, half in trees", drawn(6, 60, largest_trees));
    assert_eq!(large.with_sorts(&[&SITES]).seen(), every);
}

/// What document 001 draws and what else is placed by hand: at every line and every pin.
#[test]
fn every_fault_of_what_is_placed_by_hand() {
    let budgets = |circuit: Vec<u8>| [0, 1, 2, 5, 500].into_iter().flat_map(move |budget| every_fault(circuit.clone(), budget));
    let cases = placed::every().into_iter().flat_map(|by_hand| budgets(by_hand.circuit));
    let tally = compare("search_heads, every fault of what is placed by hand", cases);
    assert_eq!(tally.with_sorts(&[&SITES, &OUTPUTS]).seen(), [TEST, REDUNDANT, GIVEN_UP]);
}

/// A tree of each kind and depth, along each pin, into a head line.
#[test]
fn trees_of_every_kind() {
    let cases = trees::every_kind(6).into_iter().flat_map(|circuit| every_fault(circuit, 70));
    let tally = compare("search_heads, trees of every kind", cases);
    assert_eq!(tally.with_sorts(&[&SITES]).seen(), [TEST, REDUNDANT, GIVEN_UP]);
}

/// Each circuit in two orders of its lines: head lines are decided in line order.
#[test]
fn every_fault_of_random_circuits() {
    let cases = drawn(7, 150, trees::few_inputs).flat_map(|circuit| {
        let other = trees::reordered(&mut Random::new(8), &circuit);
        every_fault(circuit, u64::MAX).chain(every_fault(other, u64::MAX))
    });
    let tally = compare("search_heads, every fault of random circuits", cases);
    assert_eq!(tally.with_sorts(&[&SITES, &OUTPUTS]).seen(), [TEST, REDUNDANT]);
}

#[test]
fn verdicts_and_all_vectors() {
    let cases: Vec<SearchHeads> = drawn(9, 5_000, few_inputs).map(SearchHeads::from).collect();
    let decided = |circuit: &Circuit, fault: Fault| {
        let placed = Placed::new(circuit);
        if placed.serves(fault) {
            placed.heads().count()
        } else {
            circuit.inputs().count()
        }
    };
    hold_to_all_vectors(&cases, decided).with_sorts(&ALL);
}

/// What the library's search over patterns does with the same cases.
fn over_patterns(cases: &[SearchHeads]) -> Vec<Seen> {
    library(&cases.iter().cloned().map(Search::from).collect::<Vec<_>>())
}

/// Where both searches reach a verdict they agree, whatever their budgets are.
#[test]
fn verdicts_of_both_searches() {
    let cases: Vec<_> = drawn(10, 10_000, sound).chain(drawn(11, 3_000, many_inputs_in_trees)).collect();
    let (mut tally, mut nodes_differ) = (Tally::default(), [0; 2]);
    for ((case, seen), other) in cases.iter().zip(library(&cases)).zip(over_patterns(&cases)) {
        let verdicts = [&seen, &other].map(verdict_or_refusal);
        if !verdicts.contains(&GIVEN_UP) {
            assert_eq!(verdicts[0], verdicts[1], "{case:?}");
            tally.count(verdicts[0]);
            nodes_differ[0] += usize::from(nodes(&seen) < nodes(&other));
            nodes_differ[1] += usize::from(nodes(&seen) > nodes(&other));
        }
    }
    assert_eq!(tally.seen(), [TEST, REDUNDANT]);
    assert!(nodes_differ.iter().all(|&times| times > 0), "fewer nodes and more: {nodes_differ:?}");
}

/// The cases of these sites, of which all must be there, and for which both searches do the same, byte by byte.
fn same_as_over_patterns(name: &str, cases: impl Iterator<Item = SearchHeads>, sites: &[Sort]) {
    let (mut cases, mut tally) = (cases.collect::<Vec<_>>(), Tally::default());
    cases.retain(|case| {
        let (circuit, fault) = case.parts();
        let site = site(&Placed::new(&circuit), fault);
        tally.count_sorts([site].into_iter().filter(|site| sites.contains(site)));
        sites.contains(&site)
    });
    assert_eq!(first_difference(&cases, &library(&cases), &over_patterns(&cases)), None, "{name}");
    tally.with_sorts(&[sites]);
}

/// For faults that are not served, among them all of a circuit that is one tree, this is the search over patterns.
#[test]
fn faults_that_are_not_served() {
    same_as_over_patterns("random", drawn(12, 20_000, sound).chain(drawn(13, 2_000, many_inputs_in_trees)), &NOT_SERVED);
    let trees = [example_a(), parity()].into_iter().flat_map(|circuit| every_fault(circuit, 100));
    same_as_over_patterns("one tree", trees, &NOT_SERVED[1..]);
}

/// Nothing but inputs is free, and each of them is a head line.
fn has_no_tree(circuit: &Circuit) -> bool {
    let placed = Placed::new(circuit);
    placed.heads().eq(circuit.inputs()) && !placed.places.contains(&Place::Other)
}

/// Where there is no tree, head lines are inputs and both searches do the same.
#[test]
fn circuits_without_trees() {
    let any = |random: &mut Random| {
        let (lines, inputs) = (2 + random.below(20), 1 + random.below(4));
        let circuit = circuit(random, lines.max(inputs), inputs);
        let budget = random.pick(&[0, 1, 3, 10, u64::MAX]);
        SearchHeads::from(Search { budget, ..lend(random, circuit) })
    };
    let cases: Vec<_> = drawn(14, 40_000, any).filter(|case| has_no_tree(&case.parts().0)).collect();
    assert!(cases.len() > 2_000, "{} cases", cases.len());
    same_as_over_patterns("random", cases.into_iter(), &SERVED);
    same_as_over_patterns("always 0", every_fault(always_0(), 3), &SERVED);
}

/// 64 inputs in one tree or two: a few nodes, where the search over patterns gives up. What is found is seen by the dictionary.
#[test]
fn wide_trees() {
    for kind in [NAND, NOR, XOR, XNOR] {
        for (circuit, most) in [(trees::one_tree(kind, 6, &[1, 2]), 3), (trees::two_trees(kind, 5), 7)] {
            let lines = circuit.len() / 8;
            assert_eq!(faults::inputs(&circuit), 64);
            let (mut test, mut work) = ([9; 64], vec![9; 2 * lines]);
            let redundant = faults::record(lines - 1, 0, false);
            let found = ullimaqsu::search_heads(&circuit, &redundant, most, &mut test, &mut work).expect("sound");
            assert_eq!((found.outcome, found.nodes, test), (Outcome::Redundant, most, [9; 64]));
            let drowned = ullimaqsu::search(&circuit, &redundant, 10_000, &mut test, &mut work).expect("sound");
            assert_eq!(drowned.outcome, Outcome::GivenUp);
            for (line, stuck) in (lines - 3..lines - 1).flat_map(|line| [(line, false), (line, true)]) {
                let fault = faults::record(line, 0, stuck);
                let found = ullimaqsu::search_heads(&circuit, &fault, most, &mut test, &mut work).expect("sound");
                if found.outcome == Outcome::Test {
                    let mut entry = [9];
                    ullimaqsu::dictionary(&circuit, &fault, &test, &mut entry, &mut work).expect("sound");
                    assert_eq!(entry, [1], "kind {kind}, line {line} stuck at {stuck}");
                }
                // one line and its complement always differ
                let always = most == 3 && stuck == (line == lines - 3);
                assert_eq!(found.outcome, if always { Outcome::Redundant } else { Outcome::Test });
            }
        }
    }
}

/// A tree is set for each value of its head line: what the library's dictionary then simulates there is that value.
#[test]
fn head_lines_have_their_values() {
    let circuits = trees::every_kind(6);
    assert!(circuits.len() > 150, "{} trees", circuits.len());
    for (circuit, stuck) in circuits.iter().flat_map(|circuit| [(circuit, false), (circuit, true)]) {
        let lines = circuit.len() / 8;
        let head = lines - 6;
        let (fault, value) = (faults::record(head, 0, stuck), u8::from(!stuck));
        let (mut test, mut work, mut entry) = (vec![9; faults::inputs(circuit)], vec![9; 2 * lines], [9]);
        let found = ullimaqsu::search_heads(circuit, &fault, 3, &mut test, &mut work).expect("sound");
        assert_eq!((found.outcome, found.nodes), (Outcome::Test, 2 + u64::from(value)));
        assert_eq!((work[head], work[lines + head]), (value, 1 - value));
        ullimaqsu::dictionary(circuit, &fault, &test, &mut entry, &mut work).expect("sound");
        assert_eq!((entry, work[head], work[lines + head]), ([1], value, 1 - value), "{circuit:?}");
    }
}

const DEFECTS: [Defect<SearchHeads>; 15] = one_fault_defects!();

#[test]
fn two_defects_at_once() {
    first_defect_is_told(&lend(&mut Random::new(15), circuits::selecting()).into(), &DEFECTS);
}

#[test]
fn wrong_programs() {
    let by_hand = placed::every().into_iter().filter(|one| one.circuit != parity()).flat_map(|one| every_fault(one.circuit, u64::MAX));
    let cases: Vec<_> = drawn(16, 4_000, sound).chain(drawn(17, 1_000, damaged)).chain(by_hand).collect();
    let right: Vec<_> = cases.iter().map(|case| by(case, RIGHT)).collect();
    assert_eq!(first_difference(&cases, &library(&cases), &right), None, "before anything is made wrong");
    wrong_programs_are_seen(&cases, wrong::PROGRAMS);
    wrong_programs_are_seen(&cases, RULES.map(|(name, rule)| (name, move |case: &SearchHeads| wrong::with_rule(case, rule))));
}

/// One tree, so that the search over patterns goes down to the last input.
#[test]
fn parity_of_64_inputs() {
    let budgets = [0, 1, 64, 65, 66, 67, u64::MAX].into_iter().map(|budget| Search { budget, ..parity_stuck_at_0() });
    assert_eq!(compare("search_heads, parity of 64 inputs", budgets.map(SearchHeads::from)).seen(), [TEST, GIVEN_UP]);
}

/// Two inputs in an AND, which is a head line and an output: stuck at 1, and a line above it that is always 1.
#[test]
fn bindings() {
    let by_hand = placed::every().into_iter().find(|one| one.name.starts_with("a head line that is an output, and branches"));
    let circuit = by_hand.expect("it stands there").circuit;
    let (mut test, mut work) = ([9; 2], [9; 10]);
    let mut search = |fault: [u8; 8], budget| ullimaqsu::search_heads(&circuit, &fault, budget, &mut test, &mut work).expect("sound");
    let found = |outcome, nodes| ullimaqsu::Search { outcome, nodes };
    assert_eq!(search(faults::record(2, 0, true), 0), found(Outcome::GivenUp, 0));
    assert_eq!(search(faults::record(2, 0, true), 1), found(Outcome::GivenUp, 1));
    assert_eq!(search(faults::record(2, 0, true), 2), found(Outcome::Test, 2));
    assert_eq!(search(faults::record(4, 0, true), 9), found(Outcome::Redundant, 3));
    assert_eq!((test, work), ([0, 2], [2, 2, 1, 0, 1, 2, 2, 1, 0, 1]));
    let refused = ullimaqsu::search_heads(&circuit, &[0; 16], 1, &mut test, &mut work).unwrap_err();
    assert_eq!((refused.number, refused.place), (6, 0));
}
