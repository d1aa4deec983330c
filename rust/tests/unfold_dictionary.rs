//! The dictionary maker for clocked circuits against the second program, which runs them step by step: table, work memory and answer, byte by byte;
//! and against the library's other dictionary maker on what it unfolds.
#[path = "wrong/answered.rs"]
mod answered;
#[path = "wrong/but_for.rs"]
mod but_for;
#[path = "wrong/changed.rs"]
mod changed;
#[path = "harness/defects.rs"]
mod defects;
mod harness;
#[path = "wrong/clocked.rs"]
mod readers;
#[path = "wrong/rules.rs"]
mod rules;
#[path = "harness/stepped.rs"]
mod stepped;
#[path = "wrong/unfold_dictionary.rs"]
mod wrong;

use cases::clocked::{self, counter, input_bounds, line_bounds, named, small, small_given, stuck, wired, Clocked, Given, STUCK, WIRED};
use cases::faults::{self, inputs};
use cases::selects::{self, EVERY};
use cases::{damage, drawn, Random, Sort};
use harness::{compare, first_defect_is_told, wrong_programs_are_seen, Case, Defect, UnfoldDictionary};
use rules::RULES;
use second::entries::{self, Seen};
use second::{Entry, Slice};
use stepped::{selecting_twice, stepped, stepped_defects, Stepped};

stepped!(UnfoldDictionary);

impl Case for UnfoldDictionary {
    fn second(&self) -> Seen {
        let clocked = second::Clocked::read(&self.circuit, &self.states, self.steps);
        entries::unfold_dictionary(clocked, &self.faults, &self.patterns, &self.table, &self.work, &self.answer)
    }

    fn sorts(&self, seen: &mut Seen) -> Vec<Sort> {
        let selects = selects::all(&self.circuit, &self.faults, seen.lent[1].u8());
        [wired(&self.circuit, &self.states), stuck(&self.states, &self.faults), selects].concat()
    }

    /// Unfolded by the library, the good values are those of its first engine; over one step all is what that makes of the circuit with its data lines
    /// for outputs.
    fn hold_more(cases: &[Self], library: &[Seen]) {
        for (case, seen) in cases.iter().zip(library).filter(|(_, seen)| seen.returned == 0) {
            let Made { table, work } = of_unfolded(&case.clocked(), &case.faults, &case.patterns);
            let Slice::U8(left) = &seen.lent[1] else { panic!("the work memory is of bytes") };
            assert_eq!(left[..left.len() / 2], work[..work.len() / 2], "{case:?}");
            if case.steps == 1 {
                assert_eq!(seen.lent, [Slice::from(table), Slice::from(work)], "{case:?}");
            }
        }
    }
}

/// What a dictionary maker leaves.
#[derive(Debug, PartialEq, Eq)]
struct Made {
    table: Vec<u8>,
    work: Vec<u8>,
}

/// What the first engine makes of the unfolded circuit, in which these faults are in step 1 alone.
fn of_unfolded(clocked: &Clocked, faults: &[u8], patterns: &[u8]) -> Made {
    let mut unfolded = vec![9; 8 * clocked.lines()];
    ullimaqsu::unfold(&clocked.circuit, &clocked.states, clocked.steps, &mut unfolded).expect("sound");
    of_circuit(&unfolded, faults, patterns)
}

fn of_circuit(circuit: &[u8], faults: &[u8], patterns: &[u8]) -> Made {
    let (mut table, mut work) = (vec![9; faults.len() / 8 * (patterns.len() / inputs(circuit))], vec![9; circuit.len() / 4]);
    ullimaqsu::dictionary(circuit, faults, patterns, &mut table, &mut work).expect("sound");
    Made { table, work }
}

/// What the library makes of a clocked circuit.
fn made(Given { clocked, faults, patterns }: &Given) -> Made {
    let Clocked { circuit, states, steps } = clocked;
    let (mut table, mut work) = (vec![9; faults.len() / 8 * (patterns.len() / clocked.inputs())], vec![9; 2 * clocked.lines()]);
    ullimaqsu::unfold_dictionary(circuit, states, *steps, faults, patterns, &mut table, &mut work).expect("sound");
    Made { table, work }
}

/// Lends junk of the right sizes.
fn lend(random: &mut Random, given: Given) -> UnfoldDictionary {
    let (table, work, answer) = (random.junk(given.entries()), random.junk(2 * given.clocked.lines()), random.junk(32));
    let Given { clocked: Clocked { circuit, states, steps }, faults, patterns } = given;
    UnfoldDictionary { circuit, states, steps, faults, patterns, table, work, answer }
}

fn sound(random: &mut Random) -> UnfoldDictionary {
    let given = small_given(random);
    lend(random, given)
}

/// One thing or several are wrong.
fn damaged(random: &mut Random) -> UnfoldDictionary {
    let mut case = sound(random);
    let lines = case.circuit.len() / 8;
    damage::several(random, &mut case, |random, case| match random.below(20) {
        0..=7 => damage::files(random, [&mut case.circuit, &mut case.faults, &mut case.patterns], lines),
        8..=11 => damage::several(random, &mut case.states, |random, bytes| damage::states(random, bytes, lines)),
        12..=14 => case.steps = damage::steps(random, case.steps),
        15..=16 => case.table.resize(damage::size(random, case.table.len()), 7),
        17 => case.work.resize(damage::size(random, case.work.len()), 7),
        18 => case.work.resize(2 * lines, 7),
        _ => case.answer.resize(random.pick(&[0, 31, 33, 64]), 7),
    });
    case
}

/// Every fault of the named circuits, of which these are made.
fn named_so(random: &mut Random, change: fn(Clocked) -> Clocked) -> Vec<UnfoldDictionary> {
    let mut all = vec![];
    for (_, clocked) in named() {
        let given = Given::every(random, change(clocked), 8);
        all.push(lend(random, given));
    }
    all
}

fn named_cases(random: &mut Random) -> Vec<UnfoldDictionary> {
    named_so(random, |clocked| clocked)
}

/// Nine steps, and everything else right for them.
fn nine_steps(random: &mut Random) -> Vec<UnfoldDictionary> {
    named_so(random, |clocked| Clocked { steps: 9, ..clocked })
}

/// Sizes at and beyond the bounds.
fn bounds(random: &mut Random) -> Vec<UnfoldDictionary> {
    let mut all = vec![];
    for clocked in [input_bounds(random), line_bounds(random)].concat() {
        let given = Given::some(random, clocked, 3, 2);
        all.push(lend(random, given));
    }
    all
}

/// All that states and selectors do.
const SORTS: [&[Sort]; 5] = [&WIRED, &STUCK, EVERY[0], EVERY[1], EVERY[2]];

#[test]
fn sound_dictionaries() {
    assert_eq!(compare("unfold_dictionary, sound", drawn(1, 30_000, sound)).with_sorts(&SORTS).seen(), [0]);
}

#[test]
fn damaged_dictionaries() {
    let seen = compare("unfold_dictionary, damaged", drawn(2, 80_000, damaged)).with_sorts(&SORTS).seen();
    assert_eq!(seen, [0, 1, 2, 4, 5, 6, 7, 8, 9, 10, 18, 19, 21]);
}

#[test]
fn named_circuits() {
    let cases = drawn(3, 20, named_cases).flatten();
    assert_eq!(compare("unfold_dictionary, named circuits", cases).with_sorts(&[&WIRED, &STUCK]).seen(), [0]);
}

#[test]
fn nine_steps_are_refused() {
    assert_eq!(compare("unfold_dictionary, nine steps", nine_steps(&mut Random::new(15)).into_iter()).seen(), [21]);
}

/// 64 inputs and 2,048 lines are taken, one more is not.
#[test]
fn sizes_after_unfolding() {
    assert_eq!(compare("unfold_dictionary, bounds", drawn(4, 10, bounds).flatten()).seen(), [0, 1, 4, 19, 21]);
}

/// 256 lines for eight steps with 64 inputs, and 256 faults; and as many patterns for fewer lines.
#[test]
fn largest() {
    let mut random = Random::new(5);
    let mut all = vec![];
    for (lines, faults, patterns) in [(256, 256, 3), (40, 256, 256), (20, 257, 2), (20, 2, 257), (20, 0, 2), (20, 2, 0)] {
        let clocked = clocked::clocked(&mut random, lines, 15, 8, 8);
        assert_eq!(clocked.inputs(), 64);
        let given = Given::some(&mut random, clocked, faults, patterns);
        all.push(lend(&mut random, given));
    }
    assert_eq!(compare("unfold_dictionary, largest", all.into_iter()).seen(), [0, 6, 8]);
}

/// One step, with all faults, is the dictionary of the circuit with its data lines for outputs; without states, of the circuit itself.
#[test]
fn one_step() {
    let mut random = Random::new(6);
    for clocked in drawn(7, 3_000, small) {
        let given = Given::every(&mut random, Clocked { steps: 1, ..clocked }, 5);
        let mut circuit = given.clocked.circuit.clone();
        clocked::pairs(&given.clocked.states).into_iter().for_each(|[data, _]| circuit[8 * data + 1] = 1);
        assert_eq!(made(&given), of_circuit(&circuit, &given.faults, &given.patterns), "{given:?}");
    }
}

/// Without states the steps know nothing of each other: some step fails, all pass, or the entry is unknown; and the work memory is that of each.
#[test]
fn steps_without_states_are_copies() {
    let mut random = Random::new(8);
    let mut seen = [0; 3];
    for clocked in drawn(9, 3_000, small) {
        let each = inputs(&clocked.circuit);
        let steps = clocked.steps.min(64 / each as u64);
        let given = Given::every(&mut random, Clocked { states: vec![], steps, ..clocked }, 5);
        let Made { table, work } = made(&given);
        let faults = given.faults.len() / 8;
        for (pattern, row) in given.patterns.chunks_exact(steps as usize * each).zip(table.chunks_exact(faults)) {
            let of_steps = of_circuit(&given.clocked.circuit, &given.faults, pattern).table;
            for (fault, &entry) in row.iter().enumerate() {
                let entries: Vec<u8> = of_steps.iter().skip(fault).step_by(faults).copied().collect();
                let expected = match entries {
                    _ if entries.contains(&(Entry::Fail as u8)) => Entry::Fail,
                    _ if entries.contains(&(Entry::Unknown as u8)) => Entry::Unknown,
                    _ => Entry::Pass,
                };
                assert_eq!(entry, expected as u8, "{given:?}");
                seen[usize::from(entry)] += 1;
            }
        }
        let last = &given.patterns[given.patterns.len() - steps as usize * each..];
        let of_steps = last.chunks_exact(each).map(|pattern| of_circuit(&given.clocked.circuit, &given.faults, pattern).work);
        let halves: Vec<[Vec<u8>; 2]> =
            of_steps.map(|work| [0, 1].map(|half| work[half * work.len() / 2..][..work.len() / 2].to_vec())).collect();
        assert_eq!(work, [0, 1].map(|half| halves.iter().flat_map(|halves| halves[half].clone()).collect::<Vec<_>>()).concat());
    }
    assert!(seen.iter().all(|&times| times > 300), "{seen:?}");
}

/// The counter of one bit over three steps, line 0 its input, line 1 its state line, line 2 the next state, an output, line 3 the carry on. It counts
/// twice from 0; stuck at 0, its state line is so in every step.
#[test]
fn counter_by_hand() {
    let [fail, pass] = [Entry::Fail as u8, Entry::Pass as u8];
    let faults = [faults::record(1, 0, false), faults::record(3, 0, true), faults::record(2, 1, true)].concat();
    let patterns = vec![1, 0, 1, 0, 0, 0, 0, 0];
    let Made { table, work } = made(&Given { clocked: counter(1, 3), faults, patterns });
    assert_eq!(table, [fail, pass, fail, pass, pass, fail]);
    assert_eq!(work, [0, 0, 0, 0, 0, 0, 0, 0, 0, 0, 0, 0, 0, 0, 1, 0, 0, 1, 1, 0, 0, 1, 1, 0]);
}

/// Every size of the work memory and then of the table, up to twice the right one and more; one step's is among them.
fn every_size(random: &mut Random) -> impl Iterator<Item = UnfoldDictionary> {
    let given = Given::some(random, counter(1, 3), 2, 3);
    let case = lend(random, given);
    let resized = move |(table, work)| {
        let mut case = case.clone();
        case.table.resize(table, 7);
        case.work.resize(work, 7);
        case
    };
    (0..52).map(|work| (6, work)).chain((0..14).map(|table| (table, 24))).map(resized)
}

#[test]
fn sizes_of_lent_memory() {
    assert_eq!(compare("unfold_dictionary, every size", every_size(&mut Random::new(10))).seen(), [0, 10]);
}

/// What can be wrong, in the order in which it is looked for.
const DEFECTS: [Defect<UnfoldDictionary>; 26] = stepped_defects![
    (6, |case| case.faults.push(0)),
    (7, |case| case.faults[8..10].copy_from_slice(&[3, 0])),
    (7, |case| case.faults[8..11].copy_from_slice(&[1, 0, 1])),
    (8, |case| case.patterns.push(0)),
    (9, |case| case.patterns[3] = 3),
    (10, |case| case.table.push(0)),
    (10, |case| case.work.truncate(6)),
];

#[test]
fn two_defects_at_once() {
    let mut random = Random::new(11);
    let given = Given::some(&mut random, selecting_twice(), 2, 3);
    first_defect_is_told(&lend(&mut random, given), &DEFECTS);
}

#[test]
fn wrong_programs() {
    let mut random = Random::new(12);
    let more = [named_cases(&mut random), nine_steps(&mut random), bounds(&mut random), every_size(&mut random).collect()].concat();
    let cases: Vec<_> = drawn(13, 1_000, sound).chain(drawn(14, 8_000, damaged)).chain(more).collect();
    wrong_programs_are_seen(&cases, wrong::PROGRAMS);
    wrong_programs_are_seen(&cases, readers::readers());
    wrong_programs_are_seen(&cases, RULES.map(|(name, rule)| (name, move |case: &UnfoldDictionary| wrong::by_rule(case, rule))));
}
