//! The dictionary maker against the second program: table, work memory and answer, byte by byte.
#[path = "wrong/changed.rs"]
mod changed;
#[path = "harness/defects.rs"]
mod defects;
mod harness;
#[path = "wrong/rules.rs"]
mod rules;

use cases::circuits::{record, selecting, sources, AND, INPUT};
use cases::faults::{self, inputs};
use cases::files::{boundaries, example_a, largest, small};
use cases::selects::{self, EVERY};
use cases::{damage, drawn, Files, Random, Sort};
use changed::{accepted, written_though_refused};
use defects::defects;
use harness::{compare, first_defect_is_told, wrong_programs_are_seen, Case, Defect, Dictionary};
use rules::{Rule, RULES};
use second::circuit::Gate;
use second::entries::{self, Seen};
use second::{Entry, Given, Value};

impl Case for Dictionary {
    fn second(&self) -> Seen {
        entries::dictionary(&self.circuit, &self.faults, &self.patterns, &self.table, &self.work, &self.answer)
    }

    fn sorts(&self, seen: &mut Seen) -> Vec<Sort> {
        selects::all(&self.circuit, &self.faults, seen.lent[1].u8())
    }
}

/// Lends junk of the right sizes.
fn lend(random: &mut Random, files: Files) -> Dictionary {
    let (table, work, answer) = (random.junk(files.entries()), random.junk(2 * files.lines()), random.junk(32));
    let Files { circuit, faults, patterns } = files;
    Dictionary { circuit, faults, patterns, table, work, answer }
}

fn sound(random: &mut Random) -> Dictionary {
    let count = 1 + random.below(8);
    let files = small(random, count);
    lend(random, files)
}

/// One thing or several are wrong.
fn damaged(random: &mut Random) -> Dictionary {
    let mut case = sound(random);
    let lines = case.circuit.len() / 8;
    damage::several(random, &mut case, |random, case| match random.below(12) {
        0..=7 => damage::files(random, [&mut case.circuit, &mut case.faults, &mut case.patterns], lines),
        8..=9 => case.table.resize(damage::size(random, case.table.len()), 7),
        10 => case.work.resize(damage::size(random, case.work.len()), 7),
        _ => case.answer.resize(random.pick(&[0, 31, 33, 64]), 7),
    });
    case
}

#[test]
fn sound_dictionaries() {
    assert_eq!(compare("dictionary, sound", drawn(1, 100_000, sound)).with_sorts(&EVERY).seen(), [0]);
}

#[test]
fn damaged_dictionaries() {
    assert_eq!(compare("dictionary, damaged", drawn(2, 150_000, damaged)).with_sorts(&EVERY).seen(), [0, 1, 2, 4, 5, 6, 7, 8, 9, 10]);
}

#[test]
fn boundaries_and_largest() {
    let mut random = Random::new(3);
    let boundaries = boundaries(&mut random).into_iter().map(|files| lend(&mut random, files));
    assert_eq!(compare("dictionary, boundaries", boundaries).with_sorts(&EVERY).seen(), [0, 1, 4, 6, 8]);
    let files = largest(&mut random);
    assert_eq!(compare("dictionary, largest", [lend(&mut random, files)].into_iter()).with_sorts(&EVERY[..2]).seen(), [0]);
}

/// What can be wrong, in the order in which it is looked for.
const DEFECTS: [Defect<Dictionary>; 17] = defects![
    (6, |case| case.faults.push(0)),
    (7, |case| case.faults[8..11].copy_from_slice(&[1, 0, 3])),
    (7, |case| case.faults[11] = 2),
    (8, |case| case.patterns.push(0)),
    (9, |case| case.patterns[3] = 3),
    (10, |case| case.table.push(0)),
    (10, |case| case.work.clear()),
];

#[test]
fn two_defects_at_once() {
    let mut random = Random::new(5);
    let files = Files::some(&mut random, selecting(), 2, 3);
    first_defect_is_told(&lend(&mut random, files), &DEFECTS);
}

/// The table by another entry, and otherwise what the second program says.
fn by(case: &Dictionary, entry: fn(&[(Value, Value)]) -> Entry) -> Seen {
    by_rule(case, Gate::value, entry)
}

/// The same by another gate rule too.
fn by_rule(case: &Dictionary, rule: Rule, entry: fn(&[(Value, Value)]) -> Entry) -> Seen {
    accepted(case, |seen| {
        let Given { circuit, faults, patterns } = Given::read(&case.circuit, &case.faults, &case.patterns).expect("sound");
        let of = |pattern: &[Value], fault| {
            let (good, faulty) = (circuit.values_by(rule, pattern, None), circuit.values_by(rule, pattern, Some(fault)));
            entry(&circuit.outputs().map(|line| (good[line], faulty[line])).collect::<Vec<_>>()) as u8
        };
        *seen.lent[0].u8() = patterns.iter().flat_map(|pattern| faults.iter().map(|&fault| of(pattern, fault))).collect();
    })
}

/// What the second program says of an accepted case that is changed first.
fn of_changed(case: &Dictionary, change: fn(&mut Dictionary)) -> Seen {
    accepted(case, |seen| {
        let mut other = case.clone();
        change(&mut other);
        *seen = other.second();
    })
}

/// The right entry.
fn right(outputs: &[(Value, Value)]) -> Entry {
    second::dictionary::entry(outputs.iter().copied())
}

fn masked(outputs: &[(Value, Value)]) -> bool {
    outputs.iter().any(|(good, _)| good.is_none())
}

type Wrong = (&'static str, fn(&Dictionary) -> Seen);

/// Programs that are wrong in one way each.
const WRONG: [Wrong; 13] = [
    ("answers unknown everywhere", |case| by(case, |_| Entry::Unknown)),
    ("masks nothing: X in the good circuit makes unknown", |case| {
        by(case, |outputs| match right(outputs) {
            Entry::Pass if masked(outputs) => Entry::Unknown,
            entry => entry,
        })
    }),
    ("masks X against X alone, as if they were equal", |case| {
        by(case, |outputs| match right(outputs) {
            Entry::Pass if outputs.iter().any(|(good, faulty)| good.is_none() && faulty.is_some()) => Entry::Unknown,
            entry => entry,
        })
    }),
    ("passes a faulty X where the good value is known", |case| {
        by(case, |outputs| match right(outputs) {
            Entry::Unknown => Entry::Pass,
            entry => entry,
        })
    }),
    ("takes a masked output for a difference", |case| by(case, |outputs| if masked(outputs) { Entry::Fail } else { right(outputs) })),
    ("looks at the first output alone", |case| {
        by(case, |outputs| match outputs[0] {
            (Some(good), Some(faulty)) if good != faulty => Entry::Fail,
            (Some(_), None) => Entry::Unknown,
            _ => Entry::Pass,
        })
    }),
    ("takes a pin fault for a fault of the line that feeds it", |case| {
        of_changed(case, |case| {
            for fault in case.faults.chunks_exact_mut(8).filter(|fault| fault[2] > 0) {
                let source = 8 * usize::from(fault[0]) + 2 * usize::from(fault[2]);
                fault[..2].copy_from_slice(&case.circuit[source..source + 2]);
                fault[2] = 0;
            }
        })
    }),
    ("swaps first and second pin", |case| {
        of_changed(case, |case| {
            let two_pins = |fault: &&mut [u8]| fault[2] > 0 && sources(case.circuit[8 * usize::from(fault[0])]) == 2;
            case.faults.chunks_exact_mut(8).filter(two_pins).for_each(|fault| fault[2] = 3 - fault[2])
        })
    }),
    ("lets every gate have a select pin", |case| {
        let mut seen = case.second();
        if seen.returned == 7 {
            let mut without = case.clone();
            without.faults.chunks_exact_mut(8).filter(|fault| fault[2] == 3).for_each(|fault| fault[2] = 0);
            seen = without.second();
        }
        seen
    }),
    ("puts each row at the next one's place", |case| accepted(case, |seen| seen.lent[0].u8().rotate_right(case.faults.len() / 8))),
    ("leaves the work of the first fault", |case| {
        accepted(case, |seen| {
            let mut first = case.clone();
            first.faults.truncate(8);
            first.table.truncate(case.patterns.len() / inputs(&case.circuit));
            seen.lent[1] = first.second().lent[1].clone();
        })
    }),
    ("gives the pattern in place of the byte", |case| {
        let mut seen = case.second();
        if seen.returned == 9 {
            seen.answer[0] /= inputs(&case.circuit) as u8;
        }
        seen
    }),
    ("writes the table though something is refused", written_though_refused),
];

#[test]
fn wrong_programs() {
    let cases: Vec<_> = drawn(6, 2_000, sound).chain(drawn(7, 4_000, damaged)).collect();
    wrong_programs_are_seen(&cases, WRONG);
    wrong_programs_are_seen(&cases, RULES.map(|(name, rule)| (name, move |case: &Dictionary| by_rule(case, rule, right))));
}

/// The entry of one pattern and one fault, as the library has it.
fn entry(circuit: &[u8], fault: [u8; 8], pattern: &[u8]) -> u8 {
    let (mut table, mut work) = ([9], vec![9; circuit.len() / 4]);
    ullimaqsu::dictionary(circuit, &fault, pattern, &mut table, &mut work).expect("sound");
    table[0]
}

/// An output whose good value is X is not compared, the others are.
#[test]
fn masked_outputs() {
    let (pass, fail, unknown) = (Entry::Pass as u8, Entry::Fail as u8, Entry::Unknown as u8);
    let two = record(INPUT, true, 0, 0).repeat(2);
    assert_eq!(entry(&two, faults::record(1, 0, false), &[2, 1]), fail);
    assert_eq!(entry(&two, faults::record(1, 0, false), &[2, 0]), pass);
    assert_eq!(entry(&two, faults::record(1, 0, false), &[2, 2]), pass);
    let and = [&record(INPUT, false, 0, 0).repeat(2)[..], &record(AND, true, 0, 1)].concat();
    assert_eq!(entry(&and, faults::record(0, 0, true), &[0, 2]), unknown, "0 in the good circuit, X in the faulty one");
    assert_eq!(entry(&and, faults::record(0, 0, false), &[1, 2]), pass, "X in the good circuit, 0 in the faulty one");
}

/// Pass no longer says that no filling of the X's detects the fault: here the filling 1 does.
#[test]
fn a_filling_that_detects_under_pass() {
    let line = record(INPUT, true, 0, 0);
    assert_eq!(entry(&line, faults::record(0, 0, false), &[2]), Entry::Pass as u8);
    assert_eq!(entry(&line, faults::record(0, 0, false), &[1]), Entry::Fail as u8);
}

/// The safe call, on example A.
#[test]
fn bindings() {
    let Files { circuit, faults, patterns } = example_a();
    let (mut table, mut work) = ([9; 16], [9; 10]);
    assert_eq!(ullimaqsu::dictionary(&circuit, &faults, &patterns, &mut table, &mut work), Ok(()));
    assert_eq!(table, [1, 0, 0, 1, 0, 1, 1, 0, 0, 1, 1, 0, 0, 0, 0, 0]);
    assert_eq!(work, [2, 1, 0, 2, 2, 0, 1, 0, 0, 0]);
    let refused = ullimaqsu::dictionary(&circuit, &[0, 0, 1, 0, 0, 0, 0, 0], &patterns, &mut table, &mut work);
    assert_eq!(refused, Err(ullimaqsu::Refusal::new(7, 0)));
}
