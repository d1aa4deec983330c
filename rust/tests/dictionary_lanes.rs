//! The dictionary maker that carries 64 patterns at once against the second program, byte by byte and word by word, and against the first
//! engine in every comparison.
#[path = "wrong/changed.rs"]
mod changed;
#[path = "harness/defects.rs"]
mod defects;
mod harness;
#[path = "harness/mixes.rs"]
mod mixes;
#[path = "wrong/rules.rs"]
mod rules;
#[path = "wrong/dictionary_lanes.rs"]
mod wrong;

use cases::circuits::{record, selector, sources, BUFFER, INPUT, SELECTOR};
use cases::faults::{self, inputs};
use cases::files::{boundaries, example_a, largest, small};
use cases::selects::{self, EVERY};
use cases::{damage, drawn, lane, Files, Random, Sort, Tally};
use defects::defects;
use harness::{compare, first_defect_is_told, library, wrong_programs_are_seen, Case, Defect, Dictionary, DictionaryLanes};
use mixes::{mix_or_refusal, OF};
use rules::RULES;
use second::entries::{self, Seen};
use second::Slice;

/// An accepted table is counted with the sum of these over the entries that it has.
const PASS: u32 = OF[0];
const FAIL: u32 = OF[1];
const UNKNOWN: u32 = OF[2];

/// Numbers of patterns with which the last group has one or two, is full or has one spare lane, from one group to four.
const COUNTS: [usize; 12] = [1, 2, 63, 64, 65, 127, 128, 129, 191, 192, 255, 256];

impl Case for DictionaryLanes {
    fn second(&self) -> Seen {
        entries::dictionary_lanes(&self.circuit, &self.faults, &self.patterns, &self.table, &self.work, &self.answer)
    }

    fn counted(seen: &Seen) -> u32 {
        mix_or_refusal(seen)
    }

    fn sorts(&self, seen: &mut Seen) -> Vec<Sort> {
        let last = lane(seen.lent[1].u64(), self.last_lane());
        selects::all(&self.circuit, &self.faults, &last)
    }

    /// The first engine returns and answers the same and leaves the same table, and the last pattern's lane is its work memory.
    fn hold_more(cases: &[Self], library: &[Seen]) {
        let first = self::library(&cases.iter().map(of_first_engine).collect::<Vec<_>>());
        for ((case, seen), first) in cases.iter().zip(library).zip(first) {
            assert_eq!((seen.returned, &seen.answer, &seen.lent[0]), (first.returned, &first.answer, &first.lent[0]), "{case:?}");
            if seen.returned == 0 {
                let Slice::U64(words) = &seen.lent[1] else { panic!("the work memory is of words") };
                assert_eq!(Slice::from(lane(words, case.last_lane())), first.lent[1], "{case:?}");
            }
        }
    }
}

impl DictionaryLanes {
    /// The lane of an accepted case's last pattern.
    fn last_lane(&self) -> usize {
        (self.patterns.len() / inputs(&self.circuit) - 1) % 64
    }
}

/// The same case for the first engine, lent a work memory that has its size exactly if this one has.
fn of_first_engine(case: &DictionaryLanes) -> Dictionary {
    let size = if case.work.len() == case.circuit.len() / 2 { case.circuit.len() / 4 } else { 1 };
    let DictionaryLanes { circuit, faults, patterns, table, answer, .. } = case.clone();
    Dictionary { circuit, faults, patterns, table, work: vec![7; size], answer }
}

/// Lends junk of the right sizes.
fn lend(random: &mut Random, files: Files) -> DictionaryLanes {
    let (table, work, answer) = (random.junk(files.entries()), random.junk_words(4 * files.lines()), random.junk(32));
    let Files { circuit, faults, patterns } = files;
    DictionaryLanes { circuit, faults, patterns, table, work, answer }
}

/// A small circuit and so many patterns.
fn with_patterns(random: &mut Random, count: usize) -> DictionaryLanes {
    let files = small(random, count);
    lend(random, files)
}

fn few_patterns(random: &mut Random) -> DictionaryLanes {
    let count = 1 + random.below(8);
    with_patterns(random, count)
}

fn some_groups(random: &mut Random) -> DictionaryLanes {
    let count = random.pick(&COUNTS);
    with_patterns(random, count)
}

/// X everywhere, and every fault.
fn all_x(random: &mut Random) -> DictionaryLanes {
    let count = random.pick(&COUNTS);
    let mut files = small(random, count);
    files.faults = faults::every(&files.circuit).concat();
    files.patterns.fill(2);
    lend(random, files)
}

/// A gate of each kind over two inputs, or a selector over three, which are outputs or not, with every fault. The nine pairs of values, or all 27
/// triples, stand there in turn, beginning with each of them: so each comes to stand in each lane.
fn every_pair_or_triple(random: &mut Random) -> Vec<DictionaryLanes> {
    let mut all = vec![];
    for kind in BUFFER..=SELECTOR {
        let inputs = sources(kind).max(2);
        let gate = if kind == SELECTOR { selector(true, 0, 1, 2) } else { record(kind, true, 0, sources(kind) - 1) };
        let every: Vec<_> = cases::tables::every(inputs as u32).collect();
        for (first, outputs) in (0..every.len()).flat_map(|first| [(first, false), (first, true)]) {
            for count in COUNTS {
                let circuit = [record(INPUT, outputs, 0, 0).repeat(inputs), gate.to_vec()].concat();
                let patterns = every.iter().cycle().skip(first).take(count).flatten().copied().collect();
                all.push(lend(random, Files { faults: faults::every(&circuit).concat(), circuit, patterns }));
            }
        }
    }
    all
}

/// One thing or several are wrong.
fn damaged(random: &mut Random) -> DictionaryLanes {
    let sound = random.pick(&[few_patterns, some_groups]);
    let mut case = sound(random);
    let lines = case.circuit.len() / 8;
    damage::several(random, &mut case, |random, case| match random.below(12) {
        0..=7 => damage::files(random, [&mut case.circuit, &mut case.faults, &mut case.patterns], lines),
        8 => case.table.resize(damage::size(random, case.table.len()), 7),
        9..=10 => case.work.resize(damage::size(random, case.work.len()), 7),
        _ => case.answer.resize(random.pick(&[0, 31, 33, 64]), 7),
    });
    case
}

/// Example A with every size of the work memory and then of the table, up to twice the right one and more; 2 N words are among them.
fn every_size() -> impl Iterator<Item = DictionaryLanes> {
    let a = lend(&mut Random::new(0), example_a());
    let resized = move |(table, work)| {
        let mut case = a.clone();
        case.table.resize(table, 7);
        case.work.resize(work, 7);
        case
    };
    (0..42).map(|work| (16, work)).chain((0..34).map(|table| (table, 20))).map(resized)
}

/// Tables that every sort of cases has, with an X that matters among them.
const USUAL: [u32; 3] = [PASS, PASS + FAIL, PASS + FAIL + UNKNOWN];

/// Exactly these refusals were seen, and the usual tables.
fn covers(tally: Tally, refusals: &[u32]) {
    let (refused, mixes): (Vec<u32>, Vec<u32>) = tally.seen().into_iter().partition(|&seen| seen < PASS);
    assert_eq!(refused, refusals);
    assert!(USUAL.iter().all(|mix| mixes.contains(mix)), "{tally}");
}

#[test]
fn sound_dictionaries() {
    covers(compare("dictionary_lanes, up to 8 patterns", drawn(1, 20_000, few_patterns)).with_sorts(&EVERY), &[]);
    for (seed, count) in (2..).zip(COUNTS) {
        let cases = drawn(seed, 1_000, |random| with_patterns(random, count));
        covers(compare(&format!("dictionary_lanes, patterns: {count}"), cases).with_sorts(&EVERY), &[]);
    }
}

#[test]
fn every_kind_and_all_its_values() {
    let all = every_pair_or_triple(&mut Random::new(20));
    assert_eq!(compare("dictionary_lanes, every kind and all its values", all.into_iter()).seen(), USUAL);
}

/// Nothing is known in the good circuit, so nothing is compared; what is stuck is known all the same.
#[test]
fn x_everywhere() {
    assert_eq!(compare("dictionary_lanes, X everywhere", drawn(21, 1_000, all_x)).seen(), [PASS]);
}

#[test]
fn damaged_dictionaries() {
    covers(compare("dictionary_lanes, damaged", drawn(22, 60_000, damaged)).with_sorts(&EVERY), &[1, 2, 4, 5, 6, 7, 8, 9, 10]);
}

#[test]
fn boundaries_and_largest() {
    let mut random = Random::new(23);
    let boundaries = boundaries(&mut random).into_iter().map(|files| lend(&mut random, files));
    covers(compare("dictionary_lanes, boundaries", boundaries).with_sorts(&EVERY), &[1, 4, 6, 8]);
    let files = largest(&mut random);
    assert_eq!(compare("dictionary_lanes, largest", [lend(&mut random, files)].into_iter()).with_sorts(&EVERY[..2]).seen(), USUAL[2..]);
}

#[test]
fn sizes_of_lent_memory() {
    assert_eq!(compare("dictionary_lanes, every size", every_size()).seen(), [10, PASS + FAIL]);
}

/// What can be wrong, in the order in which it is looked for, sizes by one too many.
const DEFECTS: [Defect<DictionaryLanes>; 17] = defects![
    (6, |case| case.faults.push(0)),
    (7, |case| case.faults[8..11].copy_from_slice(&[1, 0, 3])),
    (7, |case| case.faults[11] = 2),
    (8, |case| case.patterns.push(0)),
    (9, |case| case.patterns[3] = 3),
    (10, |case| case.table.push(0)),
    (10, |case| case.work.push(0)),
];

/// Too little is lent: of the work memory one word less, or the first engine's 2 N.
const TOO_LITTLE: [Defect<DictionaryLanes>; 4] = [
    (10, |case| case.answer.truncate(31)),
    (10, |case| case.table.truncate(15)),
    (10, |case| case.work.truncate(19)),
    (10, |case| case.work.truncate(10)),
];

#[test]
fn two_defects_at_once() {
    let case = lend(&mut Random::new(25), example_a());
    first_defect_is_told(&case, &DEFECTS);
    first_defect_is_told(&case, &TOO_LITTLE);
}

#[test]
fn wrong_programs() {
    let sound = drawn(26, 400, few_patterns).chain(drawn(27, 400, some_groups));
    let cases: Vec<_> = sound.chain(drawn(28, 1_000, damaged)).chain(every_size()).collect();
    wrong_programs_are_seen(&cases, wrong::PROGRAMS);
    wrong_programs_are_seen(&cases, RULES.map(|(name, rule)| (name, move |case: &DictionaryLanes| wrong::by_rule(case, rule))));
}

/// The safe call, on example A.
#[test]
fn bindings() {
    let Files { circuit, faults, patterns } = example_a();
    let (mut table, mut work) = ([9; 16], [9; 20]);
    assert_eq!(ullimaqsu::dictionary_lanes(&circuit, &faults, &patterns, &mut table, &mut work), Ok(()));
    assert_eq!(table, [1, 0, 0, 1, 0, 1, 1, 0, 0, 1, 1, 0, 0, 0, 0, 0]);
    assert_eq!(work[..10], [0b0001, 0b0110, 0b1011, 0, 0, 0b1111, 0b0001, 0b0110, 0b0001, 0b0110]);
    assert_eq!(work[10..], [0, u64::MAX, 0b1011, 0, 0, 0b1111, 0, u64::MAX, 0, 0b1111]);
    let refused = ullimaqsu::dictionary_lanes(&circuit, &faults, &patterns, &mut table, &mut work[..10]);
    assert_eq!(refused, Err(ullimaqsu::Refusal::new(10, 0)));
}
