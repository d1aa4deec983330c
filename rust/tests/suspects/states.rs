//! Areas that hold an opened state of suspects, and areas that do not: each of the latter is refused by 22, and nothing happens.
use crate::calls::{marks_of, small_marks};
use crate::harness::{compare, SuspectsMarks, SuspectsReport};
use cases::suspects::{state, MARKS, STATE};
use cases::tables::sound_marks;
use cases::{damage, drawn, Random};

/// States to be spoilt, of these counts of faults and patterns.
fn sound_states(random: &mut Random) -> Vec<(u64, u64, Vec<u8>)> {
    let counts = [(1, 1), (1, 256), (256, 1), (5, 3), (100, 200), (255, 256), (256, 256)];
    let all_or_none = |faults| [vec![1; faults], vec![0; faults]];
    let marks = counts.map(|(faults, _)| [&all_or_none(faults)[..], &[sound_marks(random, faults)]].concat());
    let each = counts.into_iter().zip(marks).flat_map(|(counts, marks)| marks.into_iter().map(move |marks| (counts, marks)));
    each.map(|((faults, patterns), marks)| (faults as u64, patterns as u64, marks)).collect()
}

/// The bytes that stand in a state in place of another: all of them for some, else such as may matter.
fn others(old: u8, all: bool) -> impl Iterator<Item = u8> {
    (0..=255).filter(move |&byte| byte != old && (all || [0, 1, 2, 3, 128, 254, 255, old ^ 1, old ^ 2, old ^ 128].contains(&byte)))
}

/// The same with another byte at one place, at every place and for every of its others.
fn one_byte_changed(state: &[u8], all: bool) -> impl Iterator<Item = Vec<u8>> + '_ {
    (0..state.len())
        .flat_map(move |place| others(state[place], all).map(move |byte| [&state[..place], &[byte], &state[place + 1..]].concat()))
}

/// A single byte that has changed is always noticed, and nothing happens. The report is one that would be refused by 12: its table is empty.
#[test]
fn every_byte_changed() {
    let mut random = Random::new(12);
    let states = sound_states(&mut random);
    let spoilt = || {
        states.iter().enumerate().flat_map(|(k, (faults, patterns, marks))| {
            let sound = state(*faults, *patterns, marks);
            one_byte_changed(&sound, k % 8 == 0).map(|state| (*faults, *patterns, state)).collect::<Vec<_>>()
        })
    };
    let marks = spoilt().map(|(faults, _, state)| marks_of(&mut random, state, faults as usize));
    assert_eq!(compare("suspects, marks, every byte", marks).seen(), [22]);
    let mut random = Random::new(13);
    let reports = spoilt().map(|(fault_count, pattern_count, state)| SuspectsReport {
        fault_count,
        pattern_count,
        table: vec![],
        pattern: 0,
        failed: 1,
        state,
        answer: random.junk(32),
    });
    assert_eq!(compare("suspects, reports, every byte", reports).seen(), [22]);
}

/// Areas that were never opened: any bytes, and one byte everywhere.
#[test]
fn never_opened() {
    let mut random = Random::new(14);
    let same = (0..=255).map(|byte| vec![byte; STATE]);
    let any = drawn(15, 10_000, |random| random.junk(STATE));
    let small = drawn(16, 10_000, |random| (0..STATE).map(|_| random.pick(&[0, 0, 0, 0, 1])).collect());
    let marks = same.chain(any).chain(small).flat_map(|state| [0, 1, 256].map(|faults| marks_of(&mut random, state.clone(), faults)));
    assert_eq!(compare("suspects, marks, never opened", marks).seen(), [22]);
}

/// Counts of every sort with marks for them or for others, the product right or not: opened exactly if the counts are 1 to 256 and all agrees.
#[test]
fn counts_that_disagree() {
    let mut random = Random::new(17);
    let counts = [0, 1, 2, 3, 128, 255, 256, 257, 512, 1 << 32, (1 << 32) + 1, 1 << 63, u64::MAX];
    let pairs = counts.into_iter().flat_map(|faults| counts.map(|patterns| (faults, patterns)));
    let mut all = vec![];
    for (faults, patterns) in pairs {
        let fitting = faults.min(256) as usize;
        for marks in [fitting.saturating_sub(1), fitting, (fitting + 1).min(256), 256].map(|count| vec![1; count]) {
            let sound = state(faults, patterns, &marks);
            let other_product = |product: u64| [&sound[..16], &product.to_le_bytes(), &sound[24..]].concat();
            let product = faults.wrapping_mul(patterns);
            let states = [0, product, product.wrapping_add(1), product % 65_536, faults, patterns].map(other_product);
            all.extend(states.map(|state| marks_of(&mut random, state, fitting)));
        }
    }
    assert_eq!(compare("suspects, marks, counts", all.into_iter()).seen(), [0, 22]);
}

/// What two changes make of a state may be a state again, even one with another number of faults, which the marks then do not fit. Two marks
/// exchanged always are.
#[test]
fn two_bytes_changed() {
    let twice = |random: &mut Random| {
        let SuspectsMarks { mut state, marks, .. } = small_marks(random);
        damage::state(random, &mut state);
        damage::state(random, &mut state);
        marks_of(random, state, marks.len())
    };
    assert_eq!(compare("suspects, marks, two changes", drawn(18, 50_000, twice)).seen(), [0, 10, 22]);
    let exchanged = |random: &mut Random| {
        let mut case = small_marks(random);
        let (one, other) = (random.below(case.marks.len()), random.below(case.marks.len()));
        case.state.swap(MARKS + one, MARKS + other);
        case
    };
    assert_eq!(compare("suspects, marks exchanged", drawn(19, 10_000, exchanged)).seen(), [0]);
}
