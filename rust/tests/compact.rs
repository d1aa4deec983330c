//! The compactor against the second program, which runs the definition: every mark and the answer, byte by byte.
//!
//! An accepted call with 16 faults or more clears room for 65,536 pairs, which takes half a millisecond over the bridge: so there are only
//! thousands of them.
mod harness;
#[path = "harness/table_defects.rs"]
mod table_defects;
#[path = "wrong/needs.rs"]
mod wrong;

use cases::tables::{of_density, small, table, table_1_of_paper_000, DENSITIES};
use cases::{damage, drawn, Random};
use harness::{compare, first_defect_is_told, wrong_programs_are_seen, Case, Compact, Defect};
use second::compact::{kept, meet_all, needs, read, without, Need, Row};
use second::entries::{self, Seen};
use second::Entry;
use table_defects::table_defects;
use wrong::{faults_alone, pairs_alone, read_as, undetected_too};

impl Case for Compact {
    fn second(&self) -> Seen {
        entries::compact(self.fault_count, self.pattern_count, &self.table, &self.marks, &self.answer)
    }
}

/// Lends junk of the right sizes.
fn lend(random: &mut Random, faults: usize, table: Vec<u8>) -> Compact {
    let patterns = table.len() / faults;
    let (marks, answer) = (random.junk(patterns), random.junk(32));
    Compact { fault_count: faults as u64, pattern_count: patterns as u64, table, marks, answer }
}

fn sound(random: &mut Random) -> Compact {
    let (faults, table) = small(random);
    lend(random, faults, table)
}

/// A table of this size.
fn sized(random: &mut Random, faults: usize, patterns: usize) -> Compact {
    let table = table(random, faults, patterns);
    lend(random, faults, table)
}

/// One thing or several are wrong.
fn damaged(random: &mut Random) -> Compact {
    let mut case = sound(random);
    damage::several(random, &mut case, |random, Compact { fault_count, pattern_count, table, marks, answer }| {
        damage::table(random, [fault_count, pattern_count], [table, marks, answer]);
    });
    case
}

#[test]
fn sound_tables() {
    assert_eq!(compare("compact, sound", drawn(1, 10_000, sound)).seen(), [0]);
}

#[test]
fn damaged_tables() {
    assert_eq!(compare("compact, damaged", drawn(2, 200_000, damaged)).seen(), [0, 10, 12, 13]);
}

/// The sizes at which something changes, and tables of 256 by 256 of every density.
#[test]
fn boundaries_and_largest() {
    let sizes = [1, 2, 16, 255, 256, 257];
    let pairs = sizes.into_iter().flat_map(|faults| sizes.map(|patterns| (faults, patterns)));
    let mut random = Random::new(3);
    assert_eq!(compare("compact, boundaries", pairs.map(|(faults, patterns)| sized(&mut random, faults, patterns))).seen(), [0, 12]);
    let mut random = Random::new(4);
    let largest = DENSITIES.map(|density| of_density(&mut random, density, 256, 256)).map(|table| lend(&mut random, 256, table));
    assert_eq!(compare("compact, 256 by 256", largest.into_iter()).seen(), [0]);
}

/// The list that the paper finds: v1, v2, v3 and v5.
#[test]
fn paper_000() {
    for table in table_1_of_paper_000() {
        let mut marks = [9; 5];
        assert_eq!(ullimaqsu::compact(7, 5, &table, &mut marks), Ok(()));
        assert_eq!(marks, [1, 1, 1, 0, 1]);
    }
}

/// What can be wrong, in the order in which it is looked for.
const DEFECTS: [Defect<Compact>; 6] = table_defects!();

#[test]
fn two_defects_at_once() {
    let mut random = Random::new(5);
    first_defect_is_told(&sized(&mut random, 3, 2), &DEFECTS);
}

/// Marks by another choice of patterns, and otherwise what the second program says.
fn by(case: &Compact, choose: fn(&[Row]) -> Vec<usize>) -> Seen {
    let mut seen = case.second();
    if seen.returned == 0 {
        let rows = read(case.fault_count, case.pattern_count, &case.table, case.marks.len()).expect("accepted");
        let kept = choose(&rows);
        *seen.lent[0].u8() = (0..rows.len()).map(|pattern| u8::from(kept.contains(&pattern))).collect();
    }
    seen
}

/// The process over other needs, in this order of patterns.
fn process(table: &[Row], needs: &[Need], order: impl Iterator<Item = usize>) -> Vec<usize> {
    order.fold((0..table.len()).collect(), |kept: Vec<usize>, pattern| {
        let others = without(&kept, pattern);
        if meet_all(table, &others, needs) {
            others
        } else {
            kept
        }
    })
}

type Wrong = (&'static str, fn(&Compact) -> Seen);

/// Programs that are wrong in one way each.
const WRONG: [Wrong; 8] = [
    ("keeps everything", |case| by(case, |table| (0..table.len()).collect())),
    ("goes from the first pattern to the last", |case| by(case, |table| process(table, &needs(table), 0..table.len()))),
    ("forgets the first need", |case| by(case, |table| process(table, &pairs_alone(table), (0..table.len()).rev()))),
    ("forgets the pairs", |case| by(case, |table| process(table, &faults_alone(table), (0..table.len()).rev()))),
    ("needs pairs with a fault that is not detected", |case| {
        by(case, |table| process(table, &undetected_too(table), (0..table.len()).rev()))
    }),
    ("reads unknown as pass", |case| by(case, |table| kept(&read_as(table, Entry::Pass)))),
    ("reads unknown as fail", |case| by(case, |table| kept(&read_as(table, Entry::Fail)))),
    ("looks at the marks before the table's bytes", |case| {
        let mut seen = case.second();
        if seen.returned == 13 && case.marks.len() as u64 != case.pattern_count {
            (seen.returned, seen.answer) = (10, vec![0; 32]);
        }
        seen
    }),
];

#[test]
fn wrong_programs() {
    let cases: Vec<_> = drawn(6, 1_000, sound).chain(drawn(7, 5_000, damaged)).collect();
    wrong_programs_are_seen(&cases, WRONG);
}

#[test]
fn bindings() {
    let mut marks = [9; 2];
    assert_eq!(ullimaqsu::compact(3, 2, &[1, 2, 0, 1, 1, 1], &mut marks), Ok(()));
    assert_eq!(marks, [1, 1]);
    let refused = ullimaqsu::compact(3, 2, &[1, 2, 0, 1, 1, 3], &mut marks);
    assert_eq!(refused, Err(ullimaqsu::Refusal::new(13, 5)));
}
