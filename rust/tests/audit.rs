//! The audit of kept lists against the second program, which takes each kept pattern out and asks again: the number returned and every byte of
//! the answer; and table and marks stay.
//!
//! An accepted call with 16 faults or more clears room for twice 65,536 pairs, which takes long over the bridge: so there are only thousands
//! of them.
mod harness;
#[path = "wrong/needs.rs"]
mod needs;
#[path = "harness/table_defects.rs"]
mod table_defects;
#[path = "wrong/audit.rs"]
mod wrong;

use cases::tables::{every, marks, of_density, small, table, table_1_of_paper_000, DENSITIES};
use cases::{damage, drawn, Random};
use harness::{compare, first_defect_is_told, wrong_programs_are_seen, Audit, Case, Defect};
use second::entries::{self, Seen};
use table_defects::table_defects;
use ullimaqsu::{Finding, Refusal};

/// Findings are counted with these numbers.
const SOUND: u32 = 100;
const BAD_MARK: u32 = 101;
const LOST_FAULT: u32 = 102;
const LOST_PAIR: u32 = 103;
const SPARE_PATTERN: u32 = 104;
const EVERY: [u32; 5] = [SOUND, BAD_MARK, LOST_FAULT, LOST_PAIR, SPARE_PATTERN];

impl Case for Audit {
    fn second(&self) -> Seen {
        entries::audit(self.fault_count, self.pattern_count, &self.table, &self.marks, &self.answer)
    }
    fn counted(seen: &Seen) -> u32 {
        match seen.returned {
            0 => SOUND + u32::from(seen.answer[0]),
            refusal => refusal,
        }
    }
}

/// A table with these marks, and an area full of junk.
fn lend(random: &mut Random, faults: usize, table: Vec<u8>, marks: Vec<u8>) -> Audit {
    let patterns = table.len() / faults;
    Audit { fault_count: faults as u64, pattern_count: patterns as u64, table, marks, answer: random.junk(32) }
}

/// A table with the marks that the compactor gives it.
fn compacted(random: &mut Random, faults: usize, table: Vec<u8>) -> Audit {
    let mut marks = vec![9; table.len() / faults];
    assert_eq!(ullimaqsu::compact(faults as u64, marks.len() as u64, &table, &mut marks), Ok(()));
    lend(random, faults, table, marks)
}

/// A table with any marks.
fn marked(random: &mut Random, faults: usize, table: Vec<u8>) -> Audit {
    let marks = marks(random, table.len() / faults);
    lend(random, faults, table, marks)
}

fn small_compacted(random: &mut Random) -> Audit {
    let (faults, table) = small(random);
    compacted(random, faults, table)
}

fn small_marked(random: &mut Random) -> Audit {
    let (faults, table) = small(random);
    marked(random, faults, table)
}

/// More faults than a small table has.
fn larger_compacted(random: &mut Random) -> Audit {
    let (faults, patterns) = (16 + random.below(20), 1 + random.below(30));
    let table = table(random, faults, patterns);
    compacted(random, faults, table)
}

/// The same with other marks.
fn with_marks(case: &Audit, marks: Vec<u8>) -> Audit {
    Audit { marks, ..case.clone() }
}

/// The same marks but for one.
fn with_mark(marks: &[u8], place: usize, mark: u8) -> Vec<u8> {
    [&marks[..place], &[mark], &marks[place + 1..]].concat()
}

/// One mark is another, at every place: the other of 0 and 1, or neither.
fn one_changed(case: Audit) -> Vec<Audit> {
    let others = |place: usize| [1 - case.marks[place], 2, 255].map(|mark| with_mark(&case.marks, place, mark));
    (0..case.marks.len()).flat_map(others).map(|marks| with_marks(&case, marks)).collect()
}

/// A mark of 0 and a mark of 1 are exchanged, any two of them.
fn two_exchanged(case: Audit) -> Vec<Audit> {
    let pairs = (0..case.marks.len()).flat_map(|other| (0..other).map(move |one| (one, other)));
    let exchanged = |(one, other)| {
        let mut marks = case.marks.clone();
        marks.swap(one, other);
        with_marks(&case, marks)
    };
    pairs.filter(|&(one, other)| case.marks[one] != case.marks[other]).map(exchanged).collect()
}

/// 256 marks of which one is this one and the others are not.
fn all_but(place: usize, mark: u8) -> Vec<u8> {
    with_mark(&[1 - mark; 256], place, mark)
}

/// All of 256 patterns kept, none kept, and at some places one alone kept and one alone dropped.
fn almost_the_same() -> impl Iterator<Item = Vec<u8>> {
    let one = [0, 1, 127, 128, 254, 255].into_iter().flat_map(|place| [all_but(place, 1), all_but(place, 0)]);
    [vec![1; 256], vec![0; 256]].into_iter().chain(one)
}

/// One thing or several are wrong, beside what may be wrong with the marks.
fn damaged(random: &mut Random) -> Audit {
    let mut case = small_marked(random);
    damage::several(random, &mut case, |random, Audit { fault_count, pattern_count, table, marks, answer }| {
        damage::table(random, [fault_count, pattern_count], [table, marks, answer]);
    });
    case
}

#[test]
fn lists_of_the_compactor() {
    assert_eq!(compare("audit, compactor's lists", drawn(1, 10_000, small_compacted)).seen(), [SOUND]);
    let changed = drawn(2, 3_000, small_compacted).flat_map(one_changed);
    assert_eq!(compare("audit, one mark changed", changed).seen(), [BAD_MARK, LOST_FAULT, LOST_PAIR, SPARE_PATTERN]);
    let exchanged = drawn(3, 3_000, small_compacted).flat_map(two_exchanged);
    assert_eq!(compare("audit, two marks exchanged", exchanged).seen(), [SOUND, LOST_FAULT, LOST_PAIR, SPARE_PATTERN]);
    let larger =
        drawn(21, 100, larger_compacted).flat_map(|case| [one_changed(case.clone()), two_exchanged(case.clone()), vec![case]].concat());
    assert_eq!(compare("audit, all three of larger tables", larger).seen(), EVERY);
}

#[test]
fn any_marks() {
    assert_eq!(compare("audit, any marks", drawn(4, 100_000, small_marked)).seen(), EVERY);
}

/// Every table of these sizes with all marks of 0, 1 and 2.
#[test]
fn every_small_table() {
    let mut random = Random::new(5);
    let mut all = vec![];
    for (faults, patterns) in [(1, 1), (1, 2), (2, 1), (2, 2), (2, 3), (3, 2)] {
        let tables = every(faults * patterns).flat_map(|table| every(patterns).map(move |marks| (table.clone(), marks)));
        all.extend(tables.map(|(table, marks)| lend(&mut random, faults as usize, table, marks)));
    }
    assert_eq!(compare("audit, every small table", all.into_iter()).seen(), EVERY);
}

/// With one fault there are no pairs; one pattern, or one row for all, loses a fault before it loses a pair; where all is unknown there is
/// nothing to lose.
#[test]
fn tables_of_one_sort() {
    let one_fault = |random: &mut Random| {
        let patterns = 1 + random.below(20);
        let table = table(random, 1, patterns);
        marked(random, 1, table)
    };
    let one_row = |random: &mut Random, most: usize| {
        let (faults, patterns) = (1 + random.below(20), 1 + random.below(most));
        let table = table(random, faults, 1).repeat(patterns);
        marked(random, faults, table)
    };
    let unknown = |random: &mut Random| {
        let (faults, patterns) = (1 + random.below(20), 1 + random.below(20));
        marked(random, faults, vec![2; faults * patterns])
    };
    let no_pair = [SOUND, BAD_MARK, LOST_FAULT, SPARE_PATTERN];
    assert_eq!(compare("audit, one fault", drawn(6, 2_000, one_fault)).seen(), no_pair);
    assert_eq!(compare("audit, one pattern", drawn(7, 2_000, |random| one_row(random, 1))).seen(), no_pair);
    assert_eq!(compare("audit, all rows equal", drawn(8, 2_000, |random| one_row(random, 20))).seen(), no_pair);
    assert_eq!(compare("audit, all unknown", drawn(9, 2_000, unknown)).seen(), [SOUND, BAD_MARK, SPARE_PATTERN]);
}

#[test]
fn damaged_tables() {
    assert_eq!(compare("audit, damaged", drawn(10, 200_000, damaged)).seen(), [&[10, 12, 13], &EVERY[..]].concat());
}

/// A fault that all 256 patterns fail; two faults of which each of them fails one and passes the other; and so many unknowns behind them.
fn of_256(unknowns: usize) -> [(usize, Vec<u8>); 2] {
    let row = |known: &[u8]| [known, &vec![2; unknowns]].concat();
    [(1 + unknowns, row(&[1]).repeat(256)), (2 + unknowns, [row(&[1, 0]), row(&[0, 1])].concat().repeat(128))]
}

/// They come with few faults and with many, and with all marks that are almost the same.
fn counts_of_256(random: &mut Random) -> Vec<Audit> {
    let tables = [0, 20].into_iter().flat_map(of_256);
    let lists = tables.flat_map(|(faults, table)| almost_the_same().map(move |marks| (faults, table.clone(), marks)));
    lists.map(|(faults, table, marks)| lend(random, faults, table, marks)).collect()
}

/// A count of 256 is 0 in a byte.
#[test]
fn counts_that_go_round() {
    let all = counts_of_256(&mut Random::new(13));
    assert_eq!(compare("audit, counts of 256", all.into_iter()).seen(), [SOUND, LOST_FAULT, SPARE_PATTERN]);
    let lists = [
        (vec![1; 256], [Finding::SparePattern(0), Finding::SparePattern(0)]),
        (vec![0; 256], [Finding::LostFault(0), Finding::LostFault(0)]),
        (all_but(0, 1), [Finding::Sound, Finding::LostFault(1)]),
        (all_but(255, 1), [Finding::Sound, Finding::LostFault(0)]),
        (all_but(0, 0), [Finding::SparePattern(1), Finding::SparePattern(1)]),
        (all_but(255, 0), [Finding::SparePattern(0), Finding::SparePattern(0)]),
    ];
    for ((marks, found), unknowns) in lists.iter().flat_map(|list| [(list, 0), (list, 20)]) {
        assert_eq!(of_256(unknowns).map(|(faults, table)| ullimaqsu::audit(faults as u64, 256, &table, marks)), found.map(Ok));
    }
}

/// The sizes at which something changes: room for the counts is larger from 16 faults on.
#[test]
fn boundaries() {
    let sizes = [1, 2, 15, 16, 17, 255, 256, 257];
    let pairs = sizes.into_iter().flat_map(|faults| sizes.map(|patterns| (faults, patterns)));
    let mut random = Random::new(11);
    let sized = pairs.flat_map(|(faults, patterns)| {
        let table = table(&mut random, faults, patterns);
        [0; 4].map(|_| marked(&mut random, faults, table.clone()))
    });
    assert_eq!(compare("audit, boundaries", sized).seen(), [&[12], &EVERY[..]].concat());
}

/// 256 by 256, of every density: the compactor's list; the same with another mark in place of its first 0, its last 0, its first 1 or its last 1;
/// any marks; and marks that are all the same but for one at the most.
#[test]
fn largest() {
    let mut random = Random::new(12);
    let mut all = vec![];
    for density in DENSITIES {
        let table = of_density(&mut random, density, 256, 256);
        let case = compacted(&mut random, 256, table);
        let ends = [0, 1].map(|old| [case.marks.iter().position(|&mark| mark == old), case.marks.iter().rposition(|&mark| mark == old)]);
        let changed = ends.into_iter().flatten().flatten().map(|place| with_mark(&case.marks, place, 1 - case.marks[place]));
        let any = [0; 4].map(|_| marks(&mut random, 256));
        all.extend(changed.chain(any).chain(almost_the_same()).map(|marks| with_marks(&case, marks)));
        all.push(case);
    }
    assert_eq!(compare("audit, 256 by 256", all.into_iter()).seen(), EVERY);
}

/// The last place of each finding. In the first table each of 256 patterns fails a fault of its own; in the second the last pattern alone tells
/// the last two faults apart; in the third it fails none.
#[test]
fn last_places() {
    let own: Vec<u8> = (0..65_536).map(|place| u8::from(place / 256 == place % 256)).collect();
    let with = |place: usize, entry| [&own[..place], &[entry], &own[place + 1..]].concat();
    let [second, third] = [with(256 * 254 + 255, 1), with(65_535, 0)];
    let bad = with_mark(&[1; 256], 255, 2);
    let lists = [
        (&own, vec![1; 256], Finding::Sound),
        (&own, bad, Finding::BadMark(255)),
        (&own, all_but(255, 0), Finding::LostFault(255)),
        (&second, vec![1; 256], Finding::Sound),
        (&second, all_but(255, 0), Finding::LostPair(254, 255)),
        (&third, vec![1; 256], Finding::SparePattern(255)),
    ];
    for (table, marks, found) in lists {
        assert_eq!(ullimaqsu::audit(256, 256, table, &marks), Ok(found));
    }
}

/// Table 1 with the list that the paper finds, v1, v2, v3 and v5, and with those on the way to it. With v1, v2 and v3 no pair of f1 to f6 is
/// lost, and the paper asks for pairs alone; but nothing detects f5.
#[test]
fn table_1() {
    let lists = [
        ([1, 0, 0, 0, 0], Finding::LostFault(1)),
        ([1, 1, 1, 0, 0], Finding::LostFault(4)),
        ([1, 1, 1, 1, 0], Finding::LostPair(2, 6)),
        ([1, 1, 1, 1, 1], Finding::SparePattern(3)),
        ([1, 1, 1, 0, 1], Finding::Sound),
    ];
    for table in table_1_of_paper_000() {
        for (marks, found) in lists {
            assert_eq!(ullimaqsu::audit(7, 5, &table, &marks), Ok(found), "{marks:?}");
        }
    }
}

/// The same table without f7, which v5 alone tells from f3. The list of the paper is sound here too, and is not the compactor's.
#[test]
fn sound_and_not_the_compactors() {
    for table in table_1_of_paper_000() {
        let table: Vec<u8> = table.chunks_exact(7).flat_map(|row| &row[..6]).copied().collect();
        let mut marks = [9; 5];
        assert_eq!(ullimaqsu::compact(6, 5, &table, &mut marks), Ok(()));
        assert_eq!(marks, [1, 1, 1, 1, 0]);
        assert_eq!([marks, [1, 1, 1, 0, 1]].map(|marks| ullimaqsu::audit(6, 5, &table, &marks)), [Ok(Finding::Sound); 2]);
    }
}

/// Table 5 with the list that restoration from the end finds where v1, v2 and v7 detect f3: v7 and v4 for f3 and f2, one of v1 to v4 for f1 (our copy
/// has lost the columns), and before all v1 and v2, which bring a sequential circuit into a state. A table knows nothing of states, so at least
/// one of these two can be spared.
#[test]
fn table_5() {
    for (of_f1, spare) in [(0, 1), (1, 0), (2, 0), (3, 0)] {
        let mut table = [0; 21];
        [of_f1, 3, 6].iter().enumerate().for_each(|(fault, pattern)| table[3 * pattern + fault] = 1);
        let marks = with_mark(&[1, 1, 0, 1, 0, 0, 1], of_f1, 1);
        assert_eq!(ullimaqsu::audit(3, 7, &table, &marks), Ok(Finding::SparePattern(spare)));
    }
}

/// What can be wrong, in the order in which it is looked for.
const DEFECTS: [Defect<Audit>; 6] = table_defects!();

/// Too little is lent, in the same order; and last what is no refusal.
const TOO_LITTLE: [Defect<Audit>; 4] = [
    (10, |case| case.answer.truncate(31)),
    (12, |case| case.table.truncate(5)),
    (10, |case| case.marks.truncate(1)),
    (0, |case| case.marks[0] = 2),
];

#[test]
fn two_defects_at_once() {
    let case = lend(&mut Random::new(14), 3, vec![1, 2, 0, 1, 1, 1], vec![1, 1]);
    first_defect_is_told(&case, &DEFECTS);
    first_defect_is_told(&case, &TOO_LITTLE);
}

#[test]
fn wrong_programs() {
    let lists = drawn(15, 500, small_compacted).flat_map(|case| [one_changed(case.clone()), two_exchanged(case)].concat());
    let others = drawn(16, 2_000, small_marked).chain(drawn(17, 2_000, damaged)).chain(counts_of_256(&mut Random::new(18)));
    let cases: Vec<_> = lists.chain(others).collect();
    wrong_programs_are_seen(&cases, wrong::FINDINGS.map(|(name, find)| (name, move |case: &Audit| wrong::by(case, find))));
    wrong_programs_are_seen(&cases, wrong::ANSWERS);
}

/// The safe call beside the second program.
#[test]
fn bindings() {
    for case in drawn(19, 2_000, small_marked).chain(drawn(20, 2_000, damaged)) {
        let Audit { fault_count, pattern_count, table, marks, .. } = &case;
        let said = match second::audit(*fault_count, *pattern_count, table, marks) {
            Ok(second::Finding::Sound) => Ok(Finding::Sound),
            Ok(second::Finding::BadMark(mark)) => Ok(Finding::BadMark(mark as u64)),
            Ok(second::Finding::LostFault(fault)) => Ok(Finding::LostFault(fault as u64)),
            Ok(second::Finding::LostPair(first, second)) => Ok(Finding::LostPair(first as u64, second as u64)),
            Ok(second::Finding::SparePattern(pattern)) => Ok(Finding::SparePattern(pattern as u64)),
            Err(second::Refusal { number, place }) => Err(Refusal::new(number, place as u64)),
        };
        assert_eq!(ullimaqsu::audit(*fault_count, *pattern_count, table, marks), said, "{case:?}");
    }
}
