//! Suspects against the second program, which holds a list of reports: the number returned, and every byte of the state, the marks and the
//! answer. Here are single calls, in `suspects/` areas that may or may not be opened states, and whole sessions.
#[path = "wrong/answered.rs"]
mod answered;
#[path = "wrong/but_for.rs"]
mod but_for;
#[path = "suspects/calls.rs"]
mod calls;
#[path = "suspects/courses.rs"]
mod courses;
mod harness;
#[path = "suspects/sessions.rs"]
mod sessions;
#[path = "suspects/states.rs"]
mod states;
#[path = "wrong/suspects.rs"]
mod wrong;
#[path = "wrong/suspects_sessions.rs"]
mod wrong_sessions;
#[path = "wrong/suspects_states.rs"]
mod wrong_states;

use calls::{any_marks, any_report, damaged_marks, damaged_open, damaged_report, open, report_to, small_marks, small_open, small_report};
use cases::suspects::{state, Report, MARKS};
use cases::tables::{every, of_density, table, DENSITIES};
use cases::{drawn, Random};
use harness::{compare, first_defect_is_told, wrong_programs_are_seen, Defect, SuspectsMarks, SuspectsOpen, SuspectsReport};

#[test]
fn sound_calls() {
    assert_eq!(compare("suspects, opened", drawn(1, 20_000, small_open)).seen(), [0]);
    assert_eq!(compare("suspects, reports", drawn(2, 100_000, small_report)).seen(), [0]);
    assert_eq!(compare("suspects, marks", drawn(3, 20_000, small_marks)).seen(), [0]);
}

#[test]
fn damaged_calls() {
    assert_eq!(compare("suspects, opened, damaged", drawn(4, 50_000, damaged_open)).seen(), [0, 10, 12, 13]);
    assert_eq!(compare("suspects, reports, damaged", drawn(5, 200_000, damaged_report)).seen(), [0, 10, 12, 13, 17, 22]);
    assert_eq!(compare("suspects, marks, damaged", drawn(6, 100_000, damaged_marks)).seen(), [0, 10, 22]);
}

/// Every table of these sizes, every report on it, and every state.
#[test]
fn every_small_table() {
    let mut random = Random::new(7);
    let mut all = vec![];
    for (faults, patterns) in [(1, 1), (1, 3), (2, 1), (2, 2), (3, 1), (3, 2)] {
        let marks = || every(faults).filter(|marks| !marks.contains(&2));
        let tables = every(faults * patterns).flat_map(|table| marks().map(move |marks| (table.clone(), marks)));
        let [faults, patterns] = [faults, patterns].map(u64::from);
        for (table, marks) in tables {
            let state = state(faults, patterns, &marks);
            let counts = [faults, patterns];
            let reports = (0..=patterns).flat_map(|pattern| [0, 1].map(|failed| (pattern, failed)));
            let reports = reports.map(|(pattern, failed)| Report { counts, table: table.clone(), pattern, failed });
            all.extend(reports.map(|report| report_to(&mut random, state.clone(), report)));
        }
    }
    assert_eq!(compare("suspects, every small table", all.into_iter()).seen(), [0, 17]);
}

/// The sizes at which something changes.
const SIZES: [usize; 6] = [1, 2, 16, 255, 256, 257];

#[test]
fn boundaries() {
    let pairs = || SIZES.into_iter().flat_map(|faults| SIZES.map(|patterns| (faults, patterns)));
    let mut random = Random::new(8);
    let opens = pairs().map(|(faults, patterns)| {
        let table = table(&mut random, faults, patterns);
        open(&mut random, [faults as u64, patterns as u64], table)
    });
    assert_eq!(compare("suspects, opened, boundaries", opens).seen(), [0, 12]);
    let mut random = Random::new(9);
    let reports = pairs().filter(|&(faults, patterns)| faults < 257 && patterns < 257).flat_map(|(faults, patterns)| {
        let table = table(&mut random, faults, patterns);
        [0, 0, patterns - 1, patterns, patterns + 1].map(|pattern| {
            let case = any_report(&mut random, faults, table.clone());
            SuspectsReport { pattern: pattern as u64, ..case }
        })
    });
    assert_eq!(compare("suspects, reports, boundaries", reports).seen(), [0, 17]);
    let mut random = Random::new(10);
    let marks = pairs()
        .filter(|&(faults, patterns)| faults < 257 && patterns < 257)
        .map(|(faults, patterns)| any_marks(&mut random, faults, patterns));
    assert_eq!(compare("suspects, marks, boundaries", marks).seen(), [0]);
}

/// 256 by 256, of every density: any reports; one on a pattern that is not there; and a bad byte, the last of the table or one where a row ends
/// or begins.
#[test]
fn largest() {
    let mut random = Random::new(11);
    let mut all = vec![];
    for density in DENSITIES {
        let table = of_density(&mut random, density, 256, 256);
        let case = any_report(&mut random, 256, table.clone());
        let bad = |place: usize| SuspectsReport { table: [&table[..place], &[3], &table[place + 1..]].concat(), ..case.clone() };
        all.extend([255, 256, 65_535].map(bad));
        all.extend([255, 256].map(|pattern| SuspectsReport { pattern, ..case.clone() }));
        all.extend([(); 20].map(|_| any_report(&mut random, 256, table.clone())));
    }
    assert_eq!(compare("suspects, 256 by 256", all.into_iter()).seen(), [0, 13, 17]);
}

/// Every size of the state, of the marks and of the answer area, one after the other.
#[test]
fn other_sizes() {
    let mut random = Random::new(20);
    let (opened, reported, marked) = (small_open(&mut random), small_report(&mut random), any_marks(&mut random, 7, 5));
    let resized = |bytes: &[u8], len: usize| bytes.iter().copied().chain([1; 320]).take(len).collect::<Vec<u8>>();
    let states = (0..=320).chain([512, 4096]);
    let answers = (0..=72).map(|len| resized(&opened.answer, len));
    let opens = states.clone().map(|len| SuspectsOpen { state: resized(&opened.state, len), ..opened.clone() });
    let opens = opens.chain(answers.clone().map(|answer| SuspectsOpen { answer, ..opened.clone() }));
    assert_eq!(compare("suspects, opened, other sizes", opens).seen(), [0, 10]);
    let reports = states.clone().map(|len| SuspectsReport { state: resized(&reported.state, len), ..reported.clone() });
    let reports = reports.chain(answers.clone().map(|answer| SuspectsReport { answer, ..reported.clone() }));
    assert_eq!(compare("suspects, reports, other sizes", reports).seen(), [0, 10]);
    let marks = states.map(|len| SuspectsMarks { state: resized(&marked.state, len), ..marked.clone() });
    let marks = marks.chain(answers.map(|answer| SuspectsMarks { answer, ..marked.clone() }));
    let marks = marks.chain((0..=300).map(|len| SuspectsMarks { marks: resized(&marked.marks, len), ..marked.clone() }));
    assert_eq!(compare("suspects, marks, other sizes", marks).seen(), [0, 10]);
}

/// What can be wrong, in the order in which it is looked for. Counts that are exchanged have the table's size as their product all the same.
const REPORTS: [Defect<SuspectsReport>; 11] = [
    (10, |case| case.answer.push(0)),
    (10, |case| case.state.push(0)),
    (22, |case| case.state[31] = 1),
    (22, |case| case.state[MARKS + 1] ^= 1),
    (22, |case| case.state[MARKS + 255] = 1),
    (12, |case| case.fault_count += 1),
    (12, |case| case.pattern_count = 0),
    (12, |case| (case.fault_count, case.pattern_count) = (2, 3)),
    (12, |case| case.table.push(0)),
    (13, |case| case.table[2] = 3),
    (17, |case| case.pattern = 2),
];
const OPENS: [Defect<SuspectsOpen>; 6] = [
    (10, |case| case.answer.truncate(31)),
    (10, |case| case.state.truncate(287)),
    (12, |case| case.fault_count += 1),
    (12, |case| case.pattern_count = 0),
    (12, |case| case.table.push(0)),
    (13, |case| case.table[2] = 3),
];
const MARKED: [Defect<SuspectsMarks>; 5] = [
    (10, |case| case.answer.push(0)),
    (10, |case| case.state.truncate(287)),
    (22, |case| case.state[16] = 7),
    (22, |case| case.state[MARKS] = 2),
    (10, |case| case.marks.push(0)),
];

#[test]
fn two_defects_at_once() {
    let mut random = Random::new(21);
    let table = vec![1, 2, 0, 1, 1, 1];
    first_defect_is_told(&open(&mut random, [3, 2], table.clone()), &OPENS);
    first_defect_is_told(&any_report(&mut random, 3, table), &REPORTS);
    first_defect_is_told(&any_marks(&mut random, 3, 2), &MARKED);
}

#[test]
fn wrong_programs() {
    let opens: Vec<_> = drawn(22, 1_000, small_open).chain(drawn(23, 5_000, damaged_open)).collect();
    wrong_programs_are_seen(&opens, wrong_states::OPENS);
    let reports: Vec<_> = drawn(24, 5_000, small_report).chain(drawn(25, 20_000, damaged_report)).collect();
    wrong_programs_are_seen(&reports, wrong::REPORTS);
    wrong_programs_are_seen(&reports, wrong_states::looks());
    let marks: Vec<_> = drawn(26, 1_000, small_marks).chain(drawn(27, 20_000, damaged_marks)).collect();
    wrong_programs_are_seen(&marks, wrong_states::MARKED);
    wrong_programs_are_seen(&marks, wrong_states::looks());
}
