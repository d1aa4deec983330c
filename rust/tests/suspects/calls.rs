//! Calls of suspects, drawn with junk in what is lent, sound and damaged, and what the second program says of each.
use crate::harness::{Case, SuspectsMarks, SuspectsOpen, SuspectsReport};
use cases::suspects::{opened, report, session, spoil, Report, STATE};
use cases::tables::small;
use cases::{damage, Random};
use second::entries::{self, Seen};

impl Case for SuspectsOpen {
    fn second(&self) -> Seen {
        entries::suspects_open(self.fault_count, self.pattern_count, &self.table, &self.state, &self.answer)
    }
}

impl Case for SuspectsReport {
    fn second(&self) -> Seen {
        let counts = [self.fault_count, self.pattern_count];
        entries::suspects_report(counts, &self.table, self.pattern, self.failed, &self.state, &self.answer)
    }
}

impl Case for SuspectsMarks {
    fn second(&self) -> Seen {
        entries::suspects_marks(&self.state, &self.marks, &self.answer)
    }
}

pub fn open(random: &mut Random, [fault_count, pattern_count]: [u64; 2], table: Vec<u8>) -> SuspectsOpen {
    SuspectsOpen { fault_count, pattern_count, table, state: random.junk(STATE), answer: random.junk(32) }
}

/// A report to this state.
pub fn report_to(random: &mut Random, state: Vec<u8>, report: Report) -> SuspectsReport {
    let Report { counts: [fault_count, pattern_count], table, pattern, failed } = report;
    SuspectsReport { fault_count, pattern_count, table, pattern, failed, state, answer: random.junk(32) }
}

/// The marks of a state of so many faults.
pub fn marks_of(random: &mut Random, state: Vec<u8>, faults: usize) -> SuspectsMarks {
    SuspectsMarks { state, marks: random.junk(faults), answer: random.junk(32) }
}

pub fn small_open(random: &mut Random) -> SuspectsOpen {
    let (faults, table) = small(random);
    open(random, [faults, table.len() / faults].map(|count| count as u64), table)
}

/// A report on a table of so many faults, to a state in which any of them remain.
pub fn any_report(random: &mut Random, faults: usize, table: Vec<u8>) -> SuspectsReport {
    let state = opened(random, faults, table.len() / faults);
    let report = report(random, &session(faults, table));
    report_to(random, state, report)
}

pub fn small_report(random: &mut Random) -> SuspectsReport {
    let (faults, table) = small(random);
    any_report(random, faults, table)
}

/// The marks of any state of so many faults and patterns.
pub fn any_marks(random: &mut Random, faults: usize, patterns: usize) -> SuspectsMarks {
    let state = opened(random, faults, patterns);
    marks_of(random, state, faults)
}

pub fn small_marks(random: &mut Random) -> SuspectsMarks {
    let [faults, patterns] = [(); 2].map(|_| 1 + random.below(12));
    any_marks(random, faults, patterns)
}

/// One thing or several are wrong.
pub fn damaged_open(random: &mut Random) -> SuspectsOpen {
    let mut case = small_open(random);
    damage::several(random, &mut case, |random, SuspectsOpen { fault_count, pattern_count, table, state, answer }| {
        damage::table(random, [fault_count, pattern_count], [table, state, answer]);
    });
    case
}

pub fn damaged_report(random: &mut Random) -> SuspectsReport {
    let (faults, table) = small(random);
    let mut state = opened(random, faults, table.len() / faults);
    let mut report = report(random, &session(faults, table));
    damage::several(random, &mut (&mut state, &mut report), |random, (state, report)| match random.below(4) {
        0 => damage::state(random, state),
        1 if random.once_in(4) => state.resize(damage::size(random, STATE), 0),
        _ => spoil(random, report),
    });
    let mut case = report_to(random, state, report);
    if random.once_in(16) {
        case.answer.resize(random.pick(&[0, 31, 33, 64]), 7);
    }
    case
}

pub fn damaged_marks(random: &mut Random) -> SuspectsMarks {
    let mut case = small_marks(random);
    damage::several(random, &mut case, |random, SuspectsMarks { state, marks, answer }| match random.below(8) {
        0 => state.resize(damage::size(random, STATE), 0),
        1..=2 => marks.resize(damage::size(random, marks.len()), 7),
        3 => answer.resize(random.pick(&[0, 31, 33, 64]), 7),
        _ => damage::state(random, state),
    });
    case
}
