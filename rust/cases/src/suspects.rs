//! What suspects are narrowed by: their state as C holds it, and tables with reports on them.
use crate::tables::{sound_marks, table};
use crate::{damage, Random};

/// The size of a state, and where its marks begin.
pub const STATE: usize = 288;
pub const MARKS: usize = 32;

/// What is laid out of these counts and marks, whether it can be a state or not.
pub fn state(faults: u64, patterns: u64, marks: &[u8]) -> Vec<u8> {
    let remaining = marks.iter().filter(|&&mark| mark == 1).count() as u64;
    let mut state = [faults, patterns, faults.wrapping_mul(patterns), remaining].map(u64::to_le_bytes).concat();
    state.extend(marks);
    state.resize(STATE, 0);
    state
}

/// A state of these counts in which few or many faults remain.
pub fn opened(random: &mut Random, faults: usize, patterns: usize) -> Vec<u8> {
    let marks = sound_marks(random, faults);
    state(faults as u64, patterns as u64, &marks)
}

/// What the tester says: 0 that the pattern passed, any other number that it failed.
pub fn failed(random: &mut Random) -> u64 {
    let others = [1, 1, 1, 2, 255, 256, 1 << 32, 1 << 63, u64::MAX];
    if random.once_in(2) {
        0
    } else {
        random.pick(&others)
    }
}

/// A report with the table that it lends.
#[derive(Clone, Debug)]
pub struct Report {
    pub counts: [u64; 2],
    pub table: Vec<u8>,
    pub pattern: u64,
    pub failed: u64,
}

/// A table for which a state is opened, and reports.
#[derive(Clone, Debug)]
pub struct Session {
    pub counts: [u64; 2],
    pub table: Vec<u8>,
    pub reports: Vec<Report>,
}

/// A session on a table, without reports.
pub fn session(faults: usize, table: Vec<u8>) -> Session {
    Session { counts: [faults as u64, (table.len() / faults) as u64], table, reports: vec![] }
}

/// A report on this very table.
pub fn report(random: &mut Random, Session { counts, table, .. }: &Session) -> Report {
    let pattern = random.below(counts[1] as usize) as u64;
    Report { counts: *counts, table: table.clone(), pattern, failed: failed(random) }
}

/// Now and then a report lends a table with other entries.
pub fn report_on_any(random: &mut Random, session: &Session) -> Report {
    let mut report = report(random, session);
    let [faults, patterns] = session.counts.map(|count| count as usize);
    match random.below(6) {
        0 => report.table = table(random, faults, patterns),
        1 => random_entries(random, &mut report.table),
        _ => (),
    }
    report
}

/// Some entries are others.
fn random_entries(random: &mut Random, table: &mut [u8]) {
    for _ in 0..=random.below(table.len()) {
        table[random.below(table.len())] = random.pick(&[0, 1, 2]);
    }
}

/// Something is wrong with a report, beside its state: it is refused, unless two things mend each other.
pub fn spoil(random: &mut Random, Report { counts, table, pattern, .. }: &mut Report) {
    match random.below(8) {
        0..=1 => *pattern = damage::count(random, counts[1]),
        2 => *pattern = pattern.wrapping_add(random.pick(&[256, 1 << 32, 1 << 63])),
        3 => counts.reverse(),
        _ => {
            let [faults, patterns] = counts;
            damage::table(random, [faults, patterns], [table, &mut vec![], &mut vec![]]);
        }
    }
}
