//! Compaction, by running its definition.
use crate::dictionary::Entry;
use crate::refusal::{ensure, refusal, Refusal};

/// One entry for each fault.
pub type Row = Vec<Entry>;

/// What the kept patterns must still do. The faults come before the pairs, and these by their first fault and then by their second.
#[derive(Clone, Copy, Debug, PartialEq, Eq, PartialOrd, Ord)]
pub enum Need {
    /// The fault is detected.
    Detected(usize),
    /// The two faults, the lower one first, are told apart.
    Apart(usize, usize),
}

impl Need {
    /// A pattern with this row does it.
    pub fn is_met_by(self, row: &Row) -> bool {
        match self {
            Need::Detected(fault) => row[fault] == Entry::Fail,
            Need::Apart(one, other) => matches!((row[one], row[other]), (Entry::Fail, Entry::Pass) | (Entry::Pass, Entry::Fail)),
        }
    }

    /// Some pattern of a set does it.
    pub fn is_met<'a>(self, mut rows: impl Iterator<Item = &'a Row>) -> bool {
        rows.any(|row| self.is_met_by(row))
    }
}

/// The needs of a whole table: each detected fault, and each pair of detected faults that is told apart.
pub fn needs(table: &[Row]) -> Vec<Need> {
    let met = |need: &Need| need.is_met(table.iter());
    let detected: Vec<usize> = (0..table[0].len()).filter(|&fault| met(&Need::Detected(fault))).collect();
    let pairs =
        detected.iter().flat_map(|&other| detected.iter().take_while(move |&&one| one < other).map(move |&one| Need::Apart(one, other)));
    detected.iter().map(|&fault| Need::Detected(fault)).chain(pairs.filter(met)).collect()
}

/// These patterns meet every one of the needs.
pub fn meet_all(table: &[Row], patterns: &[usize], needs: &[Need]) -> bool {
    needs.iter().all(|need| need.is_met(patterns.iter().map(|&pattern| &table[pattern])))
}

/// The others of these patterns.
pub fn without(patterns: &[usize], out: usize) -> Vec<usize> {
    patterns.iter().copied().filter(|&pattern| pattern != out).collect()
}

/// The patterns that are kept, in order: from the last to the first, a pattern is dropped if those still in the set without it meet every
/// need.
pub fn kept(table: &[Row]) -> Vec<usize> {
    let needs = needs(table);
    (0..table.len()).rev().fold((0..table.len()).collect(), |kept: Vec<usize>, pattern| {
        let others = without(&kept, pattern);
        if meet_all(table, &others, &needs) {
            others
        } else {
            kept
        }
    })
}

fn entry(byte: u8) -> Option<Entry> {
    [Entry::Pass, Entry::Fail, Entry::Unknown].into_iter().find(|&entry| entry as u8 == byte)
}

/// The rows of a table. Refusals 12 and 13.
pub fn rows(fault_count: u64, pattern_count: u64, table: &[u8]) -> Result<Vec<Row>, Refusal> {
    let sizes = 1..=256;
    ensure(sizes.contains(&fault_count) && sizes.contains(&pattern_count), 12)?;
    ensure(table.len() as u64 == fault_count * pattern_count, 12)?;
    let entries = table.iter().enumerate().map(|(place, &byte)| entry(byte).ok_or(refusal(13, place)));
    let entries = entries.collect::<Result<Vec<Entry>, _>>()?;
    Ok(entries.chunks_exact(fault_count as usize).map(<[_]>::to_vec).collect())
}

/// The rows of a table with which so many marks are lent. Refusals 12, 13, then 10.
pub fn read(fault_count: u64, pattern_count: u64, table: &[u8], marks: usize) -> Result<Vec<Row>, Refusal> {
    let rows = rows(fault_count, pattern_count, table)?;
    ensure(marks == rows.len(), 10)?;
    Ok(rows)
}

/// The compactor, lent so many marks: 1 for kept, 0 for dropped.
pub fn compact(fault_count: u64, pattern_count: u64, table: &[u8], marks: usize) -> Result<Vec<u8>, Refusal> {
    let rows = read(fault_count, pattern_count, table, marks)?;
    let kept = kept(&rows);
    Ok((0..rows.len()).map(|pattern| u8::from(kept.contains(&pattern))).collect())
}
