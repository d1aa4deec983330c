//! The audit of a kept list: every need is asked for, and each kept pattern is taken out to ask for all of them again.
use crate::compact::{meet_all, needs, read, without, Need, Row};
use crate::refusal::Refusal;

/// What is found, with its place.
#[derive(Clone, Copy, Debug, PartialEq, Eq)]
pub enum Finding {
    Sound,
    BadMark(usize),
    LostFault(usize),
    LostPair(usize, usize),
    SparePattern(usize),
}

impl Finding {
    /// Which finding it is, and its place.
    pub fn numbers(self) -> Vec<u64> {
        let numbers = match self {
            Finding::Sound => vec![0],
            Finding::BadMark(mark) => vec![1, mark],
            Finding::LostFault(fault) => vec![2, fault],
            Finding::LostPair(first, second) => vec![3, first, second],
            Finding::SparePattern(pattern) => vec![4, pattern],
        };
        numbers.into_iter().map(|number| number as u64).collect()
    }
}

/// The first thing that holds of the marks of a table that has these needs.
pub fn finding(table: &[Row], needs: &[Need], marks: &[u8]) -> Finding {
    if let Some(bad) = marks.iter().position(|mark| ![0, 1].contains(mark)) {
        return Finding::BadMark(bad);
    }
    let kept: Vec<usize> = (0..marks.len()).filter(|&pattern| marks[pattern] == 1).collect();
    let lost = needs.iter().filter(|&&need| !meet_all(table, &kept, &[need])).min();
    let spare = kept.iter().find(|&&pattern| meet_all(table, &without(&kept, pattern), needs));
    match (lost, spare) {
        (Some(&Need::Detected(fault)), _) => Finding::LostFault(fault),
        (Some(&Need::Apart(first, second)), _) => Finding::LostPair(first, second),
        (None, Some(&pattern)) => Finding::SparePattern(pattern),
        (None, None) => Finding::Sound,
    }
}

/// The audit.
pub fn audit(fault_count: u64, pattern_count: u64, table: &[u8], marks: &[u8]) -> Result<Finding, Refusal> {
    let table = read(fault_count, pattern_count, table, marks.len())?;
    Ok(finding(&table, &needs(&table), marks))
}
