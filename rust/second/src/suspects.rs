//! Suspects, by their definition: all that was reported is kept, and a fault remains unless some report speaks against it.
use crate::compact::{rows, Row};
use crate::dictionary::Entry;
use crate::refusal::{ensure, refusal, Refusal};

/// What a tester said of a pattern, with the row that the table had for it then.
#[derive(Clone, Debug)]
pub struct Report {
    pub row: Row,
    pub failed: bool,
}

impl Report {
    /// With this fault the pattern would have done otherwise, whatever the X's are.
    pub fn speaks_against(&self, fault: usize) -> bool {
        match self.row[fault] {
            Entry::Pass => self.failed,
            Entry::Fail => !self.failed,
            Entry::Unknown => false,
        }
    }
}

/// What was opened, and what was reported since, in order.
#[derive(Clone, Debug)]
pub struct Suspects {
    pub faults: usize,
    pub patterns: usize,
    pub reports: Vec<Report>,
}

/// The size of the area in which C holds them, and how many marks it has.
const AREA: usize = 288;
const MOST: usize = 256;

impl Suspects {
    /// Opens an area of so many bytes. Refusals 10, 12, 13.
    pub fn open(fault_count: u64, pattern_count: u64, table: &[u8], area: usize) -> Result<Suspects, Refusal> {
        ensure(area == AREA, 10)?;
        let rows = rows(fault_count, pattern_count, table)?;
        Ok(Suspects { faults: rows[0].len(), patterns: rows.len(), reports: vec![] })
    }

    /// The same with one report more, on a table that has these numbers of faults and patterns. Refusals 12, 13, 17.
    pub fn and(mut self, counts: [u64; 2], table: &[u8], pattern: u64, failed: u64) -> Result<Suspects, Refusal> {
        let [fault_count, pattern_count] = counts;
        ensure(counts == [self.faults, self.patterns].map(|count| count as u64), 12)?;
        let lent = rows(fault_count, pattern_count, table)?.into_iter().zip(0..).find(|(_, number)| *number == pattern);
        let (row, _) = lent.ok_or(refusal(17, 0))?;
        self.reports.push(Report { row, failed: failed != 0 });
        Ok(self)
    }

    fn remains(&self, fault: usize) -> bool {
        !self.reports.iter().any(|report| report.speaks_against(fault))
    }

    /// How many faults remain.
    pub fn remaining(&self) -> u64 {
        (0..self.faults).filter(|&fault| self.remains(fault)).count() as u64
    }

    /// A mark for each fault, where so many are lent. Refusal 10.
    pub fn marks(&self, lent: usize) -> Result<Vec<u8>, Refusal> {
        ensure(lent == self.faults, 10)?;
        Ok((0..self.faults).map(|fault| u8::from(self.remains(fault))).collect())
    }

    /// What C holds of them.
    pub fn area(&self) -> Vec<u8> {
        let numbers = [self.faults as u64, self.patterns as u64, (self.faults * self.patterns) as u64, self.remaining()];
        let mut area: Vec<u8> = numbers.into_iter().flat_map(u64::to_le_bytes).collect();
        area.extend(self.marks(self.faults).expect("one a fault"));
        area.resize(AREA, 0);
        area
    }

    /// The suspects of an area, if it is what C holds of any. It does not say what was reported, and need not: what remains could as well have come
    /// of one report: that a pattern failed whose entry is unknown for those that remain and pass for all others.
    pub fn read(area: &[u8]) -> Option<Suspects> {
        let mut numbers = area.chunks(8).map(|bytes| bytes.iter().rev().fold(0, |number, &byte| number << 8 | usize::from(byte)));
        let [faults, patterns] = [numbers.next()?, numbers.next()?];
        let entry = |&mark: &u8| if mark == 1 { Entry::Unknown } else { Entry::Pass };
        let row: Row = area.iter().skip(AREA - MOST).take(faults).map(entry).collect();
        let sound = [faults, patterns].iter().all(|count| (1..=MOST).contains(count)) && row.len() == faults;
        let suspects = Suspects { faults, patterns, reports: vec![Report { row, failed: true }] };
        (sound && suspects.area() == area).then_some(suspects)
    }

    /// The suspects of an area that is lent. Refusals 10, 22.
    pub fn lent(area: &[u8]) -> Result<Suspects, Refusal> {
        ensure(area.len() == AREA, 10)?;
        Suspects::read(area).ok_or(refusal(22, 0))
    }
}
