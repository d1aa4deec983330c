//! Faults and patterns with their whole table, as compaction, audit and the suspects take them.
use crate::circuit::Circuit;
use crate::commands::Command;
use crate::entry::Entry;
use crate::fault::{self, Fault};
use crate::form::count;
use crate::pattern::{self, Pattern};
use crate::problem::{shown, Problem};
use crate::table::{entries, MOST};
use crate::words::Words;
use std::path::Path;

pub struct Listed {
    pub circuit: Circuit,
    pub faults: Vec<Fault>,
    pub patterns: Vec<Pattern>,
    /// A row for each pattern, and in it an entry for each fault.
    pub table: Vec<u8>,
}

impl Listed {
    /// Of the first three words: a circuit, faults and patterns.
    pub fn load(words: &Words, command: &Command) -> Result<Listed, Problem> {
        let circuit = Circuit::load(words.at(0))?;
        let (faults, patterns) = (fault::load(words.at(1), &circuit)?, pattern::load(words.at(2), &circuit)?);
        limit(words.at(1), faults.len(), "fault", command)?;
        limit(words.at(2), patterns.len(), "pattern", command)?;
        let table = entries(&circuit, &faults, &patterns);
        Ok(Listed { circuit, faults, patterns, table })
    }

    /// The marks of the patterns that compaction keeps.
    pub fn marks(&self) -> Vec<u8> {
        let mut marks = vec![0; self.patterns.len()];
        ullimaqsu::compact(self.faults.len() as u64, self.patterns.len() as u64, &self.table, &mut marks)
            .expect("the table of a dictionary is never refused");
        marks
    }

    /// The entries of a pattern, one for each fault.
    pub fn row(&self, pattern: usize) -> &[u8] {
        &self.table[pattern * self.faults.len()..][..self.faults.len()]
    }

    fn entry(&self, pattern: usize, fault: usize) -> Entry {
        Entry::of(self.row(pattern)[fault])
    }

    /// The first pattern that fails a fault.
    pub fn failed_by(&self, fault: usize) -> Option<usize> {
        (0..self.patterns.len()).find(|&pattern| self.entry(pattern, fault) == Entry::Fail)
    }

    /// The first pattern that tells two faults apart: it fails one and passes the other.
    pub fn told_apart_by(&self, pair: [usize; 2]) -> Option<usize> {
        let entries = |pattern| pair.map(|fault| self.entry(pattern, fault));
        (0..self.patterns.len()).find(|&pattern| matches!(entries(pattern), [Entry::Fail, Entry::Pass] | [Entry::Pass, Entry::Fail]))
    }

    /// How many faults some pattern fails.
    pub fn detected(&self) -> usize {
        (0..self.faults.len()).filter(|&fault| self.failed_by(fault).is_some()).count()
    }
}

/// The library's own limit: a list can't be cut in pieces where each pattern is held against all the others.
fn limit(path: &Path, number: usize, of: &str, command: &Command) -> Result<(), Problem> {
    match number <= MOST {
        true => Ok(()),
        false => Err(Problem::Refused(format!("{} has {}, and {} takes at most {MOST}", shown(path), count(number, of), command.name))),
    }
}
