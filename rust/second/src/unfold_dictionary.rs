//! The dictionary maker for a clocked circuit: here nothing is unfolded, the circuit runs step by step.
use crate::clocked::{Clocked, Run};
use crate::dictionary::{entry, Dictionary, Entry};
use crate::fault::Fault;
use crate::pattern::{self, Pattern};
use crate::refusal::{ensure, Refusal};
use crate::values::{bytes, Value};

/// What it is made of.
pub struct Given {
    pub clocked: Clocked,
    pub faults: Vec<Fault>,
    pub patterns: Vec<Pattern>,
}

impl Clocked {
    /// The entry of two runs, the good one and a faulty one.
    pub fn entry_of(&self, good: &Run, faulty: &Run) -> Entry {
        let [good, faulty] = [good, faulty].map(|run| self.compared(run));
        entry(good.iter().copied().zip(faulty.iter().copied()))
    }

    /// The bytes of the good and then of the faulty values, step by step.
    fn work(&self, pattern: &[Value], fault: Fault) -> Vec<u8> {
        let [good, faulty] = [None, Some(fault)].map(|fault| self.run(pattern, fault).concat());
        bytes(&good, &faulty)
    }
}

impl Given {
    /// Reads it for a clocked circuit. Refusals 6 to 9.
    pub fn read(clocked: Clocked, faults: &[u8], patterns: &[u8]) -> Result<Given, Refusal> {
        let faults = Fault::read_all(&clocked.circuit, faults, 256)?;
        let patterns = pattern::read_all(patterns, clocked.inputs())?;
        Ok(Given { clocked, faults, patterns })
    }

    /// The bytes of all entries, row by row.
    fn table(&self) -> Vec<u8> {
        let row = |pattern: &Pattern| {
            let good = self.clocked.run(pattern, None);
            let entry = |&fault: &Fault| self.clocked.entry_of(&good, &self.clocked.run(pattern, Some(fault)));
            self.faults.iter().map(|fault| entry(fault) as u8).collect::<Vec<_>>()
        };
        self.patterns.iter().flat_map(row).collect()
    }
}

/// The dictionary maker, lent a table and a work memory of these sizes.
pub fn unfold_dictionary(clocked: Clocked, faults: &[u8], patterns: &[u8], table: usize, work: usize) -> Result<Dictionary, Refusal> {
    let given = Given::read(clocked, faults, patterns)?;
    ensure(table == given.faults.len() * given.patterns.len(), 10)?;
    ensure(work == 2 * given.clocked.lines(), 10)?;
    let (last, last_fault) = (&given.patterns[given.patterns.len() - 1], given.faults[given.faults.len() - 1]);
    Ok(Dictionary { table: given.table(), work: given.clocked.work(last, last_fault) })
}
