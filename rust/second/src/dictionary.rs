//! Entries, and the dictionary maker.
use crate::circuit::Circuit;
use crate::compact::Row;
use crate::fault::Fault;
use crate::pattern::{self, Pattern};
use crate::refusal::{ensure, Refusal};
use crate::values::{bytes, Value};

/// What a pattern says about a fault.
#[derive(Clone, Copy, Debug, PartialEq, Eq)]
pub enum Entry {
    Pass = 0,
    Fail = 1,
    Unknown = 2,
}

/// The entry of the good and faulty values at the outputs. A tester compares those whose good value is known, and masks the others.
pub fn entry(outputs: impl Iterator<Item = (Value, Value)> + Clone) -> Entry {
    let mut compared = outputs.filter_map(|(good, faulty)| Some((good?, faulty)));
    if compared.clone().any(|(good, faulty)| faulty == Some(!good)) {
        Entry::Fail
    } else if compared.all(|(good, faulty)| faulty == Some(good)) {
        Entry::Pass
    } else {
        Entry::Unknown
    }
}

impl Circuit {
    /// The entry of a pattern and a fault.
    pub fn entry(&self, pattern: &[Value], fault: Fault) -> Entry {
        self.entry_of(&self.values(pattern, None), &self.values(pattern, Some(fault)))
    }

    fn entry_of(&self, good: &[Value], faulty: &[Value]) -> Entry {
        entry(self.outputs().map(|line| (good[line], faulty[line])))
    }

    /// The bytes of the good and then of the faulty values.
    pub fn work(&self, pattern: &[Value], fault: Fault) -> Vec<u8> {
        bytes(&self.values(pattern, None), &self.values(pattern, Some(fault)))
    }

    /// One entry for each fault.
    fn row(&self, pattern: &Pattern, faults: &[Fault]) -> Row {
        let good = self.values(pattern, None);
        faults.iter().map(|&fault| self.entry_of(&good, &self.values(pattern, Some(fault)))).collect()
    }
}

/// What a dictionary is made of.
pub struct Given {
    pub circuit: Circuit,
    pub faults: Vec<Fault>,
    pub patterns: Vec<Pattern>,
}

impl Given {
    /// Reads it. Refusals 1, 2 and 4 to 9.
    pub fn read(circuit: &[u8], faults: &[u8], patterns: &[u8]) -> Result<Given, Refusal> {
        let circuit = Circuit::read(circuit)?;
        let faults = Fault::read_all(&circuit, faults, 256)?;
        let patterns = pattern::read_all(patterns, circuit.inputs().count())?;
        Ok(Given { circuit, faults, patterns })
    }

    /// One row for each pattern.
    pub fn rows(&self) -> Vec<Row> {
        self.patterns.iter().map(|pattern| self.circuit.row(pattern, &self.faults)).collect()
    }

    /// The bytes of all entries, row by row.
    pub fn table(&self) -> Vec<u8> {
        self.rows().into_iter().flatten().map(|entry| entry as u8).collect()
    }

    /// How many entries the table has.
    pub fn entries(&self) -> usize {
        self.faults.len() * self.patterns.len()
    }

    pub fn last_fault(&self) -> Fault {
        self.faults[self.faults.len() - 1]
    }
}

/// What a dictionary maker leaves in lent memory. Its work memory is of bytes, where nothing else is said.
pub struct Dictionary<W = u8> {
    pub table: Vec<u8>,
    pub work: Vec<W>,
}

/// The dictionary maker, lent a table and a work memory of these sizes.
pub fn dictionary(circuit: &[u8], faults: &[u8], patterns: &[u8], table: usize, work: usize) -> Result<Dictionary, Refusal> {
    let given = Given::read(circuit, faults, patterns)?;
    ensure(table == given.entries(), 10)?;
    ensure(work == 2 * given.circuit.lines.len(), 10)?;
    let last = &given.patterns[given.patterns.len() - 1];
    Ok(Dictionary { table: given.table(), work: given.circuit.work(last, given.last_fault()) })
}
