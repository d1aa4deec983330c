//! The dictionary maker that carries 64 patterns at once: here each pattern is simulated on its own, and the words are read off the values.
use crate::circuit::Circuit;
use crate::dictionary::{Dictionary, Given};
use crate::fault::Fault;
use crate::pattern::Pattern;
use crate::refusal::{ensure, Refusal};
use crate::values::Value;

/// How many patterns a group has; the last one may have fewer.
pub const GROUP: usize = 64;

impl Given {
    /// The patterns of the last group, and one of all X in each spare lane.
    pub fn last_lanes(&self) -> Vec<Pattern> {
        let mut lanes = self.patterns.chunks(GROUP).last().expect("a pattern").to_vec();
        lanes.resize(GROUP, vec![None; self.circuit.inputs().count()]);
        lanes
    }
}

/// For each line the word of its 1-lanes and that of its 0-lanes, from the values of all lines in each lane.
pub fn words(lanes: &[Vec<Value>]) -> Vec<u64> {
    let word = |line: usize, value| lanes.iter().rev().fold(0, |word, values| 2 * word + u64::from(values[line] == Some(value)));
    (0..lanes[0].len()).flat_map(|line| [word(line, true), word(line, false)]).collect()
}

impl Circuit {
    /// The words of the good and then of the faulty lines, with a pattern in each lane.
    pub fn work_words(&self, lanes: &[Pattern], fault: Fault) -> Vec<u64> {
        let under = |fault| words(&lanes.iter().map(|pattern| self.values(pattern, fault)).collect::<Vec<_>>());
        [under(None), under(Some(fault))].concat()
    }
}

/// The dictionary maker, lent a table and a work memory of these sizes, of which that of the work memory counts words.
pub fn dictionary_lanes(circuit: &[u8], faults: &[u8], patterns: &[u8], table: usize, work: usize) -> Result<Dictionary<u64>, Refusal> {
    let given = Given::read(circuit, faults, patterns)?;
    ensure(table == given.entries(), 10)?;
    ensure(work == 4 * given.circuit.lines.len(), 10)?;
    Ok(Dictionary { table: given.table(), work: given.circuit.work_words(&given.last_lanes(), given.last_fault()) })
}
