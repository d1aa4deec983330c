//! Faults.
use crate::circuit::Circuit;
use crate::refusal::{records, refusal, Refusal};

/// Where a line is stuck.
#[derive(Clone, Copy, Debug, PartialEq, Eq)]
pub enum Site {
    /// Wherever the line is read, and at the output if it is one.
    Line,
    /// At this pin of its gate alone, from 1.
    Pin(usize),
}

#[derive(Clone, Copy, Debug, PartialEq, Eq)]
pub struct Fault {
    pub line: usize,
    pub site: Site,
    pub stuck: bool,
}

impl Fault {
    /// The fault, if its record keeps to the layout and names a line and pin of the circuit.
    fn read(circuit: &Circuit, record: [u8; 8]) -> Option<Fault> {
        let [low, high, site, stuck @ (0 | 1), 0, 0, 0, 0] = record else { return None };
        let line = usize::from(u16::from_le_bytes([low, high]));
        let site = match (usize::from(site), circuit.lines.get(line)?.gate.sources().len()) {
            (0, _) => Site::Line,
            (pin, pins) if pin <= pins => Site::Pin(pin),
            _ => return None,
        };
        Some(Fault { line, site, stuck: stuck == 1 })
    }

    /// Reads 1 to `most` faults of a circuit. Refusals 6 and 7.
    pub fn read_all(circuit: &Circuit, bytes: &[u8], most: usize) -> Result<Vec<Fault>, Refusal> {
        records(bytes, most)
            .ok_or(refusal(6, 0))?
            .enumerate()
            .map(|(place, record)| Fault::read(circuit, record).ok_or(refusal(7, place)))
            .collect()
    }
}
