//! Circuits, and the check.
use crate::refusal::{ensure, records, refusal, Refusal};

/// What makes a line's value, with what its pins read: lines, where nothing else is said.
#[derive(Clone, Copy, Debug, PartialEq, Eq)]
pub enum Gate<S = usize> {
    Input,
    Buffer(S),
    Not(S),
    And(S, S),
    Nand(S, S),
    Or(S, S),
    Nor(S, S),
    Xor(S, S),
    Xnor(S, S),
    /// The first source, the second source, and the select that chooses between them.
    Selector(S, S, S),
}

/// What gates make of what their pins see: of the kinds that the others are made of.
pub struct Rules<S> {
    pub input: S,
    pub not: fn(S) -> S,
    pub and: fn(S, S) -> S,
    pub or: fn(S, S) -> S,
    pub xor: fn(S, S) -> S,
    /// Of the first source, the second source, and the select.
    pub selected: fn(S, S, S) -> S,
}

#[derive(Clone, Copy, Debug, PartialEq, Eq)]
pub struct Line {
    pub gate: Gate,
    pub output: bool,
}

/// A circuit that is as document 01 wants it.
#[derive(Clone, Debug, PartialEq, Eq)]
pub struct Circuit {
    pub lines: Vec<Line>,
}

#[derive(Clone, Copy, Debug, PartialEq, Eq)]
pub struct Counts {
    pub lines: usize,
    pub inputs: usize,
    pub outputs: usize,
}

impl Counts {
    /// As the answer gives them.
    pub fn numbers(self) -> Vec<u64> {
        [self.lines, self.inputs, self.outputs].map(|count| count as u64).to_vec()
    }
}

impl Gate {
    /// The gate of a kind over these lines, as many as it has pins.
    fn of(kind: u8, [a, b, select]: [usize; 3]) -> Option<Gate> {
        Some(match kind {
            0 => Gate::Input,
            1 => Gate::Buffer(a),
            2 => Gate::Not(a),
            3 => Gate::And(a, b),
            4 => Gate::Nand(a, b),
            5 => Gate::Or(a, b),
            6 => Gate::Nor(a, b),
            7 => Gate::Xor(a, b),
            8 => Gate::Xnor(a, b),
            9 => Gate::Selector(a, b, select),
            _ => return None,
        })
    }
}

impl<S> Gate<S> {
    /// What its pins read, in order.
    pub fn sources(self) -> Vec<S> {
        match self {
            Gate::Input => vec![],
            Gate::Buffer(a) | Gate::Not(a) => vec![a],
            Gate::And(a, b) | Gate::Nand(a, b) | Gate::Or(a, b) | Gate::Nor(a, b) | Gate::Xor(a, b) | Gate::Xnor(a, b) => vec![a, b],
            Gate::Selector(a, b, select) => vec![a, b, select],
        }
    }

    /// The same gate over something else at each pin, made of the pin's number, from 1, and what it read.
    pub fn over<T>(self, mut pin: impl FnMut(usize, S) -> T) -> Gate<T> {
        match self {
            Gate::Input => Gate::Input,
            Gate::Buffer(a) => Gate::Buffer(pin(1, a)),
            Gate::Not(a) => Gate::Not(pin(1, a)),
            Gate::And(a, b) => Gate::And(pin(1, a), pin(2, b)),
            Gate::Nand(a, b) => Gate::Nand(pin(1, a), pin(2, b)),
            Gate::Or(a, b) => Gate::Or(pin(1, a), pin(2, b)),
            Gate::Nor(a, b) => Gate::Nor(pin(1, a), pin(2, b)),
            Gate::Xor(a, b) => Gate::Xor(pin(1, a), pin(2, b)),
            Gate::Xnor(a, b) => Gate::Xnor(pin(1, a), pin(2, b)),
            Gate::Selector(a, b, select) => Gate::Selector(pin(1, a), pin(2, b), pin(3, select)),
        }
    }

    /// What it makes of what its pins see.
    pub fn made(self, by: Rules<S>) -> S {
        match self {
            Gate::Input => by.input,
            Gate::Buffer(a) => a,
            Gate::Not(a) => (by.not)(a),
            Gate::And(a, b) => (by.and)(a, b),
            Gate::Nand(a, b) => (by.not)((by.and)(a, b)),
            Gate::Or(a, b) => (by.or)(a, b),
            Gate::Nor(a, b) => (by.not)((by.or)(a, b)),
            Gate::Xor(a, b) => (by.xor)(a, b),
            Gate::Xnor(a, b) => (by.not)((by.xor)(a, b)),
            Gate::Selector(a, b, select) => (by.selected)(a, b, select),
        }
    }

    /// The number of its kind.
    fn kind(&self) -> u8 {
        match self {
            Gate::Input => 0,
            Gate::Buffer(_) => 1,
            Gate::Not(_) => 2,
            Gate::And(..) => 3,
            Gate::Nand(..) => 4,
            Gate::Or(..) => 5,
            Gate::Nor(..) => 6,
            Gate::Xor(..) => 7,
            Gate::Xnor(..) => 8,
            Gate::Selector(..) => 9,
        }
    }
}

/// The source that stands at this byte of a record.
fn source(record: [u8; 8], at: usize) -> usize {
    usize::from(u16::from_le_bytes([record[at], record[at + 1]]))
}

/// The fields of a line's record that are not as they must be, each by its first byte. Where there is no such kind, both sources count as had.
pub fn bad_fields(number: usize, record: [u8; 8]) -> Vec<usize> {
    let had = match record[0] {
        0 => 0,
        1 | 2 => 1,
        9 => 3,
        _ => 2,
    };
    let bad = |field: usize| match field {
        0 => record[0] > 9,
        1 => record[1] > 1,
        source_at if source_at / 2 <= had => source(record, source_at) >= number,
        nothing_at => source(record, nothing_at) > 0,
    };
    [0, 1, 2, 4, 6].into_iter().filter(|&field| bad(field)).collect()
}

impl Line {
    /// The line of this number, or the byte of its record at which the first field begins that is not as it must be.
    fn read(number: usize, record: [u8; 8]) -> Result<Line, usize> {
        match bad_fields(number, record).first() {
            Some(&field) => Err(field),
            None => Ok(Line { gate: Gate::of(record[0], [2, 4, 6].map(|at| source(record, at))).expect("a kind"), output: record[1] == 1 }),
        }
    }

    /// Its record.
    fn write(&self) -> [u8; 8] {
        let mut record = [self.gate.kind(), u8::from(self.output), 0, 0, 0, 0, 0, 0];
        for (pin, source) in self.gate.sources().into_iter().enumerate() {
            record[2 * pin + 2..2 * pin + 4].copy_from_slice(&(source as u16).to_le_bytes());
        }
        record
    }
}

impl Circuit {
    /// Reads a circuit. Refusals 1, 2, 4 and 5.
    pub fn read(bytes: &[u8]) -> Result<Circuit, Refusal> {
        let lines = records(bytes, 2048)
            .ok_or(refusal(1, 0))?
            .enumerate()
            .map(|(number, record)| Line::read(number, record).map_err(|field| refusal(2, 8 * number + field)))
            .collect::<Result<_, _>>()?;
        let circuit = Circuit { lines };
        let Counts { inputs, outputs, .. } = circuit.counts();
        ensure(inputs <= 64, 4)?;
        ensure(outputs > 0, 5)?;
        Ok(circuit)
    }

    /// Its records.
    pub fn write(&self) -> Vec<u8> {
        self.lines.iter().flat_map(Line::write).collect()
    }

    pub fn counts(&self) -> Counts {
        Counts { lines: self.lines.len(), inputs: self.inputs().count(), outputs: self.outputs().count() }
    }

    /// The numbers of the lines that are inputs, in line order.
    pub fn inputs(&self) -> impl Iterator<Item = usize> + '_ {
        (0..self.lines.len()).filter(|&line| self.lines[line].gate == Gate::Input)
    }

    /// The numbers of the lines that are outputs, in line order.
    pub fn outputs(&self) -> impl Iterator<Item = usize> + Clone + '_ {
        (0..self.lines.len()).filter(|&line| self.lines[line].output)
    }
}

/// The circuit check.
pub fn check(bytes: &[u8]) -> Result<Counts, Refusal> {
    Circuit::read(bytes).map(|circuit| circuit.counts())
}
