//! The field of a circuit record that refusal 2 is about.
use crate::refusal::HEADER;
use std::fmt;

/// A field that breaks its rule, with the words of the header.
#[derive(Clone, Copy, Debug, PartialEq, Eq)]
pub struct BadField {
    /// The number of its line.
    pub line: u64,
    /// Its first byte in the circuit.
    pub byte: u64,
    /// What it is called.
    pub name: &'static str,
    /// The number that stands there.
    pub value: u16,
    /// What is wrong with that number.
    pub wrong: &'static str,
}

/// What the header says of a field.
struct Field {
    /// Its first byte in the record.
    first: usize,
    /// The first of the kinds that have it.
    kind: u16,
    name: &'static str,
    /// What is wrong with its number where the kind has it, and where it lacks it.
    had: &'static str,
    lacked: &'static str,
}

/// A row of the header's table: `each(FIRST BYTE, KIND, "name", "what is wrong where it is had", "where it is lacked")`.
fn field(line: &'static str) -> Option<Field> {
    let (numbers, words) = line.trim_start().strip_prefix("each(")?.split_once('"')?;
    let (first, kind) = numbers.trim_end_matches([',', ' ']).split_once(',')?;
    let mut words = words.split('"').step_by(2);
    Some(Field {
        first: first.parse().ok()?,
        kind: kind.trim().parse().ok()?,
        name: words.next()?,
        had: words.next()?,
        lacked: words.next()?,
    })
}

impl BadField {
    /// What stands at the place of refusal 2.
    pub(crate) fn at(place: u64, circuit: &[u8]) -> Option<BadField> {
        let first = (place % 8) as usize;
        let record = circuit.chunks_exact(8).nth(usize::try_from(place / 8).ok()?)?;
        let Field { kind, name, had, lacked, .. } = HEADER.lines().filter_map(field).find(|field| field.first == first)?;
        let value = match first {
            0 | 1 => record[first].into(),
            _ => u16::from_le_bytes([record[first], record[first + 1]]),
        };
        let wrong = if kind <= record[0].into() { had } else { lacked };
        Some(BadField { line: place / 8, byte: place, name, value, wrong })
    }
}

impl fmt::Display for BadField {
    fn fmt(&self, f: &mut fmt::Formatter) -> fmt::Result {
        let BadField { line, byte, name, value, wrong } = self;
        write!(f, "line {line}, {name} (byte {byte}): {value} {wrong}")
    }
}
