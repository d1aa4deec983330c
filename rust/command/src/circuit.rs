//! A circuit, its lines by name.
use crate::explain::{explain, MOST_BYTES};
use crate::files;
use crate::kind::Kind;
use crate::notation::word_at;
use crate::problem::{shown, Problem};
use std::collections::HashMap;
use std::path::Path;
use ullimaqsu::{Counts, Refusal, LARGEST_CIRCUIT, MOST_LINES};

#[derive(Debug)]
pub struct Circuit {
    /// The file's name as it is shown.
    pub file: String,
    pub records: Vec<u8>,
    pub counts: Counts,
    /// What it is in messages about its inputs.
    pub called: &'static str,
    names: Vec<String>,
    lines: HashMap<String, usize>,
}

impl Circuit {
    /// Of a file that is a text or records.
    pub fn load(path: &Path) -> Result<Circuit, Problem> {
        let (file, bytes) = read_file(path)?;
        match is_records(&bytes) {
            true => Circuit::of_records(&file, bytes),
            false => Circuit::of_text(&file, &bytes),
        }
    }

    /// Of a text in the bench notation.
    pub fn of_text(file: &str, text: &[u8]) -> Result<Circuit, Problem> {
        let (records, names) = read_text(text).map_err(|refusal| Problem::Refused(format!("{file}: {}", explain(text, &refusal))))?;
        Circuit::named(file, records, names)
    }

    /// Of records, whose names are their numbers.
    pub fn of_records(file: &str, records: Vec<u8>) -> Result<Circuit, Problem> {
        let names = (0..records.len() / 8).map(|line| line.to_string()).collect();
        Circuit::named(file, records, names)
    }

    /// Of records whose lines have these names.
    pub fn named(file: &str, records: Vec<u8>, names: Vec<String>) -> Result<Circuit, Problem> {
        let counts = ullimaqsu::check(&records).map_err(|refusal| Problem::Refused(format!("{file}: {refusal}")))?;
        let lines = names.iter().cloned().zip(0..).collect();
        Ok(Circuit { file: file.to_string(), records, counts, called: "circuit", names, lines })
    }

    pub fn size(&self) -> usize {
        self.names.len()
    }

    pub fn name(&self, line: usize) -> &str {
        &self.names[line]
    }

    pub fn names(&self) -> &[String] {
        &self.names
    }

    /// The line of this name.
    pub fn line(&self, name: &str) -> Option<usize> {
        self.lines.get(name).copied()
    }

    fn record(&self, line: usize) -> &[u8] {
        &self.records[8 * line..8 * line + 8]
    }

    pub fn kind(&self, line: usize) -> Kind {
        Kind::numbered(self.record(line)[0])
    }

    /// The line that a pin reads, 1 to 3.
    pub fn source(&self, line: usize, pin: usize) -> usize {
        let record = self.record(line);
        usize::from(u16::from_le_bytes([record[2 * pin], record[2 * pin + 1]]))
    }

    /// The lines that its pins read, in order.
    pub fn sources(&self, line: usize) -> Vec<usize> {
        (1..=self.kind(line).pins()).map(|pin| self.source(line, pin)).collect()
    }

    /// Its name, its kind and the names of its sources, as tables have them.
    pub fn cells(&self, line: usize) -> [String; 3] {
        let sources: Vec<&str> = self.sources(line).into_iter().map(|source| self.name(source)).collect();
        [self.name(line).to_string(), self.kind(line).word().to_string(), sources.join(" ")]
    }

    pub fn is_output(&self, line: usize) -> bool {
        self.record(line)[1] == 1
    }

    /// The lines that are inputs, in order.
    pub fn inputs(&self) -> Vec<usize> {
        (0..self.size()).filter(|&line| self.kind(line) == Kind::Input).collect()
    }
}

/// The name of a circuit's file as it is shown, and its bytes.
pub fn read_file(path: &Path) -> Result<(String, Vec<u8>), Problem> {
    // one byte above the limit: what is longer, a text or records, is refused by the same number, whatever follows
    Ok((shown(path), files::read(path, MOST_BYTES + 1)?))
}

/// Accepted records begin with a 0: their first line is an input. Records whose first line is a gate are told as such too: no right text begins
/// with a byte below 9, nor with a 9, which is a tab and the kind of a selector, and then one below 9.
pub fn is_records(bytes: &[u8]) -> bool {
    matches!(bytes, [0..b'\t', ..] | [b'\t', 0..b'\t', ..])
}

/// What is said of records where a text alone is read.
pub const NO_TEXT: &str = "these are records, and not a text in the bench notation";

/// The numbers of a circuit, as they are printed.
pub fn counted(counts: &Counts) -> String {
    format!("lines {}, inputs {}, outputs {}\n", counts.lines, counts.inputs, counts.outputs)
}

/// The records of a text, and the names of their lines.
pub fn read_text(text: &[u8]) -> Result<(Vec<u8>, Vec<String>), Refusal> {
    let mut records = vec![0; LARGEST_CIRCUIT];
    let count = ullimaqsu::bench(text, &mut records)? as usize;
    records.truncate(8 * count);
    let mut places = [0; MOST_LINES];
    ullimaqsu::bench_names(text, &mut places)?;
    Ok((records, places[..count].iter().map(|&place| word_at(text, place as usize).letters()).collect()))
}
