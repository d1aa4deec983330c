//! The dictionary program.
use crate::compact::{kept, Row};
use crate::dictionary::{Entry, Given};
use crate::refusal::Refusal;

/// The files of a directory; one that is absent is none.
#[derive(Clone, Debug, Default)]
pub struct Files {
    pub circuit: Option<Vec<u8>>,
    pub faults: Option<Vec<u8>>,
    pub patterns: Option<Vec<u8>>,
}

/// What is read of a file: at most one byte above its limit, and nothing of one that is absent.
fn read(file: &Option<Vec<u8>>, limit: usize) -> &[u8] {
    let bytes = file.as_deref().unwrap_or_default();
    &bytes[..bytes.len().min(limit + 1)]
}

fn table(files: &Files) -> Result<Vec<Row>, Refusal> {
    let given = Given::read(read(&files.circuit, 16_384), read(&files.faults, 2_048), read(&files.patterns, 16_384))?;
    Ok(given.rows())
}

fn line(number: usize, kept: bool, row: &Row) -> String {
    let letter = |entry: &Entry| match entry {
        Entry::Fail => 'F',
        Entry::Pass => 'P',
        Entry::Unknown => 'U',
    };
    format!("{number} {} {}\n", if kept { 'K' } else { 'D' }, row.iter().map(letter).collect::<String>())
}

/// What the program prints.
pub fn program(files: &Files) -> String {
    match table(files) {
        Err(Refusal { number, place }) => format!("refused {number} {place}\n"),
        Ok(rows) => {
            let kept = kept(&rows);
            rows.iter().enumerate().map(|(number, row)| line(number, kept.contains(&number), row)).collect()
        }
    }
}
