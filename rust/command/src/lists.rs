//! Lists: files of faults, patterns or marks, that people write in lines with blanks and comments, or that are records.
use crate::files;
use crate::problem::{shown, Problem};
use std::borrow::Cow;
use std::path::Path;

/// The most bytes of a list.
const MOST: usize = 16 << 20;

/// The list of a file, which has one thing at least; a text and records are read each in its own way, or say what is wrong.
pub fn load<T>(
    path: &Path,
    of: &str,
    of_text: impl Fn(&[u8]) -> Result<Vec<T>, String>,
    of_records: impl Fn(&[u8]) -> Result<Vec<T>, String>,
) -> Result<Vec<T>, Problem> {
    let bytes = files::read(path, MOST + 1)?;
    if bytes.len() > MOST {
        return Err(Problem::Stopped(format!("{} has more than {} MiB", shown(path), MOST >> 20)));
    }
    match if is_records(&bytes) { of_records(&bytes) } else { of_text(&bytes) } {
        Ok(list) if list.is_empty() => Err(Problem::Refused(format!("{} has no {of}", shown(path)))),
        Ok(list) => Ok(list),
        Err(says) => Err(Problem::Refused(format!("{}: {says}", shown(path)))),
    }
}

/// A text has no byte below 9, which is a tab; the library's records do.
fn is_records(bytes: &[u8]) -> bool {
    bytes.iter().any(|&byte| byte < 9)
}

/// The lines of a list, each without its comment.
pub fn lines(bytes: &[u8]) -> impl Iterator<Item = Cow<'_, str>> {
    bytes.split(|&byte| byte == b'\n').map(|line| {
        let end = line.iter().position(|&byte| byte == b'#').unwrap_or(line.len());
        String::from_utf8_lossy(&line[..end])
    })
}

pub fn is_blank(letter: char) -> bool {
    matches!(letter, ' ' | '\t' | '\r')
}

/// The words between blanks, each with the byte of the line at which it begins.
pub fn words(line: &str) -> impl Iterator<Item = (usize, &str)> {
    line.split(is_blank).scan(0, |at, word| Some((std::mem::replace(at, *at + word.len() + 1), word))).filter(|(_, word)| !word.is_empty())
}

/// What is wrong at this byte of the line of this number, from 1.
pub fn place(number: usize, byte: usize, says: &str) -> String {
    format!("line {number}, column {}: {says}", byte + 1)
}
