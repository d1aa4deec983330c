//! Marks of patterns: K kept, D dropped.
use crate::form::count;
use crate::lists::{self, is_blank, lines, place};
use crate::problem::{shown, Problem};
use std::path::Path;

/// The letter of a mark.
pub fn letter(mark: u8) -> char {
    if mark == 1 {
        'K'
    } else {
        'D'
    }
}

/// The marks of so many patterns: letters, or the library's bytes, of which the audit says whether they are marks.
pub fn load(path: &Path, patterns: usize) -> Result<Vec<u8>, Problem> {
    let marks = lists::load(path, "mark", of_text, |bytes| Ok(bytes.to_vec()))?;
    match marks.len() == patterns {
        true => Ok(marks),
        false => {
            let (marks, patterns) = (count(marks.len(), "mark"), count(patterns, "pattern"));
            Err(Problem::Refused(format!("{} has {marks} for {patterns}", shown(path))))
        }
    }
}

fn of_text(bytes: &[u8]) -> Result<Vec<u8>, String> {
    let mut marks = Vec::new();
    for (number, line) in (1..).zip(lines(bytes)) {
        for (at, mark) in line.char_indices().filter(|(_, letter)| !is_blank(*letter)) {
            marks.push(match mark {
                'K' | 'k' => 1,
                'D' | 'd' => 0,
                other => return Err(place(number, at, &format!("`{other}` is neither K nor D"))),
            });
        }
    }
    Ok(marks)
}
