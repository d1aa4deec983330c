//! The forms in which an answer is printed: a table for people, csv for spreadsheets, json for programs.
//!
//! Names are letters, digits and underscores, faults have a point and a stroke besides: no field of a csv needs quotes, and no string of a json
//! needs an escape.
use crate::commands::Command;
use crate::problem::Problem;
use crate::words::{Choice, Words};

#[derive(Clone, Copy, PartialEq, Eq, Debug)]
pub enum Form {
    Table,
    Csv,
    Json,
}

pub const CSV: Choice = Choice { name: "--csv", value: None, says: "prints comma-separated values" };
pub const JSON: Choice = Choice { name: "--json", value: None, says: "prints json" };

impl Form {
    /// The form that is asked for.
    pub fn of(words: &Words, command: &Command) -> Result<Form, Problem> {
        match (words.has(CSV.name), words.has(JSON.name)) {
            (true, true) => Err(command.misused("prints --csv or --json, not both")),
            (true, false) => Ok(Form::Csv),
            (false, true) => Ok(Form::Json),
            (false, false) => Ok(Form::Table),
        }
    }
}

/// A row of a csv.
pub fn csv_row<S: AsRef<str>>(fields: impl IntoIterator<Item = S>) -> String {
    joined(fields, ",") + "\n"
}

/// A string of a json.
pub fn quoted(text: impl AsRef<str>) -> String {
    format!("\"{}\"", text.as_ref())
}

/// A list of strings of a json.
pub fn list<S: AsRef<str>>(strings: impl IntoIterator<Item = S>) -> String {
    format!("[{}]", joined(strings.into_iter().map(quoted), ", "))
}

fn joined<S: AsRef<str>>(parts: impl IntoIterator<Item = S>, between: &str) -> String {
    parts.into_iter().map(|part| part.as_ref().to_string()).collect::<Vec<_>>().join(between)
}

/// "1 fault", "2 faults".
pub fn count(number: usize, of: &str) -> String {
    format!("{number} {of}{}", if number == 1 { "" } else { "s" })
}
