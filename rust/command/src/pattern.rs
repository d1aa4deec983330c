//! Patterns, a value for each input.
use crate::circuit::Circuit;
use crate::form::count;
use crate::lists::{self, is_blank, lines, place};
use crate::problem::Problem;
use crate::value::Value;
use std::path::Path;
use ullimaqsu::Refusal;

/// 0, 1, or 2 for X, one for each input in line order.
#[derive(Clone, PartialEq, Eq, Debug)]
pub struct Pattern(pub Vec<u8>);

impl Pattern {
    /// The pattern that is written so, or the byte of it at which something is wrong, and what.
    pub fn read(word: &str, circuit: &Circuit) -> Result<Pattern, (usize, String)> {
        let letters = || word.char_indices().filter(|(_, letter)| !is_blank(*letter));
        let one = |(at, letter)| Value::written(letter).ok_or_else(|| (at, format!("`{letter}` is none of 0, 1 and X")));
        let values = letters().map(one).collect::<Result<Vec<Value>, _>>()?;
        let inputs = circuit.counts.inputs as usize;
        if values.len() != inputs {
            // the first value too many, or where the next one would stand
            let at = letters().nth(inputs).map_or(word.trim_end_matches(is_blank).len(), |(at, _)| at);
            let [has, called] = [count(values.len(), "value"), format!("the {} has {}", circuit.called, count(inputs, "input"))];
            return Err((at, format!("this pattern has {has}, and {called}")));
        }
        Ok(Pattern(values.into_iter().map(|value| value as u8).collect()))
    }

    pub fn letters(&self) -> String {
        self.0.iter().map(|&value| Value::of(value).letter()).collect()
    }
}

/// The patterns of a file.
pub fn load(path: &Path, circuit: &Circuit) -> Result<Vec<Pattern>, Problem> {
    lists::load(path, "pattern", |text| of_text(text, circuit), |records| of_records(records, circuit))
}

fn of_records(bytes: &[u8], circuit: &Circuit) -> Result<Vec<Pattern>, String> {
    let inputs = circuit.counts.inputs as usize;
    if !bytes.len().is_multiple_of(inputs) {
        let (called, inputs) = (circuit.called, count(inputs, "input"));
        return Err(format!("the {called} has {inputs}, and {} bytes are no multiple of that", bytes.len()));
    }
    if let Some(place) = bytes.iter().position(|&byte| byte > 2) {
        return Err(Refusal::new(9, place as u64).to_string());
    }
    Ok(bytes.chunks_exact(inputs).map(|values| Pattern(values.to_vec())).collect())
}

fn of_text(bytes: &[u8], circuit: &Circuit) -> Result<Vec<Pattern>, String> {
    let written = (1..).zip(lines(bytes)).filter(|(_, line)| !line.trim_matches(is_blank).is_empty());
    written.map(|(number, line)| Pattern::read(&line, circuit).map_err(|(at, says)| place(number, at, &says))).collect()
}

/// Patterns as the library reads them, one after the other.
pub fn bytes(patterns: &[Pattern]) -> Vec<u8> {
    patterns.iter().flat_map(|pattern| pattern.0.iter().copied()).collect()
}
