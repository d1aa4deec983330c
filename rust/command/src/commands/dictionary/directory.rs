//! The dictionary of a directory's records, as the dictionary program prints it.
mod parts;

use super::{COMMAND, STEPS};
use crate::entry::Entry;
use crate::files::unreadable;
use crate::form::Form;
use crate::marks;
use crate::out::Out;
use crate::problem::{shown, Problem};
use crate::unfolded::unfolded;
use parts::Parts;
use std::fs;
use std::io::ErrorKind;
use std::path::Path;
use ullimaqsu::{refusals, Refusal};

pub fn run(directory: &Path, steps: Option<u64>, form: Form, out: &mut Out) -> Result<(), Problem> {
    is_directory(directory)?;
    if form != Form::Table {
        return Err(COMMAND.misused("prints a directory in no other form"));
    }
    let parts = Parts::load(directory, steps)?;
    match listing(&parts) {
        Ok(listing) => out.print(&listing),
        Err(refusal) => refuse(&parts, refusal, out),
    }
}

/// Or why not.
fn is_directory(directory: &Path) -> Result<(), Problem> {
    match fs::metadata(directory) {
        Ok(found) if found.is_dir() => Ok(()),
        Ok(_) => Err(COMMAND.misused(&format!("wants {}, and {} is a file", COMMAND.wants, shown(directory)))),
        Err(error) if error.kind() == ErrorKind::NotFound => Err(Problem::Stopped(format!("there is no directory {}", shown(directory)))),
        Err(error) => Err(unreadable(directory, error)),
    }
}

/// A line for each pattern: its number, K kept or D dropped, and the letter of each fault.
fn listing(parts: &Parts) -> Result<String, Refusal> {
    let fault_count = parts.faults.bytes.len() / 8;
    let table = match &parts.clocked {
        None => entries(parts, fault_count)?,
        Some((steps, states)) => entries_over(parts, *steps, &states.bytes, fault_count)?,
    };
    let pattern_count = table.len() / fault_count;
    let mut marks = vec![0; pattern_count];
    ullimaqsu::compact(fault_count as u64, pattern_count as u64, &table, &mut marks)?;
    let line = |(number, (entries, mark)): (usize, (&[u8], &u8))| {
        let letters: String = entries.iter().map(|&entry| Entry::of(entry).letter()).collect();
        format!("{number} {} {letters}\n", marks::letter(*mark))
    };
    Ok(table.chunks_exact(fault_count).zip(&marks).enumerate().map(line).collect())
}

/// The table. Where there is one, there are faults.
fn entries(Parts { circuit, faults, patterns, .. }: &Parts, fault_count: usize) -> Result<Vec<u8>, Refusal> {
    let counts = ullimaqsu::check(&circuit.bytes)?;
    let pattern_count = patterns.bytes.len() / counts.inputs as usize;
    let (mut table, mut work) = (vec![0; fault_count * pattern_count], vec![0; 4 * counts.lines as usize]);
    ullimaqsu::dictionary_lanes(&circuit.bytes, &faults.bytes, &patterns.bytes, &mut table, &mut work)?;
    Ok(table)
}

/// The same over several clock steps.
fn entries_over(parts: &Parts, steps: u64, states: &[u8], fault_count: usize) -> Result<Vec<u8>, Refusal> {
    let Parts { circuit, faults, patterns, .. } = parts;
    let counts = ullimaqsu::check(&unfolded(&circuit.bytes, states, steps)?)?;
    let pattern_count = patterns.bytes.len() / counts.inputs as usize;
    let (mut table, mut work) = (vec![0; fault_count * pattern_count], vec![0; 2 * counts.lines as usize]);
    ullimaqsu::unfold_dictionary(&circuit.bytes, states, steps, &faults.bytes, &patterns.bytes, &mut table, &mut work)?;
    Ok(table)
}

/// Prints the refusal, and says what it means, of which file, and which files are absent.
fn refuse(parts: &Parts, refusal: Refusal, out: &mut Out) -> Result<(), Problem> {
    out.print(&format!("refused {} {}\n", refusal.number, refusal.place))?;
    out.flush()?;
    let of = match (refusal.number, &parts.clocked) {
        (21, Some((steps, _))) => format!("{STEPS} {steps}"),
        (18, Some((_, states))) => shown(&states.path),
        (1..=5 | 19, _) => shown(&parts.circuit.path),
        (6 | 7, _) => shown(&parts.faults.path),
        _ => shown(&parts.patterns.path),
    };
    let says = says(parts, refusal);
    let absent = parts.all().filter(|part| part.absent).map(|part| format!("there is no file {}", shown(&part.path)));
    let mut lines: Vec<String> = [format!("{of}: {says}")].into_iter().chain(absent).collect();
    let last = lines.pop().expect("one line at least");
    lines.into_iter().for_each(|line| Problem::Refused(line).tell());
    Err(Problem::Refused(last))
}

/// What a refusal means. No record is at fault where the last state record is cut off, and then the words have no place.
fn says(parts: &Parts, refusal: Refusal) -> String {
    let is_cut = parts.clocked.as_ref().is_some_and(|(_, states)| !states.bytes.len().is_multiple_of(4));
    match refusals().find(|meaning| meaning.number == refusal.number) {
        Some(meaning) if meaning.number == 18 && is_cut => meaning.says.to_string(),
        _ => {
            let words = refusal.to_string();
            words.split_once(": ").map_or(words.as_str(), |(_, says)| says).to_string()
        }
    }
}
