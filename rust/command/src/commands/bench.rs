//! The records of a text in the bench notation.
use super::Command;
use crate::circuit::{counted, is_records, NO_TEXT};
use crate::explain::{explain, MOST_BYTES};
use crate::files;
use crate::kind::Kind;
use crate::out::Out;
use crate::problem::{shown, Problem};
use crate::replace::{once_printed, Place};
use crate::words::Words;
use std::path::Path;
use ullimaqsu::{bench, check, Counts, Refusal, LARGEST_CIRCUIT};

pub const COMMAND: Command = Command {
    name: "bench",
    usage: "FILE [OUT]",
    wants: "a file, and perhaps where to write",
    counts: 1..=2,
    choices: &[],
    says: "reads a circuit in the bench notation and writes its records to circuit.rec beside FILE, or to OUT",
    more: "\
It says how many lines, inputs and outputs the circuit has; or `refused`, number and place, and what is wrong at which line and column of FILE.

OUT is replaced as a whole when all has gone well, the report included, and else stays. It is new or a regular file that is not write-protected, or a
link to one. A circuit with gates of three and more sources is refused; ullimaqsu narrow rewrites them. The notation has no name for a selector: a
circuit with selectors is written as records from the start, and a circuit.rec that has selectors is replaced only where it is named as OUT.",
    example: "ullimaqsu bench examples/bench/adder16.bench /tmp/adder16.rec",
    run,
};

fn run(words: &Words, out: &mut Out) -> Result<(), Problem> {
    let file = words.at(0);
    let text = files::read(file, MOST_BYTES + 1)?;
    let place = words.path(1).map_or_else(|| beside(file), |path| Place::find(path, &[file]))?;
    match records(&text) {
        Ok((records, counts)) => once_printed([(place, records)], counted(&counts), out),
        Err(refusal) => {
            out.print(&format!("refused {} {}\n", refusal.number, refusal.place))?;
            out.flush()?;
            let says = if is_records(&text) { NO_TEXT.to_string() } else { explain(&text, &refusal) };
            Err(Problem::Refused(format!("{}: {says}", shown(file))))
        }
    }
}

/// Where the records go if nothing else is said. Selectors that stand there stay: no text could make them again.
fn beside(file: &Path) -> Result<Place, Problem> {
    if !file.is_file() {
        return Err(Problem::Stopped(format!("{} is no regular file: say where its records go", shown(file))));
    }
    let place = Place::find(&file.with_file_name("circuit.rec"), &[file])?;
    if place.old.is_some() && has_selectors(&files::read(&place.path, LARGEST_CIRCUIT + 1)?) {
        return Err(Problem::Stopped(format!("{} has selectors, which no text has: say where the records go", place.shown)));
    }
    Ok(place)
}

/// Whether these are accepted records, and selectors among them.
fn has_selectors(records: &[u8]) -> bool {
    check(records).is_ok() && records.chunks_exact(8).any(|record| Kind::numbered(record[0]) == Kind::Selector)
}

fn records(text: &[u8]) -> Result<(Vec<u8>, Counts), Refusal> {
    let mut records = vec![0; LARGEST_CIRCUIT];
    let count = bench(text, &mut records)?;
    records.truncate(8 * count as usize);
    let counts = check(&records)?;
    Ok((records, counts))
}
