//! A clocked circuit over several steps, as one circuit.
use crate::circuit::{is_records, read_file, Circuit};
use crate::clocked::Clocked;
use crate::commands::Command;
use crate::explain::{too_large, MOST_INPUTS};
use crate::fault::{self, Fault};
use crate::pattern::{self, Pattern};
use crate::problem::Problem;
use crate::words::{cited, is_digits};
use std::ffi::OsStr;
use std::path::Path;
use ullimaqsu::{Refusal, MOST_LINES};

/// The most steps.
const MOST_STEPS: u64 = 8;

const SIZE: u32 = 19;
const STEPS: u32 = 21;

pub struct Unfolded {
    pub clocked: Clocked,
    pub steps: u64,
    /// All steps: line G17 of step 2 is called G17@2.
    pub circuit: Circuit,
}

impl Unfolded {
    /// Of a file that is a text.
    pub fn load(path: &Path, steps: u64) -> Result<Unfolded, Problem> {
        let clocked = Clocked::load(path)?;
        let Clocked { circuit: one, states } = &clocked;
        let refused = |refusal| Problem::Refused(format!("{}: {}", one.file, says(&clocked, steps, refusal)));
        let records = unfolded(&one.records, states, steps).map_err(refused)?;
        let names = (1..=steps).flat_map(|step| one.names().iter().map(move |name| format!("{name}@{step}"))).collect();
        let mut circuit = Circuit::named(&one.file, records, names)?;
        circuit.called = "unfolded circuit";
        Ok(Unfolded { clocked, steps, circuit })
    }

    /// The library's table of at most 256 faults of the clocked circuit, each in all steps, and 256 patterns of the unfolded one.
    pub fn entries(&self, faults: &[Fault], patterns: &[Pattern]) -> Vec<u8> {
        let Clocked { circuit: one, states } = &self.clocked;
        let (mut table, mut work) = (vec![0; faults.len() * patterns.len()], vec![0; 2 * self.circuit.size()]);
        let (faults, patterns) = (fault::records(faults), pattern::bytes(patterns));
        ullimaqsu::unfold_dictionary(&one.records, states, self.steps, &faults, &patterns, &mut table, &mut work)
            .expect("a circuit that was unfolded, faults and patterns that were read, and memory of its exact size, are never refused");
        table
    }
}

/// The circuit of a file that is a text, with flip-flops or without, or records: of one step, in which a data line is seen as an output is.
pub fn one_step(path: &Path) -> Result<Circuit, Problem> {
    let (file, bytes) = read_file(path)?;
    if is_records(&bytes) {
        return Circuit::of_records(&file, bytes);
    }
    let Clocked { circuit, states } = Clocked::of_text(&file, &bytes)?;
    let records = unfolded(&circuit.records, &states, 1).expect("one step of a circuit that was read is never refused");
    Circuit::named(&file, records, circuit.names().to_vec())
}

/// The records of a circuit over so many steps.
pub fn unfolded(circuit: &[u8], states: &[u8], steps: u64) -> Result<Vec<u8>, Refusal> {
    // more steps than may be are refused before the size of the buffer is
    let mut records = vec![0; circuit.len() * steps.min(MOST_STEPS) as usize];
    ullimaqsu::unfold(circuit, states, steps, &mut records)?;
    Ok(records)
}

/// The number of steps that a word is.
pub fn steps(word: &OsStr, command: &Command) -> Result<u64, Problem> {
    let none = || command.misused(&format!("wants a number of steps, 1 to {MOST_STEPS}, and {} is none", cited(word)));
    word.to_str().filter(|word| is_digits(word)).and_then(|word| word.parse().ok()).ok_or_else(none)
}

/// What a refusal to unfold a circuit means.
fn says(clocked: &Clocked, steps: u64, refusal: Refusal) -> String {
    match refusal.number {
        STEPS => format!("a circuit is unfolded over 1 to {MOST_STEPS} steps, and {steps} are asked for"),
        SIZE => {
            let most = (1..steps).rev().find(|&fewer| too_large_over(clocked, fewer).is_none()).unwrap_or(1);
            let large = too_large_over(clocked, steps).unwrap_or_else(|| refusal.to_string());
            format!("over {steps} steps {large}; it can be unfolded over {most} at most")
        }
        _ => refusal.to_string(),
    }
}

/// What is too large over so many steps. The inputs that are no state lines come again in each.
fn too_large_over(clocked: &Clocked, steps: u64) -> Option<String> {
    let (steps, inputs) = (steps as usize, clocked.circuit.counts.inputs as usize);
    let lines = steps * clocked.circuit.size();
    let all_inputs = inputs + (steps - 1) * (inputs - clocked.states.len() / 4);
    let sizes = [(lines, "lines", MOST_LINES), (all_inputs, "inputs", MOST_INPUTS)];
    let (count, of, most) = sizes.into_iter().find(|(count, _, most)| count > most)?;
    Some(too_large("circuit", count, of, most))
}
