//! All faults of a circuit.
use super::Command;
use crate::collapse::collapsed;
use crate::fault;
use crate::out::Out;
use crate::problem::Problem;
use crate::replace::write_or_print;
use crate::unfolded::one_step;
use crate::words::{Choice, Words};

pub const COMMAND: Command = Command {
    name: "faults",
    usage: "CIRCUIT [--pins] [--collapse] [-o FILE]",
    wants: "a circuit",
    counts: 1..=1,
    choices: &[
        Choice { name: "--pins", value: None, says: "also the faults at the pins of gates" },
        Choice { name: "--collapse", value: None, says: "of faults that are equivalent by their gates or wires the first alone" },
        Choice { name: "-o", value: Some("FILE"), says: "writes them to FILE" },
    ],
    says: "lists all faults of a circuit by name, one a line",
    more: "\
For each line NAME in order NAME/0 and NAME/1, stuck at 0 and at 1; with --pins then NAME.1/0, NAME.1/1, NAME.2/0, NAME.2/1, NAME.3/0 and
NAME.3/1, as far as it has these pins; pin 3 is the select of a selector.

--collapse leaves out what textbooks call equivalent: a pin of an AND at 0 and its line at 0, of a NAND at 0 and its line at 1, of an OR at 1 and its
line at 1, of a NOR at 1 and its line at 0, the pin and the line of a BUFF or NOT; and a line that one pin alone reads, and that is no output, with that
pin.

A text may have flip-flops, as for dictionary --steps. Each has the faults of its line, and none at a pin. What it takes over counts as an output.",
    example: "ullimaqsu faults examples/bench/c17.bench --pins --collapse",
    run,
};

fn run(words: &Words, out: &mut Out) -> Result<(), Problem> {
    let path = words.at(0);
    let circuit = one_step(path)?;
    let mut faults = fault::all(&circuit, words.has("--pins"));
    if words.has("--collapse") {
        faults = collapsed(&circuit, faults);
    }
    let text: String = faults.iter().map(|fault| fault.named(&circuit) + "\n").collect();
    write_or_print(words.place("-o", &[path])?, text.as_bytes(), out)
}
