//! How hard is a line to set?
use super::Command;
use crate::chance::{Chance, FLOOR};
use crate::circuit::Circuit;
use crate::columns;
use crate::out::Out;
use crate::problem::Problem;
use crate::words::Words;

pub const COMMAND: Command = Command {
    name: "control",
    usage: "CIRCUIT",
    wants: "a circuit",
    counts: 1..=1,
    choices: &[],
    says: "says how hard each line is to set, to 1 and to 0, the hardest line last",
    more: "\
Prints for each line its chance of 1 and its chance of 0, each of them 1 or a power of one half. It is a measure for comparing lines: roughly, how
likely it is that the line can be given that value where no line is set more than once. Rows go by the smaller of the two chances, the easiest line
first, then by the larger, and then in the order of the lines.

An input has 1 and 1, and a BUFF what its pin sees. An AND has for 1 the product of what its pins see, as both must be 1, and for 0 the larger, as one
will do. An OR has it the other way round; NOT, NAND, NOR and XNOR exchange 1 and 0. An XOR has for each value the larger of the two products that give
it. A selector has the larger of two products: its select at 0 with its first source, and at 1 with its second. A pin sees what the line has that it
reads, but half of that where two or more pins read the line: its branches may meet again, and there ask for both of its values.

It is no probability under random inputs, and only the order of the chances says something. What is smaller than 2^-500 becomes 2^-500; where that comes
up, a last line says so.",
    example: "ullimaqsu control examples/bench/c17.bench",
    run,
};

fn run(words: &Words, out: &mut Out) -> Result<(), Problem> {
    let circuit = Circuit::load(words.at(0))?;
    let mut rows = Row::all(&circuit)?;
    // rows that are equal in this stay in the order of the lines
    rows.sort_by_key(Row::hardness);
    out.print(&table(&rows))
}

/// A line with its chances.
struct Row<'a> {
    line: &'a str,
    one: Chance,
    zero: Chance,
}

impl Row<'_> {
    /// Of all lines, in their order.
    fn all(circuit: &Circuit) -> Result<Vec<Row<'_>>, Problem> {
        let (mut ones, mut zeros) = (vec![0.0; circuit.size()], vec![0.0; circuit.size()]);
        ullimaqsu::control(&circuit.records, &mut ones, &mut zeros)
            .expect("a circuit that was read, and memory of its exact size, are never refused");
        (0..circuit.size()).map(|line| Row::of(circuit.name(line), ones[line], zeros[line])).collect()
    }

    fn of(line: &str, one: f64, zero: f64) -> Result<Row<'_>, Problem> {
        Ok(Row { line, one: Chance::of(one, line)?, zero: Chance::of(zero, line)? })
    }

    /// The value that is harder to set, and then the other.
    fn hardness(&self) -> (Chance, Chance) {
        (self.one.max(self.zero), self.one.min(self.zero))
    }

    fn cells(&self) -> Vec<String> {
        vec![self.line.to_string(), self.one.to_string(), self.zero.to_string()]
    }
}

fn table(rows: &[Row]) -> String {
    let heads = ["line", "chance of 1", "chance of 0"].map(String::from).to_vec();
    let cells: Vec<_> = [heads].into_iter().chain(rows.iter().map(Row::cells)).collect();
    // the hardest is the last
    let has_floor = rows.last().is_some_and(|row| row.hardness().0 == FLOOR);
    let foot = if has_floor { format!("{FLOOR} stands for every smaller chance too\n") } else { String::new() };
    columns::table(&cells) + &foot
}
