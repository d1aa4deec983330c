//! A text with gates of three and more sources as one that the library reads.
use super::Command;
use crate::circuit::{is_records, NO_TEXT};
use crate::files;
use crate::narrow::narrowed;
use crate::out::Out;
use crate::problem::{shown, Problem};
use crate::replace::write_or_print;
use crate::words::{Choice, Words};

/// The most bytes of a text that is rewritten.
const MOST_BYTES: usize = 1 << 20;

pub const COMMAND: Command = Command {
    name: "narrow",
    usage: "FILE [-o OUT]",
    wants: "a file in the bench notation",
    counts: 1..=1,
    choices: &[Choice { name: "-o", value: Some("OUT"), says: "writes the text to OUT" }],
    says: "rewrites gates of three and more sources as trees of gates of two, which the other commands read",
    more: "\
Such a gate becomes a balanced tree: y = NAND(a, b, c, d) becomes y_1 = AND(a, b), y_2 = AND(c, d) and y = NAND(y_1, y_2). The gates that are made
stand in lines before the gate's own, and their names, of 16 letters at most, are no names of the text. Every name of the text keeps its value under
every pattern, X's included. Comments, blanks, line ends and all other lines, those of flip-flops among them, stay as they are; only keywords in small
letters are put in capitals, and BUF becomes BUFF.

FILE has at most 1 MiB. What is no text of the notation but for such gates and keywords is refused with line and column, as is an AND or OR of one
source. What then has more than 32,768 bytes or 2,048 lines is refused too. Of what is refused nothing is written.",
    example: "ullimaqsu narrow examples/wide.bench",
    run,
};

fn run(words: &Words, out: &mut Out) -> Result<(), Problem> {
    let file = words.at(0);
    let text = files::read(file, MOST_BYTES + 1)?;
    if text.len() > MOST_BYTES {
        return Err(Problem::Stopped(format!("{} has more than {} MiB", shown(file), MOST_BYTES >> 20)));
    }
    let narrow = if is_records(&text) { Err(NO_TEXT.to_string()) } else { narrowed(&text) };
    let narrow = narrow.map_err(|says| Problem::Refused(format!("{}: {says}", shown(file))))?;
    write_or_print(words.place("-o", &[file])?, &narrow, out)
}
