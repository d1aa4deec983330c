//! Circuits whose bound lines and head lines are named by hand.
use crate::circuits::{always_0, example_a, parity, record, selector, AND, BUFFER, INPUT, NAND, NOT, OR};

/// A circuit, and where its lines stand; those that are not named are free and no head lines.
pub struct Placed {
    pub name: &'static str,
    pub circuit: Vec<u8>,
    pub bound: Vec<usize>,
    pub heads: Vec<usize>,
}

fn placed(name: &'static str, circuit: Vec<u8>, bound: impl IntoIterator<Item = usize>, heads: impl IntoIterator<Item = usize>) -> Placed {
    Placed { name, circuit, bound: bound.into_iter().collect(), heads: heads.into_iter().collect() }
}

/// So many inputs, and then these records.
fn over(inputs: usize, gates: &[[u8; 8]]) -> Vec<u8> {
    [record(INPUT, false, 0, 0).repeat(inputs), gates.concat()].concat()
}

/// The lines of figure 1 by their letters; `m`, `p` and `u` are the ANDs that gates of three pins there begin with.
pub const FIGURE_1: &str = "ABCDEFGHIJKLmMNpPQRSTuU";

/// Figure 1 of document 001. Its text has no drawing: this circuit is one for which all holds that examples 1 and 2 say of it.
pub fn figure_1() -> Vec<u8> {
    let of = |letter| FIGURE_1.find(letter).expect("a line");
    let nand = |first, second| record(NAND, false, of(first), of(second));
    let and = |first, second| record(AND, false, of(first), of(second));
    let gates = [
        nand('A', 'B'),
        nand('G', 'H'),
        nand('C', 'I'),
        nand('F', 'J'),
        and('K', 'D'),
        nand('m', 'E'),
        nand('D', 'E'),
        and('D', 'E'),
        nand('p', 'L'),
        record(NOT, false, of('M'), 0),
        nand('N', 'K'),
        nand('N', 'L'),
        nand('Q', 'P'),
        and('R', 'S'),
        record(NAND, true, of('u'), of('T')),
    ];
    over(8, &gates)
}

/// The lines of figure 5 by their letters.
pub const FIGURE_5: &str = "ABCEFGHIJKLMNP";

/// Figure 5 of document 001, made of the values that its example 3 goes through.
pub fn figure_5() -> Vec<u8> {
    let of = |letter: char| FIGURE_5.find(letter).expect("a line");
    let nand = |[first, second]: [char; 2]| record(NAND, first == 'M', of(first), of(second));
    over(6, &[['A', 'B'], ['H', 'C'], ['E', 'F'], ['I', 'J'], ['A', 'J'], ['K', 'G'], ['L', 'K'], ['M', 'N']].map(nand))
}

/// The numbers of lines by their letters.
fn lettered(all: &'static str, some: &'static str) -> impl Iterator<Item = usize> {
    some.chars().map(move |letter| all.find(letter).expect("a line"))
}

pub fn every() -> Vec<Placed> {
    let not = |source| record(NOT, false, source, 0);
    let output = |kind, first, second| record(kind, true, first, second);
    vec![
        placed("figure 1", figure_1(), lettered(FIGURE_1, "mMNpPQRSTuU"), lettered(FIGURE_1, "DEKL")),
        placed("figure 5", figure_5(), lettered(FIGURE_5, "HIKLMNP"), lettered(FIGURE_5, "ABCGJ")),
        placed("one tree", example_a(), [], []),
        placed("a tree of 64 inputs", parity(), [], []),
        placed("every gate bound, the one input branches", always_0(), [1, 2], [0]),
        placed("a gate that reads a line with both pins", over(1, &[output(AND, 0, 0)]), [1], [0]),
        placed("a selector that reads its select as a source too", over(2, &[selector(true, 0, 1, 0)]), [2], [0, 1]),
        placed("being an output is no reading", [output(INPUT, 0, 0), output(NOT, 0, 0)].concat(), [], []),
        placed("a head line that is an output, and branches", over(2, &[output(AND, 0, 1), not(2), output(OR, 2, 3)]), [3, 4], [2]),
        placed(
            "a head line that is an output, and one pin of a bound gate reads it",
            over(3, &[not(0), record(AND, false, 0, 3), output(OR, 1, 2), output(NAND, 4, 5)]),
            [3, 4, 6],
            [0, 5],
        ),
        placed(
            "a free line that is an output, read by a gate of its tree, and one that nothing reads",
            over(4, &[output(NOT, 0, 0), record(OR, false, 4, 1), output(NAND, 2, 3), output(AND, 5, 5)]),
            [7],
            [5],
        ),
        placed(
            "no bound line and no head line is an output",
            over(2, &[not(0), record(AND, false, 0, 2), output(BUFFER, 1, 0)]),
            [2, 3],
            [0],
        ),
        placed(
            "a bound gate below a line that branches too",
            over(2, &[not(0), record(OR, false, 0, 1), output(AND, 3, 2), output(OR, 3, 4)]),
            [2, 3, 4, 5],
            [0, 1],
        ),
    ]
}
