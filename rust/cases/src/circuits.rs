//! Circuits that document 01 accepts, as the bytes of their records.
use crate::Random;

pub const INPUT: u8 = 0;
pub const BUFFER: u8 = 1;
pub const NOT: u8 = 2;
pub const AND: u8 = 3;
pub const NAND: u8 = 4;
pub const OR: u8 = 5;
pub const NOR: u8 = 6;
pub const XOR: u8 = 7;
pub const XNOR: u8 = 8;
pub const SELECTOR: u8 = 9;

/// How many sources a kind has.
pub fn sources(kind: u8) -> usize {
    match kind {
        INPUT => 0,
        BUFFER | NOT => 1,
        SELECTOR => 3,
        _ => 2,
    }
}

/// The record of a line, of a selector with line 0 for its select.
pub fn record(kind: u8, output: bool, first: usize, second: usize) -> [u8; 8] {
    let ([a0, a1], [b0, b1]) = ((first as u16).to_le_bytes(), (second as u16).to_le_bytes());
    [kind, output as u8, a0, a1, b0, b1, 0, 0]
}

/// The record of a selector.
pub fn selector(output: bool, first: usize, second: usize, select: usize) -> [u8; 8] {
    let mut record = record(SELECTOR, output, first, second);
    record[6..].copy_from_slice(&(select as u16).to_le_bytes());
    record
}

/// The record of a line that reads as many of these lines as its kind has pins.
pub fn gate(kind: u8, output: bool, mut read: [usize; 3]) -> [u8; 8] {
    read[sources(kind)..].fill(0);
    let [first, second, select] = read;
    match kind {
        SELECTOR => selector(output, first, second, select),
        _ => record(kind, output, first, second),
    }
}

/// A line's number at one of the pins of a record, from 1.
pub fn source(record: &[u8], pin: usize) -> usize {
    usize::from(u16::from_le_bytes([record[2 * pin], record[2 * pin + 1]]))
}

/// The first source, the second source and the select of each selector.
pub fn selectors(circuit: &[u8]) -> impl Iterator<Item = [usize; 3]> + '_ {
    circuit.chunks_exact(8).filter(|record| record[0] == SELECTOR).map(|record| [1, 2, 3].map(|pin| source(record, pin)))
}

/// A circuit of so many lines with so many inputs, the first line among them; the others stand anywhere. Kinds are any or, in some
/// circuits, nearly all the same; sources are near or far, often twice the same line, and a select is often one of them or an input; some
/// lines are read by nobody. There are few outputs or many, at least one, on inputs too.
pub fn circuit(random: &mut Random, lines: usize, inputs: usize) -> Vec<u8> {
    of_kinds(random, lines, inputs, SELECTOR)
}

/// The same of those kinds that the bench notation has a name for.
pub fn without_selectors(random: &mut Random, lines: usize, inputs: usize) -> Vec<u8> {
    of_kinds(random, lines, inputs, XNOR)
}

/// The same of gates up to this kind.
fn of_kinds(random: &mut Random, lines: usize, inputs: usize, last: u8) -> Vec<u8> {
    let mut input = vec![false; lines];
    input[0] = true;
    for left in (1..inputs.min(lines)).rev() {
        let line = if random.once_in(2) { inputs - left } else { random.below(lines) };
        let free = (line..lines).chain(0..line).find(|&line| !input[line]);
        input[free.expect("fewer inputs than lines")] = true;
    }
    let favourite = 1 + random.below(last.into()) as u8;
    let strict = random.once_in(4);
    let reach = random.pick(&[2, 5, lines]);
    let sparse = random.pick(&[1, 2, 5, lines]);
    let mut bytes = vec![];
    for line in 0..lines {
        let kind = match input[line] {
            true => INPUT,
            false if strict && !random.once_in(8) => favourite,
            false => 1 + random.below(last.into()) as u8,
        };
        let pins = sources(kind);
        let mut read = [0; 3];
        read[..pins].fill_with(|| line - 1 - random.below(reach.min(line)));
        if pins > 1 && random.once_in(6) {
            read[1] = read[0];
        }
        if pins > 2 {
            read[2] = match random.below(3) {
                0 => read[random.below(2)],
                1 => (0..=random.below(line)).rev().find(|&lower| input[lower]).expect("line 0"),
                _ => read[2],
            };
        }
        let output = random.once_in(sparse);
        bytes.extend(gate(kind, output, read));
    }
    need_output(random, &mut bytes);
    bytes
}

/// Makes a line an output, often the last one, where there is none.
pub fn need_output(random: &mut Random, circuit: &mut [u8]) {
    let lines = circuit.len() / 8;
    if outputs(circuit) == 0 {
        let line = if random.once_in(2) { lines - 1 } else { random.below(lines) };
        circuit[8 * line + 1] = 1;
    }
}

/// Example A of document 01: lines 0, 1, 2 inputs; 3 = AND(0, 1); 4 = OR(3, 2), output.
pub fn example_a() -> Vec<u8> {
    let inputs = record(INPUT, false, 0, 0).repeat(3);
    [&inputs[..], &record(AND, false, 0, 1), &record(OR, true, 3, 2)].concat()
}

/// Line 0 input, 1 = NOT 0, 2 = AND(0, 1), output, which is always 0.
pub fn always_0() -> Vec<u8> {
    [record(INPUT, false, 0, 0), record(NOT, false, 0, 0), record(AND, true, 0, 1)].concat()
}

/// Lines 0, 1 inputs; 2 = selector of 0 and 1 by 0; lines 1 and 2 outputs.
pub fn selecting() -> Vec<u8> {
    [record(INPUT, false, 0, 0), record(INPUT, true, 0, 0), selector(true, 0, 1, 0)].concat()
}

/// The parity of 64 inputs: nothing is known at its output, line 126, before all of them are.
pub fn parity() -> Vec<u8> {
    let mut circuit = record(INPUT, false, 0, 0).repeat(64);
    (1..64).for_each(|input| circuit.extend(record(XOR, input == 63, if input == 1 { 0 } else { 62 + input }, input)));
    circuit
}

/// A circuit of a few lines, now and then of one.
pub fn small(random: &mut Random) -> Vec<u8> {
    let most = random.pick(&[2, 4, 8, 16, 40]);
    let lines = 1 + random.below(most);
    let inputs = 1 + random.below(lines.min(64));
    circuit(random, lines, inputs)
}

/// A circuit of a few lines with seven inputs at most, so that no search is long.
pub fn few_inputs(random: &mut Random) -> Vec<u8> {
    let lines = 1 + random.below(30);
    let inputs = 1 + random.below(lines.min(7));
    circuit(random, lines, inputs)
}

fn outputs(circuit: &[u8]) -> usize {
    circuit.chunks_exact(8).filter(|record| record[1] == 1).count()
}
