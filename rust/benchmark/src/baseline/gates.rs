//! The gate rule in Rust: by branches over the kind, and as a table whose rows are digits of a number, as the proved code has it.

pub trait Gates {
    /// The value of a gate whose pins see `a` and `b`.
    fn value(kind: u8, a: u8, b: u8) -> u8;

    /// That of a selector, which sees `select` too.
    fn selected(a: u8, b: u8, select: u8) -> u8;
}

pub struct Branches;

pub struct Table;

fn not(a: u8) -> u8 {
    match a {
        0 => 1,
        1 => 0,
        _ => 2,
    }
}

fn and(a: u8, b: u8) -> u8 {
    match (a, b) {
        (0, _) | (_, 0) => 0,
        (1, 1) => 1,
        _ => 2,
    }
}

fn or(a: u8, b: u8) -> u8 {
    match (a, b) {
        (1, _) | (_, 1) => 1,
        (0, 0) => 0,
        _ => 2,
    }
}

fn xor(a: u8, b: u8) -> u8 {
    match (a, b) {
        (0 | 1, 0 | 1) => (a != b) as u8,
        _ => 2,
    }
}

impl Gates for Branches {
    fn value(kind: u8, a: u8, b: u8) -> u8 {
        match kind {
            1 => a.min(2),
            2 => not(a),
            3 => and(a, b),
            4 => not(and(a, b)),
            5 => or(a, b),
            6 => not(or(a, b)),
            7 => xor(a, b),
            8 => not(xor(a, b)),
            _ => 2,
        }
    }

    fn selected(a: u8, b: u8, select: u8) -> u8 {
        match select {
            0 => a.min(2),
            1 => b.min(2),
            _ if a == b => a.min(2),
            _ => 2,
        }
    }
}

/// By kind: a row of digits for each value of the first source, a digit in it for each of the second.
const TABLE: [u64; 9] = [
    0x2222_2222_2222_2222, // input
    0x0000_1111_2222_2222, // buffer
    0x1111_0000_2222_2222, // NOT
    0x0000_0122_0222_0222, // AND
    0x1111_1022_1222_1222, // NAND
    0x0122_1111_2122_2122, // OR
    0x1022_0000_2022_2022, // NOR
    0x0122_1022_2222_2222, // XOR
    0x1022_0122_2222_2222, // XNOR
];

/// By the select.
const SELECTED: [u64; 3] = [0x0000_1111_2222_2222, 0x0122_0122_0122_0122, 0x0222_2122_2222_2222];

fn digit(block: u64, a: u8, b: u8) -> u8 {
    (block.wrapping_shl(16 * u32::from(a) + 4 * u32::from(b)) >> 60) as u8
}

impl Gates for Table {
    fn value(kind: u8, a: u8, b: u8) -> u8 {
        TABLE.get(kind as usize).map_or(2, |&block| digit(block, a, b))
    }

    fn selected(a: u8, b: u8, select: u8) -> u8 {
        digit(SELECTED[select.min(2) as usize], a, b)
    }
}
