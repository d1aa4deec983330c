//! Ways to spoil what is accepted. One damage may hide another, or do nothing: the second program says what is then right.
use crate::circuits::{record, sources, BUFFER, INPUT, SELECTOR};
use crate::suspects::MARKS;
use crate::texts::BYTES;
use crate::Random;

/// Cuts, lengthens or empties a file.
fn resize(random: &mut Random, bytes: &mut Vec<u8>) {
    let len = bytes.len();
    let new = match random.below(5) {
        0 => 0,
        1 => random.below(len + 1),
        2 => len + 8,
        _ => len + 1 + random.below(7),
    };
    let more = random.pick(&[0, 1, 2, 255]);
    bytes.resize(new, more);
}

/// Changes one byte to a value that may matter.
fn change(random: &mut Random, bytes: &mut [u8]) {
    if let Some(last) = bytes.len().checked_sub(1) {
        let at = random.below(last + 1);
        bytes[at] = match random.below(4) {
            0 => bytes[at] ^ 1 << random.below(8),
            1 => random.byte(),
            _ => random.pick(&[0, 1, 2, 3, 8, 9, 10, 255]),
        };
    }
}

/// Spoils one field of one circuit record.
fn spoil_line(random: &mut Random, bytes: &mut [u8]) {
    let lines = bytes.len() / 8;
    if lines == 0 {
        return;
    }
    let line = random.below(lines);
    let record = &mut bytes[8 * line..8 * line + 8];
    let source = (line + random.pick(&[0, 1, 256])) as u16;
    match random.below(8) {
        0 => record[0] = if random.once_in(2) { SELECTOR + 1 } else { 10 + random.below(246) as u8 },
        1 => record[1] = 2 + random.below(254) as u8,
        2 => record[2..4].copy_from_slice(&source.to_le_bytes()),
        3 => record[4..6].copy_from_slice(&source.to_le_bytes()),
        4 => record[6..8].copy_from_slice(&source.to_le_bytes()),
        5 => record[6 + random.below(2)] = 1 + random.below(255) as u8,
        6 => record[0] = random.below(12) as u8, // a kind that may have other pins, or none
        _ => record[2 + 2 * sources(record[0]).min(2)] = 1, // the first source that the kind lacks, or the last of a selector
    }
}

/// Does one damage to a circuit.
pub fn circuit(random: &mut Random, bytes: &mut Vec<u8>) {
    match random.below(64) {
        0 => bytes.extend(record(INPUT, false, 0, 0).repeat(64 - random.below(8))),
        1 => bytes.extend(record(BUFFER, true, 0, 0).repeat(random.pick(&[1, 256, 2048 - 30, 2048]))),
        2..=17 => bytes.chunks_exact_mut(8).for_each(|record| record[1] &= 0xfe),
        18..=31 => resize(random, bytes),
        32..=47 => spoil_line(random, bytes),
        _ => change(random, bytes),
    }
}

/// Does one damage to the faults of a circuit of so many lines.
pub fn faults(random: &mut Random, bytes: &mut Vec<u8>, lines: usize) {
    let records = bytes.len() / 8;
    match random.below(16) {
        0 => bytes.extend(vec![0; 8 * random.pick(&[1, 255, 256, 257])]),
        1..=3 => resize(random, bytes),
        4..=9 if records > 0 => {
            let record = &mut bytes[8 * random.below(records)..][..8];
            match random.below(4) {
                0 => record[..2].copy_from_slice(&((lines + random.pick(&[0, 1, 256])) as u16).to_le_bytes()),
                1 => record[2] = random.pick(&[1, 2, 3, 4, 255]),
                2 => record[3] = random.pick(&[2, 3, 255]),
                _ => record[4 + random.below(4)] = random.pick(&[1, 128]),
            }
        }
        _ => change(random, bytes),
    }
}

/// Does one damage to the state records of a circuit of so many lines: a byte too many or too few, a record more, a line that may be none, no
/// input or another record's, also by its second byte alone.
pub fn states(random: &mut Random, bytes: &mut Vec<u8>, lines: usize) {
    let records = bytes.len() / 4;
    match random.below(8) {
        0 => bytes.truncate(bytes.len().saturating_sub(1 + random.below(3))),
        1 => bytes.extend(vec![0; 1 + random.below(4)]),
        2 => bytes.extend([random.below(lines + 2), random.below(lines + 2)].map(|line| (line as u16).to_le_bytes()).concat()),
        3 if records > 0 => bytes.extend_from_within(4 * random.below(records)..),
        4..=6 if records > 0 => {
            let field = &mut bytes[4 * random.below(records) + 2 * random.below(2)..][..2];
            match random.below(3) {
                0 => field.copy_from_slice(&((lines + random.pick(&[0, 1, 256])) as u16).to_le_bytes()),
                1 => field.copy_from_slice(&(random.below(lines) as u16).to_le_bytes()),
                _ => field[1] = random.pick(&[1, 128, 255]),
            }
        }
        _ => change(random, bytes),
    }
}

/// Another number of steps, near to the right one or far from it.
pub fn steps(random: &mut Random, right: u64) -> u64 {
    let near = [right.wrapping_add(1), right.wrapping_sub(1), right.wrapping_add(256), right.wrapping_add(1 << 32)];
    let far = [0, 8, 9, 1 << 63, u64::MAX];
    random.pick(&[&near[..], &far].concat())
}

/// Does one damage to patterns.
pub fn patterns(random: &mut Random, bytes: &mut Vec<u8>) {
    match random.below(16) {
        0 if bytes.len() < 1000 => *bytes = bytes.repeat(random.pick(&[2, 256, 257])),
        1..=5 => resize(random, bytes),
        _ if bytes.is_empty() => (),
        _ => {
            let at = random.below(bytes.len());
            bytes[at] = random.pick(&[3, 4, 128, 255]);
        }
    }
}

/// Does one damage or several to one of the three files that a dictionary of so many lines is made of.
pub fn files(random: &mut Random, [circuit, faults, patterns]: [&mut Vec<u8>; 3], lines: usize) {
    match random.below(8) {
        0..=1 => several(random, circuit, self::circuit),
        2..=4 => several(random, faults, |random, bytes| self::faults(random, bytes, lines)),
        _ => several(random, patterns, self::patterns),
    }
}

/// Another count, among them such as overflow when they are multiplied.
pub fn count(random: &mut Random, right: u64) -> u64 {
    random.pick(&[0, 256, 257, 1 << 32, 1 << 63, u64::MAX, right.wrapping_add(1), right.wrapping_sub(1), right.wrapping_add(1 << 32)])
}

/// Does one damage to what goes with a table: its numbers of faults and patterns, the table, its marks, or the answer area.
pub fn table(random: &mut Random, [faults, patterns]: [&mut u64; 2], [table, marks, answer]: [&mut Vec<u8>; 3]) {
    match random.below(8) {
        0 => *faults = count(random, *faults),
        1 => *patterns = count(random, *patterns),
        2 => table.resize(size(random, table.len()), 1),
        3..=4 if !table.is_empty() => {
            let place = random.below(table.len());
            table[place] = random.pick(&[3, 4, 255]);
        }
        5 => answer.resize(random.pick(&[0, 31, 33, 64]), 7),
        _ => marks.resize(size(random, marks.len()), 7),
    }
}

/// Does one damage to a state of suspects: a byte is changed, in its numbers or in its marks; a number is another; a mark is another, and the
/// number remaining by as much, which may make another state of it; or all is as before an opening.
pub fn state(random: &mut Random, state: &mut Vec<u8>) {
    if state.len() <= MARKS {
        return;
    }
    match random.below(8) {
        0..=1 => change(random, &mut state[..MARKS]),
        2..=3 => change(random, &mut state[MARKS..]),
        4..=5 => {
            let first = 8 * random.below(4);
            change_number(state, first, |number| count(random, number));
        }
        6 => {
            let mark = MARKS + random.below(state.len() - MARKS);
            let (old, new) = (state[mark], random.pick(&[0, 1, 2, 255]));
            state[mark] = new;
            change_number(state, MARKS - 8, |remaining| remaining.wrapping_add(new.into()).wrapping_sub(old.into()));
        }
        _ => *state = random.junk(state.len()),
    }
}

/// Changes the number whose first byte is this one.
fn change_number(state: &mut [u8], first: usize, change: impl FnOnce(u64) -> u64) {
    let bytes = &mut state[first..first + 8];
    let number = u64::from_le_bytes((&*bytes).try_into().expect("eight bytes"));
    bytes.copy_from_slice(&change(number).to_le_bytes());
}

/// Does one damage to a text: a byte is changed, taken out, put in or exchanged with the next; a piece is doubled; the end is cut off.
pub fn text(random: &mut Random, bytes: &mut Vec<u8>) {
    let Some(last) = bytes.len().checked_sub(1) else { return };
    let at = random.below(last + 1);
    let byte = if random.once_in(8) { random.byte() } else { random.pick(BYTES) };
    match random.below(8) {
        0 => drop(bytes.remove(at)),
        1 => bytes.insert(at, byte),
        2 => bytes.swap(at, last.min(at + 1)),
        3 => bytes.truncate(at),
        4 => {
            let to = at + random.below(20.min(last + 1 - at));
            let piece = bytes[at..=to].to_vec();
            bytes.splice(at..at, piece);
        }
        _ => bytes[at] = byte,
    }
}

/// Another size for a buffer, near to the right one or far from it.
pub fn size(random: &mut Random, right: usize) -> usize {
    match random.below(4) {
        0 => right + 1,
        1 => right.saturating_sub(1),
        2 => 0,
        _ => 2 * right + random.below(3),
    }
}

/// Does several damages, most often one, to bytes or to a case of several things.
pub fn several<T>(random: &mut Random, spoilt: &mut T, one: impl Fn(&mut Random, &mut T)) {
    one(random, spoilt);
    while random.once_in(3) {
        one(random, spoilt);
    }
}
