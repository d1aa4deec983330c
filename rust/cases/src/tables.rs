//! Tables of entries: 0 pass, 1 fail, 2 unknown.
use crate::Random;

/// How many passes, fails and unknowns there are among so many entries, on average.
pub const DENSITIES: [[usize; 3]; 12] = [
    [1, 1, 1],
    [1, 1, 0],
    [20, 1, 0],
    [200, 1, 0],
    [1, 20, 0],
    [10, 1, 3],
    [1, 1, 20],
    [1, 0, 1],
    [0, 1, 1],
    [1, 0, 0],
    [0, 1, 0],
    [0, 0, 1],
];

/// A table of this density.
pub fn of_density(random: &mut Random, [pass, fail, unknown]: [usize; 3], faults: usize, patterns: usize) -> Vec<u8> {
    let entry = |_| match random.below(pass + fail + unknown) {
        drawn if drawn < pass => 0,
        drawn if drawn < pass + fail => 1,
        _ => 2,
    };
    (0..faults * patterns).map(entry).collect()
}

/// A table of any density.
pub fn table(random: &mut Random, faults: usize, patterns: usize) -> Vec<u8> {
    let density = random.pick(&DENSITIES);
    of_density(random, density, faults, patterns)
}

/// A small table and its number of faults. Now and then two rows, or two columns, are the same.
pub fn small(random: &mut Random) -> (usize, Vec<u8>) {
    let most = random.pick(&[1, 3, 6, 12]);
    let (faults, patterns) = (1 + random.below(most), 1 + random.below(most));
    let mut table = table(random, faults, patterns);
    if random.once_in(4) {
        let (from, to) = (random.below(patterns), random.below(patterns));
        table.copy_within(from * faults..(from + 1) * faults, to * faults);
    }
    if random.once_in(4) {
        let (from, to) = (random.below(faults), random.below(faults));
        table.chunks_exact_mut(faults).for_each(|row| row[to] = row[from]);
    }
    (faults, table)
}

/// Every list of 0, 1 and 2 of this length, entries or marks.
pub fn every(len: u32) -> impl Iterator<Item = Vec<u8>> {
    (0..3usize.pow(len)).map(move |number| (0..len).map(|place| (number / 3usize.pow(place) % 3) as u8).collect())
}

/// So many marks, with few or many of them 1.
pub fn sound_marks(random: &mut Random, count: usize) -> Vec<u8> {
    let zeros = random.below(9);
    (0..count).map(|_| u8::from(random.below(8) >= zeros)).collect()
}

/// Marks of so many patterns, with few or many of them kept; now and then one or several are neither 0 nor 1.
pub fn marks(random: &mut Random, patterns: usize) -> Vec<u8> {
    let mut marks = sound_marks(random, patterns);
    while random.once_in(6) {
        marks[random.below(patterns)] = random.pick(&[2, 3, 128, 255]);
    }
    marks
}

/// Table 1 of paper 000: seven faults, and the patterns v1 to v5. Our copy of it has lost its columns; the example around it leaves two tables,
/// which differ by exchanging v2 and v3.
pub fn table_1_of_paper_000() -> [Vec<u8>; 2] {
    let v1 = [1, 0, 0, 0, 0, 0, 0];
    let v2 = [0, 1, 0, 0, 0, 0, 0];
    let v3 = [0, 1, 1, 1, 0, 0, 1];
    let v4 = [0, 1, 1, 1, 1, 1, 1];
    let v5 = [0, 0, 0, 0, 1, 1, 1];
    [[v1, v2, v3, v4, v5].concat(), [v1, v3, v2, v4, v5].concat()]
}
