//! The compactor: counts of kept patterns for each pair of faults and for each fault.
use super::report;

/// The cells of the pairs f < g stand at 256 g + f, those of the n faults behind them, from 256 n on.
pub const ROW: usize = 256;

/// A table with fewer faults has little to clear.
pub const MANY: usize = 16;

/// Counts a row in or out, modulo 256, where the entry is `want`.
fn count_row(cells: &mut [u8], row: &[u8], want: u8, into: bool) {
    for (cell, &entry) in cells.iter_mut().zip(row) {
        let hit = (entry == want) as u8;
        *cell = if into { cell.wrapping_add(hit) } else { cell.wrapping_sub(hit) };
    }
}

/// Counts a pattern in or out. Where a fault passes, its pairs look for fails, where it fails for passes; unknown tells nothing.
pub fn count(counts: &mut [u8], row: &[u8], into: bool) {
    for (g, &entry) in row.iter().enumerate().filter(|(_, &entry)| entry <= 1) {
        count_row(&mut counts[ROW * g..ROW * g + g], row, 1 - entry, into);
    }
    count_row(&mut counts[ROW * row.len()..], row, 1, into);
}

/// Notes the faults that a pattern fails.
pub fn see(seen: &mut [u8], row: &[u8]) {
    seen.iter_mut().zip(row).for_each(|(seen, &entry)| *seen |= (entry == 1) as u8);
}

/// Whether the pattern is the only one for some fault or for some pair of detected faults.
pub fn needed(counts: &[u8], seen: &[u8], row: &[u8]) -> bool {
    let sole = |cells: &[u8], want: u8| {
        let hits = cells.iter().zip(seen).zip(row).map(|((&cell, &seen), &entry)| (cell == 1) as u8 & seen & (entry == want) as u8);
        hits.fold(0, |any, hit| any | hit) != 0
    };
    sole(&counts[ROW * row.len()..], 1)
        || (0..row.len()).any(|g| seen[g] == 1 && row[g] <= 1 && sole(&counts[ROW * g..ROW * g + g], 1 - row[g]))
}

/// The first thing that is wrong with a table.
pub fn check_table(faults: u64, patterns: u64, table: &[u8]) -> Result<(), (u32, usize)> {
    let range = 1..=256;
    if !range.contains(&faults) || !range.contains(&patterns) || table.len() as u64 != faults * patterns {
        return Err((12, 0));
    }
    match table.iter().position(|&entry| entry > 2) {
        Some(bad) => Err((13, bad)),
        None => Ok(()),
    }
}

/// The first thing that is wrong with a table and its marks.
pub fn check(faults: u64, patterns: u64, table: &[u8], marks: &[u8]) -> Result<(), (u32, usize)> {
    check_table(faults, patterns, table)?;
    if marks.len() as u64 != patterns {
        return Err((10, 0));
    }
    Ok(())
}

fn compact(faults: u64, patterns: u64, table: &[u8], marks: &mut [u8]) -> Result<(), (u32, usize)> {
    check(faults, patterns, table, marks)?;
    match faults as usize {
        few @ ..MANY => mark(&mut [0; ROW * MANY], few, table, marks),
        many => mark(&mut [0; ROW * 257], many, table, marks),
    }
    Ok(())
}

/// The process, over counts that are all 0.
fn mark(counts: &mut [u8], faults: usize, table: &[u8], marks: &mut [u8]) {
    let rows = || table.chunks_exact(faults);
    let mut seen = [0; 256];
    marks.fill(1);
    for row in rows() {
        count(counts, row, true);
        see(&mut seen, row);
    }
    for (row, mark) in rows().zip(marks).rev() {
        if !needed(counts, &seen, row) {
            count(counts, row, false);
            *mark = 0;
        }
    }
}

pub fn enter(faults: u64, patterns: u64, table: &[u8], marks: &mut [u8], answer: &mut [u8; 32]) -> u32 {
    match compact(faults, patterns, table, marks) {
        Ok(()) => report(0, [0; 3], answer),
        Err((number, place)) => report(number, [place as u64, 0, 0], answer),
    }
}

/// The definition run naively: each pattern is dropped if those still in the set without it meet every need.
pub fn naive(faults: usize, table: &[u8], marks: &mut [u8]) {
    let rows: Vec<&[u8]> = table.chunks_exact(faults).collect();
    let detected = |marks: &[u8], f: usize| rows.iter().zip(marks).any(|(row, &mark)| mark == 1 && row[f] == 1);
    let apart = |marks: &[u8], f: usize, g: usize| rows.iter().zip(marks).any(|(row, &mark)| mark == 1 && row[f] + row[g] == 1);
    let all = vec![1; rows.len()];
    marks.fill(1);
    for p in (0..rows.len()).rev() {
        marks[p] = 0;
        let keeps = |f: usize| !detected(&all, f) || detected(marks, f);
        let keeps_pair = |f: usize, g: usize| !detected(&all, f) || !detected(&all, g) || !apart(&all, f, g) || apart(marks, f, g);
        let meets = (0..faults).all(keeps) && (0..faults).all(|g| (0..g).all(|f| keeps_pair(f, g)));
        marks[p] = !meets as u8;
    }
}
