//! A report to suspects: the state is looked through, then the table, and the row of the pattern once.
use super::compact::check_table;
use super::report;

/// Where the marks begin, behind four numbers.
const MARKS: usize = 32;

fn number(state: &[u8], k: usize) -> u64 {
    u64::from_le_bytes(state[8 * k..8 * k + 8].try_into().expect("eight bytes"))
}

fn is_opened(state: &[u8]) -> bool {
    let [faults, patterns, product, remaining] = [0, 1, 2, 3].map(|k| number(state, k));
    let range = 1..=256;
    if !range.contains(&faults) || !range.contains(&patterns) || product != faults * patterns {
        return false;
    }
    let (marks, rest) = state[MARKS..].split_at(faults as usize);
    marks.iter().all(|&mark| mark <= 1)
        && rest.iter().all(|&mark| mark == 0)
        && marks.iter().map(|&mark| u64::from(mark)).sum::<u64>() == remaining
}

/// Takes away the faults that have this entry, and counts those that remain.
fn narrow(marks: &mut [u8], row: &[u8], against: u8) -> u64 {
    let mut remaining = 0;
    for (mark, &entry) in marks.iter_mut().zip(row) {
        *mark &= (entry != against) as u8;
        remaining += u64::from(*mark);
    }
    remaining
}

fn reported([faults, patterns]: [u64; 2], table: &[u8], pattern: u64, failed: u64, state: &mut [u8]) -> Result<u64, (u32, usize)> {
    if state.len() != 288 {
        return Err((10, 0));
    }
    if !is_opened(state) {
        return Err((22, 0));
    }
    if faults != number(state, 0) || patterns != number(state, 1) {
        return Err((12, 0));
    }
    check_table(faults, patterns, table)?;
    if pattern >= patterns {
        return Err((17, 0));
    }
    let first = (pattern * faults) as usize;
    let remaining = narrow(&mut state[MARKS..], &table[first..first + faults as usize], (failed == 0) as u8);
    state[24..MARKS].copy_from_slice(&remaining.to_le_bytes());
    Ok(remaining)
}

pub fn enter(counts: [u64; 2], table: &[u8], pattern: u64, failed: u64, state: &mut [u8], answer: &mut [u8; 32]) -> u32 {
    match reported(counts, table, pattern, failed, state) {
        Ok(remaining) => report(0, [remaining, 0, 0], answer),
        Err((number, place)) => report(number, [place as u64, 0, 0], answer),
    }
}

#[cfg(test)]
mod tests {
    use super::*;
    use cases::suspects::{self, session, Report};
    use cases::{damage, drawn, tables, Random};
    use second::entries::{self, Seen};

    /// A state, and a report to it.
    type Given = (Vec<u8>, Report);

    fn given(random: &mut Random) -> Given {
        let (faults, table) = tables::small(random);
        let state = suspects::opened(random, faults, table.len() / faults);
        (state, suspects::report(random, &session(faults, table)))
    }

    /// One thing or several are wrong.
    fn damaged(random: &mut Random) -> Given {
        let mut given = given(random);
        damage::several(random, &mut given, |random, (state, report)| match random.below(6) {
            0 => state.resize(damage::size(random, 288), 0),
            1..=2 => damage::state(random, state),
            _ => suspects::spoil(random, report),
        });
        given
    }

    /// It answers as the second program does, which holds a list of reports.
    #[test]
    fn answers_as_the_second_program_does() {
        for given in drawn(1, 20_000, given).chain(drawn(2, 20_000, damaged)) {
            let (state, Report { counts, table, pattern, failed }) = &given;
            let (mut left, mut answer) = (state.clone(), [7; 32]);
            let returned = enter(*counts, table, *pattern, *failed, &mut left, &mut answer);
            let seen = Seen { returned, answer: answer.to_vec(), lent: vec![left.into()] };
            assert_eq!(seen, entries::suspects_report(*counts, table, *pattern, *failed, state, &[7; 32]), "{given:?}");
        }
    }
}
