//! The audit of a kept list, by the counts of its kept patterns and those of its dropped ones.
use super::compact::{check, count, needed, see, MANY, ROW};
use super::report;

/// Counts the patterns that have this mark, and notes the faults that they fail.
fn tally(counts: &mut [u8], faults: usize, table: &[u8], marks: &[u8], mark: u8) -> [u8; 256] {
    let mut seen = [0; 256];
    for (row, _) in table.chunks_exact(faults).zip(marks).filter(|(_, &other)| other == mark) {
        count(counts, row, true);
        see(&mut seen, row);
    }
    seen
}

/// The first thing that holds of marks that are 0 or 1, over counts that are all 0. A need is lost where a dropped pattern counts and no kept one
/// does. A count goes round at 256, but where one comes to 256, all patterns are kept or all are dropped.
fn find(kept: &mut [u8], dropped: &mut [u8], faults: usize, table: &[u8], marks: &[u8]) -> [u64; 3] {
    let seen = tally(kept, faults, table, marks, 1);
    let seen_dropped = tally(dropped, faults, table, marks, 0);
    if let Some(f) = (0..faults).find(|&f| seen_dropped[f] == 1 && seen[f] == 0) {
        return [2, f as u64, 0];
    }
    for f in (0..faults).filter(|&f| seen[f] == 1) {
        if let Some(g) = (f + 1..faults).find(|&g| seen[g] == 1 && kept[ROW * g + f] == 0 && dropped[ROW * g + f] != 0) {
            return [3, f as u64, g as u64];
        }
    }
    let mut rows = table.chunks_exact(faults).zip(marks);
    match rows.position(|(row, &mark)| mark == 1 && !needed(kept, &seen, row)) {
        Some(p) => [4, p as u64, 0],
        None => [0; 3],
    }
}

fn audit(faults: u64, patterns: u64, table: &[u8], marks: &[u8]) -> Result<[u64; 3], (u32, usize)> {
    check(faults, patterns, table, marks)?;
    if let Some(bad) = marks.iter().position(|&mark| mark > 1) {
        return Ok([1, bad as u64, 0]);
    }
    Ok(match faults as usize {
        few @ ..MANY => find(&mut [0; ROW * MANY], &mut [0; ROW * MANY], few, table, marks),
        many => find(&mut [0; ROW * 257], &mut [0; ROW * 257], many, table, marks),
    })
}

pub fn enter(faults: u64, patterns: u64, table: &[u8], marks: &[u8], answer: &mut [u8; 32]) -> u32 {
    match audit(faults, patterns, table, marks) {
        Ok(numbers) => report(0, numbers, answer),
        Err((number, place)) => report(number, [place as u64, 0, 0], answer),
    }
}

#[cfg(test)]
mod tests {
    use super::*;
    use cases::{damage, drawn, tables, Random};
    use second::entries::{self, Seen};

    /// The numbers of faults and of patterns, the table and the marks.
    type Given = (u64, u64, Vec<u8>, Vec<u8>);

    fn given(random: &mut Random) -> Given {
        let (faults, table) = tables::small(random);
        let marks = tables::marks(random, table.len() / faults);
        (faults as u64, marks.len() as u64, table, marks)
    }

    /// Few faults or many, and many patterns, of which all are kept, or none, or some.
    fn large(random: &mut Random) -> Given {
        let (faults, patterns) = (random.pick(&[1, 2, 15, 16, 100]), random.pick(&[100, 255, 256]));
        let table = tables::table(random, faults, patterns);
        let marks = if random.once_in(2) { vec![random.pick(&[0, 1]); patterns] } else { tables::marks(random, patterns) };
        (faults as u64, patterns as u64, table, marks)
    }

    /// One thing or several are wrong.
    fn damaged(random: &mut Random) -> Given {
        let mut given = given(random);
        damage::several(random, &mut given, |random, (faults, patterns, table, marks)| {
            damage::table(random, [faults, patterns], [table, marks, &mut vec![]]);
        });
        given
    }

    /// It answers as the second program does, which takes each kept pattern out and asks again.
    #[test]
    fn answers_as_the_second_program_does() {
        for given in drawn(1, 20_000, given).chain(drawn(2, 500, large)).chain(drawn(3, 20_000, damaged)) {
            let (faults, patterns, table, marks) = &given;
            let mut answer = [7; 32];
            let returned = enter(*faults, *patterns, table, marks, &mut answer);
            let seen = Seen { returned, answer: answer.to_vec(), lent: vec![] };
            assert_eq!(seen, entries::audit(*faults, *patterns, table, marks, &[7; 32]), "{given:?}");
        }
    }
}
