//! Which pattern to try: the one that leaves the fewest suspects, however it ends.
use crate::entry::Entry;

/// What a pattern does to the faults that remain.
#[derive(Clone, Copy, PartialEq, Eq, Debug)]
pub struct Split {
    pub pattern: usize,
    /// Whether compaction keeps it.
    pub kept: bool,
    /// How many remain if it fails.
    pub if_failed: usize,
    /// How many remain if it passes.
    pub if_passed: usize,
}

impl Split {
    /// Of a pattern with this row of entries. A failure rules out the faults that pass, a pass those that fail.
    fn of(pattern: usize, kept: bool, row: &[u8], remains: &[bool]) -> Split {
        let without = |out: Entry| row.iter().zip(remains).filter(|(&entry, &remains)| remains && Entry::of(entry) != out).count();
        Split { pattern, kept, if_failed: without(Entry::Pass), if_passed: without(Entry::Fail) }
    }

    /// How many remain at worst.
    fn larger(&self) -> usize {
        self.if_failed.max(self.if_passed)
    }
}

/// Of all patterns in order, each with whether it is kept and with its row, the one that leaves the fewest at worst, the first of equals. One that may
/// leave all that remain tells no two of them apart, and is not taken. A dropped one is taken only if no kept one will do: compaction cares for
/// detected faults alone.
pub fn best<'a>(patterns: impl IntoIterator<Item = (bool, &'a [u8])>, remains: &[bool]) -> Option<Split> {
    let remaining = remains.iter().filter(|remains| **remains).count();
    let splits = patterns.into_iter().enumerate().map(|(pattern, (kept, row))| Split::of(pattern, kept, row, remains));
    splits.filter(|split| split.larger() < remaining).min_by_key(|split| (!split.kept, split.larger()))
}

#[cfg(test)]
mod tests {
    use super::best;

    const FAULTS: usize = 3;

    /// All lists of so many numbers below a bound.
    fn all(len: usize, below: u8) -> Vec<Vec<u8>> {
        (0..len).fold(vec![vec![]], |lists, _| lists.iter().flat_map(|list| (0..below).map(|last| [&list[..], &[last]].concat())).collect())
    }

    /// How many remain at worst after a report of the pattern, each outcome by going through the faults.
    fn at_worst(row: &[u8], remains: &[bool]) -> usize {
        let after = |failed: bool| {
            let fits = |fault: &usize| remains[*fault] && (row[*fault] == 2 || (row[*fault] == 1) == failed);
            (0..FAULTS).filter(fits).count()
        };
        after(true).max(after(false))
    }

    /// All choices among three things.
    fn choices() -> Vec<[bool; 3]> {
        all(3, 2).iter().map(|list| [0, 1, 2].map(|at| list[at] == 1)).collect()
    }

    /// The best of the patterns with this mark that rule something out either way, the lowest number of equals.
    fn by_hand(rows: &[&Vec<u8>; 3], kept: &[bool; 3], mark: bool, remains: &[bool]) -> Option<(usize, usize)> {
        let remaining = remains.iter().filter(|remains| **remains).count();
        let marked = (0..rows.len()).filter(|&pattern| kept[pattern] == mark);
        marked.map(|pattern| (at_worst(rows[pattern], remains), pattern)).filter(|(left, _)| *left < remaining).min()
    }

    /// Any two rows of three faults, the first of them once more behind the second, any of these kept, and any of the faults remaining.
    #[test]
    fn the_fewest_at_worst() {
        let (rows, choices) = (all(FAULTS, 3), choices());
        // none, a dropped one, a kept one
        let mut seen = [0; 3];
        for (first, second) in rows.iter().flat_map(|first| rows.iter().map(move |second| (first, second))) {
            let rows = [first, second, first];
            for (kept, remains) in choices.iter().flat_map(|kept| choices.iter().map(move |remains| (kept, remains))) {
                let found = best(kept.iter().copied().zip(rows.map(|row| &row[..])), remains);
                let expected = by_hand(&rows, kept, true, remains).or(by_hand(&rows, kept, false, remains));
                assert_eq!(found.map(|split| (split.larger(), split.pattern)), expected, "{rows:?} {kept:?} {remains:?}");
                seen[found.map_or(0, |split| 1 + usize::from(split.kept))] += 1;
                assert!(found.is_none_or(|split| split.kept == kept[split.pattern]));
                // and then it tells two that remain apart: one passes, one fails
                let apart = |row: &[u8]| [0, 1].iter().all(|entry| (0..FAULTS).any(|fault| remains[fault] && row[fault] == *entry));
                assert_eq!(found.is_some(), apart(first) || apart(second));
            }
        }
        assert!(seen.iter().all(|&times| times > 100), "{seen:?}");
    }
}
