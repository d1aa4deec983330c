//! Counts of what was seen, so that a test can say that nothing was missed.
use std::collections::BTreeMap;
use std::fmt;

/// Something that a case may show.
pub type Sort = &'static str;

#[derive(Default)]
pub struct Tally {
    numbers: BTreeMap<u32, usize>,
    sorts: BTreeMap<Sort, usize>,
}

impl Tally {
    pub fn count(&mut self, seen: u32) {
        *self.numbers.entry(seen).or_default() += 1;
    }

    /// Counts what a case shows, which may be several things, and each several times.
    pub fn count_sorts(&mut self, sorts: impl IntoIterator<Item = Sort>) {
        sorts.into_iter().for_each(|sort| *self.sorts.entry(sort).or_default() += 1);
    }

    /// All that was seen, in order.
    pub fn seen(&self) -> Vec<u32> {
        self.numbers.keys().copied().collect()
    }

    pub fn total(&self) -> usize {
        self.numbers.values().sum()
    }

    /// The same counts, among which all of these sorts must stand.
    pub fn with_sorts(self, sorts: &[&[Sort]]) -> Tally {
        let missing: Vec<&Sort> = sorts.iter().copied().flatten().filter(|sort| !self.sorts.contains_key(*sort)).collect();
        assert!(missing.is_empty(), "{self}; not seen: {missing:?}");
        self
    }
}

impl fmt::Display for Tally {
    fn fmt(&self, f: &mut fmt::Formatter) -> fmt::Result {
        write!(f, "{} cases:", self.total())?;
        self.numbers.iter().try_for_each(|(seen, times)| write!(f, " {seen} ({times})"))?;
        self.sorts.iter().try_for_each(|(sort, times)| write!(f, ", {sort} ({times})"))
    }
}
