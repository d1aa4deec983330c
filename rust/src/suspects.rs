//! Suspects: the faults of a table that remain after what a tester has reported.
use crate::raw::{enter, Call};
use crate::refusal::{answered, numbers, Refusal};

/// How many bytes the state of suspects has.
pub const SUSPECTS: usize = 288;

/// Where its marks begin, behind four numbers.
const MARKS: usize = 32;

/// The faults of a table that remain. All do at first, and each report of the tester takes away those that it speaks against: where the pattern
/// failed, the faults whose entry is pass, and where it passed, those whose entry is fail. An unknown entry speaks against none. Reports may come
/// in any order and repeat, and may contradict each other; no fault comes back. A refusal changes nothing.
///
/// ```
/// use ullimaqsu::{Refusal, Suspects};
/// let table = [1, 0, 2, 0, 1, 2]; // two patterns, each with an entry for each of three faults
/// let mut suspects = Suspects::open(3, 2, &table)?;
/// assert_eq!(suspects.remaining(), 3);
/// assert_eq!(suspects.report(&table, 0, true), Ok(2));
/// assert_eq!(suspects.marks(), [true, false, true]);
/// assert_eq!(suspects.report(&table, 1, false), Ok(2));
/// assert_eq!(suspects.report(&table, 0, false), Ok(1)); // it failed before: both reports are held
/// assert!(suspects.remains(2));
/// assert_eq!(suspects.report(&table, 2, true), Err(Refusal::new(17, 0)));
/// assert_eq!((suspects.remaining(), suspects.faults(), suspects.patterns()), (1, 3, 2));
/// # Ok::<(), ullimaqsu::Refusal>(())
/// ```
#[derive(Clone, Debug, PartialEq, Eq)]
pub struct Suspects {
    /// As the header lays it out, always that of an opened state.
    state: [u8; SUSPECTS],
}

impl Suspects {
    /// Every fault of a table remains.
    pub fn open(fault_count: u64, pattern_count: u64, table: &[u8]) -> Result<Suspects, Refusal> {
        let (mut state, mut area) = ([0; SUSPECTS], [0; 32]);
        let returned = enter(Call::SuspectsOpen { fault_count, pattern_count, table, state: &mut state, answer: &mut area });
        answered(returned, area).map(|_| Suspects { state })
    }

    /// The tester reports that this pattern failed, or that it passed; gives how many faults remain. The entries that count are those of the
    /// table given here, which has as many faults and patterns as the one at opening.
    pub fn report(&mut self, table: &[u8], pattern: u64, failed: bool) -> Result<u64, Refusal> {
        let (fault_count, pattern_count) = (self.faults(), self.patterns());
        let (state, mut area) = (&mut self.state, [0; 32]);
        let failed = failed.into();
        let returned = enter(Call::SuspectsReport { fault_count, pattern_count, table, pattern, failed, state, answer: &mut area });
        answered(returned, area).map(|[remaining, ..]| remaining)
    }

    /// How many faults remain.
    pub fn remaining(&self) -> u64 {
        let [_, _, _, remaining] = numbers(&self.state);
        remaining
    }

    /// How many faults the table has.
    pub fn faults(&self) -> u64 {
        let [faults, ..] = numbers(&self.state);
        faults
    }

    /// How many patterns it has.
    pub fn patterns(&self) -> u64 {
        let [_, patterns, ..] = numbers(&self.state);
        patterns
    }

    /// Whether this fault remains. A number that is no fault's does not.
    pub fn remains(&self, fault: usize) -> bool {
        self.state[MARKS..].get(fault) == Some(&1)
    }

    /// Which faults remain, in order.
    pub fn marks(&self) -> Vec<bool> {
        let (mut marks, mut area) = (vec![0; self.faults() as usize], [0; 32]);
        let returned = enter(Call::SuspectsMarks { state: &self.state, marks: &mut marks, answer: &mut area });
        answered(returned, area).expect("an opened state");
        marks.into_iter().map(|mark| mark == 1).collect()
    }
}
