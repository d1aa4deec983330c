//! What the second program says of another call, and refusals that write.
use super::answered::then;
use super::harness::Case;
use second::entries::Seen;

/// A program that is wrong in one way, which its name says.
pub type Wrong<C> = (&'static str, fn(&C) -> Seen);

/// What is said of the same call but for something.
pub fn but_for<C: Case>(case: &C, change: impl FnOnce(&mut C)) -> Seen {
    let mut other = case.clone();
    change(&mut other);
    other.second()
}

/// A refusal of this number that clears what is lent first.
pub fn clearing<C: Case>(case: &C, refused: u32) -> Seen {
    then(case, refused, |seen| seen.lent[0].fill(0))
}
