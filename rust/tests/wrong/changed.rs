//! What the second program says, changed.
use crate::harness::Case;
use second::entries::Seen;

/// Changed where it accepts.
pub fn accepted<C: Case>(case: &C, change: impl FnOnce(&mut Seen)) -> Seen {
    let mut seen = case.second();
    if seen.returned == 0 {
        change(&mut seen);
    }
    seen
}

/// What is lent first is written though a size is refused.
pub fn written_though_refused<C: Case>(case: &C) -> Seen {
    let mut seen = case.second();
    if seen.returned == 10 && seen.answer.len() == 32 {
        seen.lent[0].fill(2);
    }
    seen
}
