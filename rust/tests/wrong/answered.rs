//! The first number of an answer, and what the second program says, changed where it says some number.
use crate::harness::Case;
use second::entries::Seen;

/// Changed where this number is returned, and not because of the answer area.
pub fn then<C: Case>(case: &C, returned: u32, change: impl FnOnce(&mut Seen)) -> Seen {
    let mut seen = case.second();
    if seen.returned == returned && seen.answer.len() == 32 {
        change(&mut seen);
    }
    seen
}

pub fn number(seen: &Seen) -> usize {
    u64::from_le_bytes(seen.answer[..8].try_into().expect("eight bytes")) as usize
}

pub fn set_number(seen: &mut Seen, number: usize) {
    seen.answer[..8].copy_from_slice(&(number as u64).to_le_bytes());
}

pub fn refuse(seen: &mut Seen, returned: u32, place: usize) {
    seen.returned = returned;
    set_number(seen, place);
}
