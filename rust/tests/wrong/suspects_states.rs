//! What is done with a state of suspects beside reports, wrong in one way each: it is opened, it is found to be open, its marks are read.
use super::answered::{number, refuse, set_number, then};
use super::but_for::{but_for, clearing, Wrong};
use super::harness::{Case, SuspectsMarks, SuspectsOpen, SuspectsReport};
use cases::suspects::{state, MARKS, STATE};
use second::entries::Seen;

/// One of a state's four numbers.
pub fn number_of(state: &[u8], k: usize) -> u64 {
    u64::from_le_bytes(state[8 * k..][..8].try_into().expect("eight bytes"))
}

fn set_number_of(state: &mut [u8], k: usize, number: u64) {
    state[8 * k..][..8].copy_from_slice(&number.to_le_bytes());
}

/// A call on a state that must be open.
pub trait OnState: Case {
    fn state(&mut self) -> &mut Vec<u8>;
    fn answer(&mut self) -> &mut Vec<u8>;
}

macro_rules! on_state {
    ($($name:ident)*) => { $(impl OnState for $name {
        fn state(&mut self) -> &mut Vec<u8> {
            &mut self.state
        }
        fn answer(&mut self) -> &mut Vec<u8> {
            &mut self.answer
        }
    })* };
}
on_state!(SuspectsReport SuspectsMarks);

/// Where the state is found to be no opened one, what is said of the call with a state that is mended: as by a program that does not look there.
fn mending<C: OnState>(case: &C, mend: fn(&mut [u8])) -> Seen {
    match case.second() {
        Seen { returned: 22, .. } => but_for(case, |case| mend(case.state())),
        seen => seen,
    }
}

fn mend_number(state: &mut [u8]) {
    let remaining = state[MARKS..].iter().filter(|&&mark| mark == 1).count();
    set_number_of(state, 3, remaining as u64);
}

fn mend_product(state: &mut [u8]) {
    set_number_of(state, 2, number_of(state, 0).wrapping_mul(number_of(state, 1)));
}

/// Counts outside of 1 to 256 are the nearest inside, and their product goes with them.
fn mend_counts(state: &mut [u8]) {
    let is_product = number_of(state, 2) == number_of(state, 0).wrapping_mul(number_of(state, 1));
    [0, 1].into_iter().for_each(|k| set_number_of(state, k, number_of(state, k).clamp(1, 256)));
    if is_product {
        mend_product(state);
    }
}

fn mend_marks(state: &mut [u8]) {
    state[MARKS..].iter_mut().for_each(|mark| *mark = 1.min(*mark));
}

fn mend_marks_beyond(state: &mut [u8]) {
    let faults = number_of(state, 0).min(256) as usize;
    state[MARKS + faults..].fill(0);
}

/// What is marked behind the faults counts as remaining.
fn mend_counted_beyond(state: &mut [u8]) {
    let faults = number_of(state, 0).min(256) as usize;
    let beyond = state[MARKS + faults..].iter().filter(|&&mark| mark == 1).count();
    set_number_of(state, 3, number_of(state, 3).wrapping_sub(beyond as u64));
    mend_marks_beyond(state);
}

/// A mark counts as often as it says.
fn mend_summed(state: &mut [u8]) {
    let summed: u64 = state[MARKS..].iter().map(|&mark| u64::from(mark)).sum();
    if summed == number_of(state, 3) {
        mend_marks(state);
        mend_number(state);
    }
}

fn mend_halves(state: &mut [u8]) {
    (0..4).for_each(|k| set_number_of(state, k, number_of(state, k) & 0xffff_ffff));
}

/// By what is looked at to tell an opened state.
pub fn looks<C: OnState>() -> [Wrong<C>; 13] {
    [
        ("never finds that a state was not opened", |case| {
            mending(case, |state| {
                let mends: [fn(&mut [u8]); 5] = [mend_counts, mend_product, mend_marks, mend_marks_beyond, mend_number];
                mends.into_iter().for_each(|mend| mend(state));
            })
        }),
        ("does not look at the number remaining", |case| mending(case, mend_number)),
        ("does not look at the product", |case| mending(case, mend_product)),
        ("does not look at the range of the counts", |case| mending(case, mend_counts)),
        ("takes for a mark whatever is not 0", |case| mending(case, mend_marks)),
        ("does not look at the marks of what is no fault", |case| mending(case, mend_marks_beyond)),
        ("takes marks above 1 that are counted by what they say", |case| mending(case, mend_summed)),
        ("counts marks of what is no fault", |case| mending(case, mend_counted_beyond)),
        ("looks at the lower halves of the numbers", |case| mending(case, mend_halves)),
        ("clears what it is lent where it finds no opened state", |case| clearing(case, 22)),
        ("clears what it is lent where it refuses a size", |case| clearing(case, 10)),
        ("finds a state of another size not opened", |case| {
            let size = case.clone().state().len();
            then(case, 10, |seen| {
                if size != STATE {
                    refuse(seen, 22, 0)
                }
            })
        }),
        ("takes an answer area that is too large", |case| {
            let mut other = case.clone();
            let area = other.answer();
            let rest = area.split_off(area.len().min(32));
            let mut seen = other.second();
            seen.answer.extend(rest);
            seen
        }),
    ]
}

pub const OPENS: [Wrong<SuspectsOpen>; 14] = [
    ("leaves the marks of what is no fault", |case| {
        let behind = MARKS + case.fault_count.min(256) as usize;
        then(case, 0, |seen| seen.lent[0].u8()[behind..].copy_from_slice(&case.state[behind..]))
    }),
    ("marks what is no fault", |case| then(case, 0, |seen| seen.lent[0].u8()[MARKS..].fill(1))),
    ("leaves out what is 0 before", |case| {
        then(case, 0, |seen| seen.lent[0].u8().iter_mut().zip(&case.state).skip(MARKS).for_each(|(mark, &old)| *mark &= old.min(1)))
    }),
    ("leaves out faults that no pattern fails", |case| {
        then(case, 0, |seen| {
            let is_failed = |fault: usize| case.table.chunks(case.fault_count as usize).any(|row| row[fault] == 1);
            let marks: Vec<u8> = (0..case.fault_count as usize).map(|fault| u8::from(is_failed(fault))).collect();
            *seen.lent[0].u8() = state(case.fault_count, case.pattern_count, &marks);
            set_number(seen, marks.iter().filter(|&&mark| mark == 1).count());
        })
    }),
    ("leaves the number remaining", |case| then(case, 0, |seen| seen.lent[0].u8()[24..MARKS].copy_from_slice(&case.state[24..MARKS]))),
    ("answers 0", |case| then(case, 0, |seen| set_number(seen, 0))),
    ("answers how many patterns there are", |case| then(case, 0, |seen| set_number(seen, case.pattern_count as usize))),
    ("writes no product", |case| then(case, 0, |seen| set_number_of(seen.lent[0].u8(), 2, 0))),
    ("exchanges the counts", |case| then(case, 0, |seen| seen.lent[0].u8()[..16].rotate_left(8))),
    ("wants a state that is open already", |case| {
        then(case, 0, |seen| {
            refuse(seen, 22, 0);
            *seen.lent[0].u8() = case.state.clone();
        })
    }),
    ("takes bytes above 2 for unknown", |case| but_for(case, |case| case.table.iter_mut().for_each(|entry| *entry = 2.min(*entry)))),
    ("looks at the table before the state's size", |case| {
        let with_room = but_for(case, |case| case.state = vec![0; STATE]);
        then(case, 10, |seen| {
            if with_room.returned != 0 {
                refuse(seen, with_room.returned, number(&with_room))
            }
        })
    }),
    ("clears the state where it refuses counts", |case| clearing(case, 12)),
    ("clears the state where it refuses a byte of the table", |case| clearing(case, 13)),
];

pub const MARKED: [Wrong<SuspectsMarks>; 10] = [
    ("marks what does not remain", |case| then(case, 0, |seen| seen.lent[0].u8().iter_mut().for_each(|mark| *mark = 1 - *mark))),
    ("marks everything", |case| then(case, 0, |seen| seen.lent[0].u8().fill(1))),
    ("leaves marks of what does not remain", |case| {
        then(case, 0, |seen| {
            seen.lent[0].u8().iter_mut().zip(&case.marks).filter(|(mark, _)| **mark == 0).for_each(|(mark, &old)| *mark = old)
        })
    }),
    ("answers how many do not remain", |case| then(case, 0, |seen| set_number(seen, case.marks.len() - number(seen)))),
    ("answers patterns before faults", |case| then(case, 0, |seen| seen.answer[8..24].rotate_left(8))),
    ("answers how many remain, and no more", |case| then(case, 0, |seen| seen.answer[8..].fill(0))),
    ("leaves the number that it has no use for", |case| then(case, 0, |seen| seen.answer[24..].copy_from_slice(&case.answer[24..]))),
    ("writes as many marks as there is room for", |case| {
        then(case, 10, |seen| {
            if case.state.len() == STATE {
                *seen = but_for(case, |case| case.marks = vec![0; number_of(&case.state, 0) as usize]);
                let marks = std::mem::take(seen.lent[0].u8());
                *seen.lent[0].u8() = marks.iter().chain(case.marks.iter().skip(marks.len())).copied().take(case.marks.len()).collect();
            }
        })
    }),
    ("looks at the size of the marks before the state", |case| {
        then(case, 22, |seen| {
            if case.marks.len() as u64 != number_of(&case.state, 0) {
                refuse(seen, 10, 0)
            }
        })
    }),
    ("reads the beginning of a state that is too large", |case| but_for(case, |case| case.state.truncate(STATE))),
];
