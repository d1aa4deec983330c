//! Reports to suspects that are wrong in one way each.
use super::answered::{number, refuse, set_number, then};
use super::but_for::{but_for, clearing, Wrong};
use super::harness::{Case, SuspectsReport};
use super::wrong_states::number_of;
use cases::suspects::{state, MARKS, STATE};
use second::entries::{suspects_open, Seen};

/// What a report makes of a mark, by the entry of its fault and by whether the pattern failed.
type Rule = fn(u8, u8, bool) -> u8;

fn right(mark: u8, entry: u8, failed: bool) -> u8 {
    if entry == u8::from(!failed) {
        0
    } else {
        mark
    }
}

/// Where a report is accepted, marks by other entries and another rule, and their number.
fn by(case: &SuspectsReport, entry: fn(&SuspectsReport, usize) -> u8, rule: Rule) -> Seen {
    then(case, 0, |seen| {
        let mark = |fault| rule(case.state[MARKS + fault], entry(case, fault), case.failed != 0);
        let marks: Vec<u8> = (0..case.fault_count as usize).map(mark).collect();
        set_number(seen, marks.iter().filter(|&&mark| mark == 1).count());
        *seen.lent[0].u8() = state(case.fault_count, case.pattern_count, &marks);
    })
}

fn entry_at(case: &SuspectsReport, place: u64) -> u8 {
    case.table[place as usize % case.table.len()]
}

fn entry(case: &SuspectsReport, fault: usize) -> u8 {
    entry_at(case, case.pattern * case.fault_count + fault as u64)
}

fn marking(case: &SuspectsReport, rule: Rule) -> Seen {
    by(case, entry, rule)
}

fn reading(case: &SuspectsReport, entry: fn(&SuspectsReport, usize) -> u8) -> Seen {
    by(case, entry, right)
}

/// The eight bytes of a state's number stay as they were.
fn leaving_number(case: &SuspectsReport, in_state: bool, in_answer: bool) -> Seen {
    then(case, 0, |seen| {
        let old = &case.state[24..MARKS];
        if in_state {
            seen.lent[0].u8()[24..MARKS].copy_from_slice(old);
        }
        if in_answer {
            seen.answer[..8].copy_from_slice(old);
        }
    })
}

/// Where counts are refused though they fit the table, the report as if the state had been opened with them.
fn with_counts(case: &SuspectsReport, accepts: fn(&SuspectsReport) -> bool) -> Seen {
    let seen = case.second();
    if seen.returned != 12 || case.fault_count > 256 || !accepts(case) {
        return seen;
    }
    but_for(case, |other| {
        let mut marks = other.state[MARKS..].to_vec();
        marks.truncate(other.fault_count as usize);
        other.state = state(other.fault_count, other.pattern_count, &marks);
    })
}

/// By what becomes of the marks; by the row that is read; by what is read of numbers; by what is refused, and what stays then.
pub const REPORTS: [Wrong<SuspectsReport>; 45] = [
    ("counts unknown against a fault", |case| marking(case, |mark, entry, failed| if entry == 2 { 0 } else { right(mark, entry, failed) })),
    ("counts unknown as pass", |case| marking(case, |mark, entry, failed| right(mark, entry & 1, failed))),
    ("counts unknown as fail", |case| marking(case, |mark, entry, failed| right(mark, entry.min(1), failed))),
    ("ignores that a pattern passed", |case| marking(case, |mark, entry, failed| if failed { right(mark, entry, failed) } else { mark })),
    ("ignores that a pattern failed", |case| marking(case, |mark, entry, failed| if failed { mark } else { right(mark, entry, failed) })),
    ("exchanges failed and passed", |case| marking(case, |mark, entry, failed| right(mark, entry, !failed))),
    ("takes fail for pass where the pattern passed", |case| marking(case, |mark, entry, _| right(mark, entry, true))),
    ("marks again what the report speaks for", |case| {
        marking(case, |mark, entry, failed| if entry == u8::from(failed) { 1 } else { right(mark, entry, failed) })
    }),
    ("marks unknown faults again", |case| marking(case, |mark, entry, failed| if entry == 2 { 1 } else { right(mark, entry, failed) })),
    ("puts new marks in place of the old", |case| marking(case, |_, entry, failed| right(1, entry, failed))),
    ("turns the marks that it is to clear", |case| {
        marking(case, |mark, entry, failed| if right(1, entry, failed) == 0 { 1 - mark } else { mark })
    }),
    ("does nothing", |case| marking(case, |mark, _, _| mark)),
    ("leaves the number remaining", |case| leaving_number(case, true, true)),
    ("counts for the answer alone", |case| leaving_number(case, true, false)),
    ("answers how many remained before", |case| leaving_number(case, false, true)),
    ("answers how many it takes away", |case| {
        then(case, 0, |seen| set_number(seen, usize::from(case.state[24]).wrapping_sub(number(seen))))
    }),
    ("marks what is no fault", |case| then(case, 0, |seen| seen.lent[0].u8()[MARKS + case.fault_count as usize..].fill(1))),
    // the row
    ("takes rows of as many bytes as there are patterns", |case| {
        reading(case, |case, fault| entry_at(case, case.pattern * case.pattern_count + fault as u64))
    }),
    ("takes a column for the row", |case| reading(case, |case, fault| entry_at(case, fault as u64 * case.pattern_count + case.pattern))),
    ("counts patterns from 1", |case| reading(case, |case, fault| entry_at(case, (case.pattern + 1) * case.fault_count + fault as u64))),
    ("takes the first row", |case| reading(case, |case, fault| case.table[fault])),
    ("goes through the row backwards", |case| reading(case, |case, fault| entry(case, case.fault_count as usize - 1 - fault))),
    ("leaves the first fault out", |case| reading(case, |case, fault| if fault == 0 { 2 } else { entry(case, fault) })),
    ("leaves the last fault out", |case| {
        reading(case, |case, fault| if fault as u64 + 1 == case.fault_count { 2 } else { entry(case, fault) })
    }),
    // numbers
    ("takes 1 alone for failed", |case| but_for(case, |case| case.failed = u64::from(case.failed == 1))),
    ("reads the lowest byte of failed", |case| but_for(case, |case| case.failed &= 255)),
    ("reads the lower half of failed", |case| but_for(case, |case| case.failed &= 0xffff_ffff)),
    ("reads the lowest byte of the pattern's number", |case| but_for(case, |case| case.pattern &= 255)),
    ("reads the lower half of the pattern's number", |case| but_for(case, |case| case.pattern &= 0xffff_ffff)),
    ("takes the last pattern for all beyond it", |case| {
        but_for(case, |case| case.pattern = case.pattern.min(case.pattern_count.wrapping_sub(1)))
    }),
    // refusals
    ("looks at the pattern's number before the table's bytes", |case| {
        then(case, 13, |seen| {
            if case.pattern >= case.pattern_count {
                refuse(seen, 17, 0)
            }
        })
    }),
    ("looks at the pattern's number before the counts", |case| {
        then(case, 12, |seen| {
            if case.pattern >= case.pattern_count {
                refuse(seen, 17, 0)
            }
        })
    }),
    ("looks at the table before the state", |case| {
        let opened = suspects_open(case.fault_count, case.pattern_count, &case.table, &[0; STATE], &case.answer);
        then(case, 22, |seen| {
            if opened.returned != 0 {
                refuse(seen, opened.returned, number(&opened))
            }
        })
    }),
    ("takes other counts than at opening", |case| with_counts(case, |_| true)),
    ("asks only for the product as at opening", |case| {
        with_counts(case, |case| case.fault_count.wrapping_mul(case.pattern_count) == number_of(&case.state, 2))
    }),
    ("asks only for the faults as at opening", |case| with_counts(case, |case| case.fault_count == number_of(&case.state, 0))),
    ("takes bytes above 2 for unknown", |case| but_for(case, |case| case.table.iter_mut().for_each(|entry| *entry = 2.min(*entry)))),
    ("looks at the bytes of its row alone", |case| {
        let row = case.pattern.wrapping_mul(case.fault_count);
        let is_other = |place: usize| !(row..row.saturating_add(case.fault_count)).contains(&(place as u64));
        but_for(case, |case| {
            (0..case.table.len()).filter(|&place| is_other(place)).for_each(|place| case.table[place] = 2.min(case.table[place]))
        })
    }),
    ("gives the place of 13 in its row", |case| then(case, 13, |seen| set_number(seen, number(seen) % case.fault_count as usize))),
    ("gives the bad byte in place of where it is", |case| then(case, 13, |seen| set_number(seen, case.table[number(seen)].into()))),
    ("gives the last bad byte", |case| {
        then(case, 13, |seen| set_number(seen, case.table.iter().rposition(|&entry| entry > 2).expect("a bad byte")))
    }),
    ("gives the pattern's number as the place of 17", |case| then(case, 17, |seen| set_number(seen, case.pattern as usize))),
    ("clears the state where it refuses counts", |case| clearing(case, 12)),
    ("clears the state where it refuses a byte of the table", |case| clearing(case, 13)),
    ("clears the state where it refuses the pattern's number", |case| clearing(case, 17)),
];
