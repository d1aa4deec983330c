//! Readers of clocked circuits that are wrong in one way each, whatever is then made of these.
use super::answered::{number, refuse, set_number, then};
use super::but_for::{but_for, clearing, Wrong};
use super::stepped::{wrong_states, Stepped};
use cases::circuits::INPUT;
use cases::clocked::{pairs, state, Clocked};
use cases::faults::inputs;
use second::entries::Seen;

/// The call with other state records, made of the data line and the state line of each.
fn with_states<C: Stepped>(case: &C, change: fn(&mut Vec<[usize; 2]>)) -> Seen {
    let states = case.clocked().states;
    let (mut all, rest) = (pairs(&states), states.chunks_exact(4).remainder());
    change(&mut all);
    but_for(case, |case| *case.states() = [all.into_iter().flat_map(|[data, line]| state(data, line)).collect(), rest.to_vec()].concat())
}

/// The call is taken though a record is bad, if this holds of it.
fn taking<C: Stepped>(case: &C, is_bad: fn(&Clocked, [usize; 2]) -> bool) -> Seen {
    let clocked = case.clocked();
    then(case, 18, |seen| {
        if pairs(&clocked.states).get(number(seen)).is_some_and(|&pair| is_bad(&clocked, pair)) {
            seen.returned = 0;
        }
    })
}

/// The call is taken though a state line is named again, if this holds of the records before it.
fn taking_again<C: Stepped>(case: &C, is_missed: fn(&[[usize; 2]], usize) -> bool) -> Seen {
    let pairs = pairs(&case.clocked().states);
    then(case, 18, |seen| {
        let place = number(seen);
        if let Some(&[_, line]) = pairs.get(place) {
            let is_repeat = pairs[..place].iter().any(|&[_, other]| other == line);
            if is_repeat && is_missed(&pairs[..place], line) {
                seen.returned = 0;
            }
        }
    })
}

/// An accepted call is refused where this gives a place.
fn refused<C: Stepped>(case: &C, number: u32, place: impl FnOnce(&Clocked) -> Option<usize>) -> Seen {
    then(case, 0, |seen| {
        if let Some(place) = place(&case.clocked()) {
            *seen = but_for(case, |case| *case.steps() = 0); // what a refusal leaves
            refuse(seen, number, place);
        }
    })
}

/// The same at the first record of which this holds, given those before it.
fn refusing<C: Stepped>(case: &C, holds: fn(&Clocked, &[[usize; 2]], [usize; 2]) -> bool) -> Seen {
    refused(case, 18, |clocked| {
        let pairs = pairs(&clocked.states);
        (0..pairs.len()).find(|&place| holds(clocked, &pairs[..place], pairs[place]))
    })
}

fn too_large<C: Stepped>(case: &C, holds: fn(&Clocked) -> bool) -> Seen {
    refused(case, 19, |clocked| holds(clocked).then_some(0))
}

/// Another refusal is given where this one is, if this holds.
fn sooner<C: Stepped>(case: &C, later: &[u32], number: u32, place: fn(&Clocked) -> Option<usize>) -> Seen {
    let mut seen = case.second();
    if later.contains(&seen.returned) && seen.answer.len() == 32 {
        if let Some(place) = place(&case.clocked()) {
            refuse(&mut seen, number, place);
        }
    }
    seen
}

fn is_number_of_steps(steps: u64) -> bool {
    (1..=8).contains(&steps)
}

fn has_line(clocked: &Clocked, line: usize) -> bool {
    line < clocked.each()
}

/// More lines than a circuit may have, or more inputs, where each record takes one away from each later step.
fn is_too_large(clocked: &Clocked) -> bool {
    let all = inputs(&clocked.circuit);
    let free = all.saturating_sub(clocked.states.len() / 4);
    clocked.lines() > 2048 || all + (clocked.steps as usize - 1) * free > 64
}

/// By what is read of the number of steps; by what is taken for a state record; by the order of refusals, their places, and what stays then.
pub fn readers<C: Stepped>() -> [Wrong<C>; 41] {
    [
        ("takes no step for one", |case| but_for(case, |case| *case.steps() = 1.max(*case.steps()))),
        ("takes nine steps for eight", |case| but_for(case, |case| *case.steps() -= u64::from(*case.steps() == 9))),
        ("stops at seven steps", |case| refused(case, 21, |clocked| (clocked.steps == 8).then_some(0))),
        ("takes eight steps for all beyond them", |case| but_for(case, |case| *case.steps() = 8.min(*case.steps()))),
        ("reads the lowest byte of the number of steps", |case| but_for(case, |case| *case.steps() &= 255)),
        ("reads the lower half of the number of steps", |case| but_for(case, |case| *case.steps() &= 0xffff_ffff)),
        // records
        ("leaves part of a record out", |case| {
            but_for(case, |case| {
                let whole = case.states().len() / 4 * 4;
                case.states().truncate(whole);
            })
        }),
        ("wants a state record", |case| refused(case, 18, |clocked| clocked.states.is_empty().then_some(0))),
        ("takes a state line that is named again, with its first data line", |case| {
            with_states(case, |all| {
                let before = all.clone();
                let mut place = 0..;
                all.retain(|[_, line]| before[..place.next().expect("a place")].iter().all(|[_, other]| other != line));
            })
        }),
        ("takes a state line that is named again, with its last data line", |case| {
            with_states(case, |all| {
                let before = all.clone();
                let mut place = 1..;
                all.retain(|[_, line]| before[place.next().expect("a place")..].iter().all(|[_, other]| other != line));
            })
        }),
        ("looks only at the record just before for the same state line", |case| {
            taking_again(case, |earlier, line| earlier.last().is_none_or(|last| last[1] != line))
        }),
        ("takes any line for a state line", |case| {
            taking(case, |clocked, [data, line]| has_line(clocked, data) && has_line(clocked, line) && clocked.circuit[8 * line] != INPUT)
        }),
        ("takes any number for a data line", |case| {
            taking(case, |clocked, [data, line]| !has_line(clocked, data) && has_line(clocked, line) && clocked.circuit[8 * line] == INPUT)
        }),
        ("counts data lines from 1", |case| {
            taking(case, |clocked, [data, line]| data == clocked.each() && has_line(clocked, line) && clocked.circuit[8 * line] == INPUT)
        }),
        ("takes any number for a state line", |case| taking(case, |clocked, [_, line]| !has_line(clocked, line))),
        ("reads the lowest byte of a line's number", |case| {
            with_states(case, |all| all.iter_mut().flatten().for_each(|line| *line &= 255))
        }),
        ("reads a line's number from its other end", |case| {
            with_states(case, |all| all.iter_mut().flatten().for_each(|line| *line = usize::from((*line as u16).swap_bytes())))
        }),
        ("reads the state line first", |case| with_states(case, |all| all.iter_mut().for_each(|pair| pair.reverse()))),
        ("wants a gate for a data line", |case| refusing(case, |clocked, _, [data, _]| clocked.circuit[8 * data] == INPUT)),
        ("wants no state line for a data line", |case| {
            refusing(case, |clocked, _, [data, _]| pairs(&clocked.states).iter().any(|&[_, line]| line == data))
        }),
        ("wants another data line for each state", |case| {
            refusing(case, |_, earlier, [data, _]| earlier.iter().any(|&[other, _]| other == data))
        }),
        ("wants the state lines in order", |case| {
            refusing(case, |_, earlier, [_, line]| earlier.last().is_some_and(|&[_, before]| before > line))
        }),
        // sizes
        ("counts the state lines of every step as inputs", |case| {
            too_large(case, |clocked| clocked.steps as usize * inputs(&clocked.circuit) > 64)
        }),
        ("counts the inputs of one step", |case| then(case, 19, |seen| seen.returned = 19 * u32::from(case.clocked().lines() > 2048))),
        ("counts the state lines of step 1 as no inputs", |case| {
            let clocked = case.clocked();
            then(case, 19, |seen| {
                if clocked.lines() <= 2048 && clocked.inputs() - clocked.states.len() / 4 <= 64 {
                    seen.returned = 0;
                }
            })
        }),
        ("takes 65 inputs", |case| then(case, 19, |seen| seen.returned = 19 * u32::from(case.clocked().inputs() > 65))),
        ("takes any number of lines", |case| then(case, 19, |seen| seen.returned = 19 * u32::from(case.clocked().inputs() > 64))),
        ("refuses 64 inputs", |case| too_large(case, |clocked| clocked.steps > 1 && clocked.inputs() == 64)),
        ("refuses 2,048 lines", |case| too_large(case, |clocked| clocked.steps > 1 && clocked.lines() == 2048)),
        ("looks for an output of the unfolded circuit", |case| {
            then(case, 5, |seen| {
                if !case.clocked().states.is_empty() {
                    seen.returned = 0;
                }
            })
        }),
        // order and places
        ("looks at the steps before the circuit", |case| {
            sooner(case, &[1, 2, 4, 5], 21, |clocked| (!is_number_of_steps(clocked.steps)).then_some(0))
        }),
        ("looks at the states before the steps", |case| {
            sooner(case, &[21], 18, |clocked| wrong_states(clocked).map(|refusal| refusal.place))
        }),
        ("looks at the sizes before the states", |case| sooner(case, &[18], 19, |clocked| is_too_large(clocked).then_some(0))),
        ("gives the earlier record of a state line that is named again", |case| {
            let pairs = pairs(&case.clocked().states);
            then(case, 18, |seen| {
                let place = number(seen);
                if let Some(earlier) = pairs.get(place).and_then(|pair| pairs[..place].iter().position(|other| other[1] == pair[1])) {
                    set_number(seen, earlier);
                }
            })
        }),
        ("gives the last bad record", |case| {
            let clocked = case.clocked();
            then(case, 18, |seen| {
                let states = &clocked.states;
                let is_bad =
                    |&place: &usize| wrong_states(&Clocked { states: states[4 * place..][..4].to_vec(), ..clocked.clone() }).is_some();
                if let Some(last) = (0..states.len() / 4).rev().find(is_bad) {
                    set_number(seen, last);
                }
            })
        }),
        ("gives the byte of a bad record", |case| then(case, 18, |seen| set_number(seen, 4 * number(seen)))),
        ("gives the number of records where a part of one is left over", |case| {
            let len = case.clocked().states.len();
            then(case, 18, |seen| {
                if len % 4 != 0 {
                    set_number(seen, len / 4);
                }
            })
        }),
        ("gives the number of steps as the place of 21", |case| then(case, 21, |seen| set_number(seen, case.clocked().steps as usize))),
        ("clears what is lent where it refuses the number of steps", |case| clearing(case, 21)),
        ("clears what is lent where it refuses a record", |case| clearing(case, 18)),
        ("clears what is lent where it refuses the sizes", |case| clearing(case, 19)),
    ]
}
