//! Programs for how hard lines are to set that are wrong in one way each.
use super::answered::{number, refuse, set_number, then};
use super::but_for::{but_for, clearing, Wrong};
use super::chances::{below, by, floored, half, Chances, Pin, Way, RIGHT};
use super::changed::{accepted, written_though_refused};
use super::harness::{Case, Control};
use second::circuit::Circuit;
use second::entries::Seen;

/// A program that counts readings in another way.
fn counting(case: &Control, readings: fn(&Circuit) -> Vec<usize>) -> Seen {
    by(case, Way { readings, ..RIGHT })
}

/// A program whose pins see something else.
fn seeing(case: &Control, sees: fn(&Pin, Chances) -> Chances) -> Seen {
    by(case, Way { sees, ..RIGHT })
}

/// A program with another floor.
fn flooring(case: &Control, floors: fn(Chances) -> Chances) -> Seen {
    by(case, Way { floors, ..RIGHT })
}

/// How many lines the circuit has, if it is one.
fn lines(case: &Control) -> usize {
    case.circuit.len() / 8
}

/// Of a buffer that is too large the first part is taken for it.
fn taking_larger(case: &Control, buffer: fn(&mut Control) -> &mut Vec<f64>, lent: usize) -> Seen {
    let mut given = case.clone();
    let buffer = buffer(&mut given);
    let behind = buffer.split_off(lines(case).min(buffer.len()));
    let mut seen = given.second();
    seen.lent[lent].f64().extend(behind);
    seen
}

/// Where this is refused a NaN in what is lent that signals does so no longer.
fn quieting(case: &Control, refused: u32) -> Seen {
    then(case, refused, |seen| {
        for chance in seen.lent.iter_mut().flat_map(|slice| slice.f64()).filter(|chance| chance.is_nan()) {
            *chance = f64::from_bits(chance.to_bits() | 1 << 51);
        }
    })
}

/// By what counts as a reading, and what a pin sees; by the floor; by what is written where; by what is refused, and what stays then.
pub const PROGRAMS: [Wrong<Control>; 48] = [
    ("counts a gate once that reads a line with two pins", |case| {
        counting(case, |circuit| {
            let mut readers = circuit.readers();
            readers.iter_mut().for_each(Vec::dedup);
            readers.iter().map(Vec::len).collect()
        })
    }),
    ("counts an output as a reading", |case| {
        counting(case, |circuit| {
            let outputs = circuit.lines.iter().map(|line| usize::from(line.output));
            (RIGHT.readings)(circuit).into_iter().zip(outputs).map(|(readings, output)| readings + output).collect()
        })
    }),
    ("counts what stands at pins that a kind lacks", |case| {
        counting(case, |circuit| {
            let mut readings = (RIGHT.readings)(circuit);
            readings[0] += circuit.lines.iter().map(|line| 3 - line.gate.sources().len()).sum::<usize>();
            readings
        })
    }),
    ("counts the first pins alone", |case| {
        counting(case, |circuit| {
            let mut readings = vec![0; circuit.lines.len()];
            circuit.lines.iter().filter_map(|line| line.gate.sources().first().copied()).for_each(|source| readings[source] += 1);
            readings
        })
    }),
    ("does not count selects", |case| {
        counting(case, |circuit| {
            let mut readings = (RIGHT.readings)(circuit);
            circuit.lines.iter().filter_map(|line| line.gate.sources().get(2).copied()).for_each(|select| readings[select] -= 1);
            readings
        })
    }),
    ("counts readings in a byte", |case| {
        counting(case, |circuit| (RIGHT.readings)(circuit).into_iter().map(|readings| readings % 256).collect())
    }),
    ("counts readings as it goes, so that the first pin sees no branch", |case| {
        seeing(case, |pin, chances| {
            let below =
                pin.circuit.lines[..pin.line].iter().flat_map(|line| line.gate.sources()).filter(|&source| source == pin.source).count();
            if below > 0 {
                half(chances)
            } else {
                chances
            }
        })
    }),
    ("takes half at every pin", |case| seeing(case, |_, chances| half(chances))),
    ("takes half at no pin", |case| seeing(case, |_, chances| chances)),
    ("takes half from three readings on", |case| seeing(case, |pin, chances| if pin.readings() > 2 { half(chances) } else { chances })),
    ("takes half where nothing branches", |case| seeing(case, |pin, chances| if pin.readings() > 1 { chances } else { half(chances) })),
    ("takes a quarter at a branch", |case| seeing(case, |pin, chances| if pin.readings() > 1 { half(half(chances)) } else { chances })),
    ("takes a half for each reading but one", |case| seeing(case, |pin, chances| (1..pin.readings()).fold(chances, |seen, _| half(seen)))),
    ("shares a chance among all pins", |case| seeing(case, |pin, chances| chances.each(|chance| chance / pin.readings() as f64))),
    ("takes the half twice where one gate alone reads a line", |case| {
        seeing(case, |pin, chances| {
            let seen = (RIGHT.sees)(pin, chances);
            if pin.readings() > 1 && pin.is_of_the_one_gate() {
                half(seen)
            } else {
                seen
            }
        })
    }),
    ("takes half of the chance of 1 alone", |case| {
        seeing(case, |pin, chances| Chances { zero: chances.zero, ..(RIGHT.sees)(pin, chances) })
    }),
    ("takes half of the chance of 0 alone", |case| seeing(case, |pin, chances| Chances { one: chances.one, ..(RIGHT.sees)(pin, chances) })),
    ("takes no half at a second pin", |case| {
        seeing(case, |pin, chances| if pin.number == 2 { chances } else { (RIGHT.sees)(pin, chances) })
    }),
    ("takes no half at a select", |case| seeing(case, |pin, chances| if pin.number == 3 { chances } else { (RIGHT.sees)(pin, chances) })),
    // the floor
    ("has no floor", |case| flooring(case, |chances| chances)),
    ("has its floor at 499 halvings", |case| flooring(case, |chances| floored(chances, 499))),
    ("has its floor at 501 halvings", |case| flooring(case, |chances| floored(chances, 501))),
    ("has a floor for 1 alone", |case| flooring(case, |chances| Chances { zero: chances.zero, ..floored(chances, 500) })),
    ("has a floor for 0 alone", |case| flooring(case, |chances| Chances { one: chances.one, ..floored(chances, 500) })),
    ("gives 0 for what is below the floor", |case| flooring(case, |chances| below(chances, 500, 0.0))),
    ("puts the floor to pins alone", |case| {
        by(case, Way { sees: |pin, chances| floored((RIGHT.sees)(pin, chances), 500), floors: |chances| chances, ..RIGHT })
    }),
    // what is written
    ("exchanges the buffers", |case| accepted(case, |seen| seen.lent.swap(0, 1))),
    ("writes the chance of 1 into both buffers", |case| accepted(case, |seen| seen.lent[1] = seen.lent[0].clone())),
    ("leaves the last line out", |case| {
        accepted(case, |seen| {
            let last = lines(case) - 1;
            seen.lent[0].f64()[last] = case.ones[last];
            seen.lent[1].f64()[last] = case.zeros[last];
        })
    }),
    ("leaves line 0 as it was", |case| accepted(case, |seen| seen.lent[1].f64()[0] = case.zeros[0])),
    ("writes the last line first", |case| accepted(case, |seen| seen.lent.iter_mut().for_each(|slice| slice.f64().reverse()))),
    ("writes half of what a line has that branches", |case| {
        accepted(case, |seen| {
            let readings = (RIGHT.readings)(&Circuit::read(&case.circuit).expect("accepted"));
            for slice in &mut seen.lent {
                slice.f64().iter_mut().zip(&readings).filter(|(_, &readings)| readings > 1).for_each(|(chance, _)| *chance *= 0.5);
            }
        })
    }),
    ("answers the number of lines", |case| accepted(case, |seen| set_number(seen, lines(case)))),
    // refusals
    ("looks at the buffers before the circuit", |case| {
        let mut seen = case.second();
        if case.answer.len() == 32 && [case.ones.len(), case.zeros.len()] != [lines(case); 2] {
            refuse(&mut seen, 10, 0);
        }
        seen
    }),
    ("takes more than it needs for 1", |case| taking_larger(case, |case| &mut case.ones, 0)),
    ("takes more than it needs for 0", |case| taking_larger(case, |case| &mut case.zeros, 1)),
    ("tells how many chances it wants", |case| then(case, 10, |seen| refuse(seen, 10, lines(case)))),
    ("writes ones though the zeros have another size", |case| {
        let ones = by(&Control { zeros: case.ones.clone(), ..case.clone() }, RIGHT).lent[0].clone();
        then(case, 10, |seen| seen.lent[0] = ones)
    }),
    ("fills the ones where either buffer has another size", written_though_refused),
    ("clears the zeros where either buffer has another size", |case| then(case, 10, |seen| seen.lent[1].fill(0))),
    ("clears what is lent where it refuses the circuit's size", |case| clearing(case, 1)),
    ("clears what is lent where it refuses a record", |case| clearing(case, 2)),
    ("clears what is lent where it refuses the number of inputs", |case| clearing(case, 4)),
    ("clears what is lent where it refuses a circuit without output", |case| clearing(case, 5)),
    ("quiets what is lent where it refuses a record", |case| quieting(case, 2)),
    ("quiets what is lent where it refuses a buffer", |case| quieting(case, 10)),
    ("tells the line of a bad record", |case| then(case, 2, |seen| set_number(seen, number(seen) / 8))),
    ("takes an area of any size", |case| but_for(case, |case| case.answer.resize(32, 0))),
];
