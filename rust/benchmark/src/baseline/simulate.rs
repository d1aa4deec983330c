//! Simulation with three values, and the entry of a pattern and a fault.
use super::gates::Gates;
use super::{word, SELECTOR};
use std::ops::Range;

#[derive(Clone, Copy)]
pub struct Fault {
    pub line: usize,
    pub site: u8,
    pub value: u8,
}

impl Fault {
    pub fn read(faults: &[u8], j: usize) -> Fault {
        Fault { line: word(faults, 8 * j), site: faults[8 * j + 2], value: faults[8 * j + 3] }
    }

    fn seen(self, site: u8, v: u8) -> u8 {
        if site == self.site {
            self.value
        } else {
            v
        }
    }
}

/// The value of line k, a gate, whose pins see this.
fn value<G: Gates>(circuit: &[u8], k: usize, pin: impl Fn(u8) -> u8) -> u8 {
    match circuit[8 * k] {
        SELECTOR => G::selected(pin(1), pin(2), pin(3)),
        kind => G::value(kind, pin(1), pin(2)),
    }
}

/// Gives each of these lines its value; an input's line has it already.
fn simulate<G: Gates>(circuit: &[u8], values: &mut [u8], lines: Range<usize>) {
    for k in lines {
        if circuit[8 * k] != 0 {
            values[k] = value::<G>(circuit, k, |site| values[word(circuit, 8 * k + 2 * site as usize)]);
        }
    }
}

/// The good values, in the first half of the work memory.
pub fn good_values<G: Gates>(circuit: &[u8], pattern: &[u8], work: &mut [u8], n: usize) {
    let values = &mut work[..n];
    let mut used = 0;
    for k in 0..n {
        values[k] = 2;
        if circuit[8 * k] == 0 {
            values[k] = pattern[used];
            used += 1;
        }
    }
    simulate::<G>(circuit, values, 0..n);
}

/// The value of a line where the fault is.
fn stuck_value<G: Gates>(circuit: &[u8], fault: Fault, line: usize, values: &[u8]) -> u8 {
    let v = if circuit[8 * line] == 0 {
        values[line]
    } else {
        value::<G>(circuit, line, |site| fault.seen(site, values[word(circuit, 8 * line + 2 * site as usize)]))
    };
    fault.seen(0, v)
}

/// The faulty values, in the second half: those below the fault's line are the good ones.
pub fn faulty_values<G: Gates>(circuit: &[u8], fault: Fault, work: &mut [u8], n: usize) {
    faulty_in_steps::<G>(circuit, fault, work, n, n);
}

/// The same where the fault is in each step of so many lines.
pub fn faulty_in_steps<G: Gates>(circuit: &[u8], fault: Fault, work: &mut [u8], n: usize, each: usize) {
    let (good, values) = work.split_at_mut(n);
    values.copy_from_slice(good);
    for line in (fault.line..n).step_by(each) {
        values[line] = stuck_value::<G>(circuit, fault, line, values);
        simulate::<G>(circuit, values, line + 1..n.min(line + each));
    }
}

/// 1 fail, 0 pass, 2 unknown. Where the good value is X, an output is masked or makes unknown.
pub fn entry(masks: bool, circuit: &[u8], work: &[u8], n: usize) -> u8 {
    let mut entry = 0;
    for k in 0..n {
        if circuit[8 * k + 1] == 1 {
            let (a, b) = (work[k], work[n + k]);
            if a >= 2 && masks {
                continue;
            }
            if a >= 2 || b >= 2 {
                entry = 2;
            } else if a != b {
                return 1;
            }
        }
    }
    entry
}
