//! How hard lines are to set: the controllability of document 001, with half of a chance at branches.
//!
//! Every chance is 1 after some number of halvings, and this number stands for it here: that of a product is the sum over its factors, and that
//! of the larger of two chances is the smaller.
use crate::circuit::{Circuit, Gate, Rules};
use crate::refusal::{ensure, Refusal};

/// How many halvings of 1 give the chance of 1, and how many the chance of 0.
#[derive(Clone, Copy, Debug, PartialEq, Eq)]
pub struct Halvings {
    pub one: u32,
    pub zero: u32,
}

/// No line has more.
pub const FLOOR: u32 = 500;

/// What 1 is after so many halvings: its bits are an exponent and nothing else.
pub fn chance(halvings: u32) -> f64 {
    f64::from_bits(u64::from(1023 - halvings) << 52)
}

impl Halvings {
    /// What a pin sees where this line is read so many times.
    fn at_pin(self, readings: usize) -> Halvings {
        let more = u32::from(readings > 1);
        Halvings { one: self.one + more, zero: self.zero + more }
    }

    fn floored(self) -> Halvings {
        Halvings { one: self.one.min(FLOOR), zero: self.zero.min(FLOOR) }
    }
}

fn not(p: Halvings) -> Halvings {
    Halvings { one: p.zero, zero: p.one }
}

fn and(p: Halvings, q: Halvings) -> Halvings {
    Halvings { one: p.one + q.one, zero: p.zero.min(q.zero) }
}

fn or(p: Halvings, q: Halvings) -> Halvings {
    Halvings { one: p.one.min(q.one), zero: p.zero + q.zero }
}

fn xor(p: Halvings, q: Halvings) -> Halvings {
    Halvings { one: (p.zero + q.one).min(p.one + q.zero), zero: (p.zero + q.zero).min(p.one + q.one) }
}

fn selected(p: Halvings, q: Halvings, select: Halvings) -> Halvings {
    Halvings { one: (select.zero + p.one).min(select.one + q.one), zero: (select.zero + p.zero).min(select.one + q.zero) }
}

impl Gate<Halvings> {
    /// What a gate makes of what its pins see, before the floor.
    fn halvings(self) -> Halvings {
        self.made(Rules { input: Halvings { one: 0, zero: 0 }, not, and, or, xor, selected })
    }
}

impl Circuit {
    /// For each line.
    pub fn halvings(&self) -> Vec<Halvings> {
        let readers = self.readers();
        let mut all: Vec<Halvings> = vec![];
        for line in &self.lines {
            let made = line.gate.over(|_, source| all[source].at_pin(readers[source].len())).halvings();
            all.push(made.floored());
        }
        all
    }
}

/// How hard the lines of a circuit are to set, lent buffers of these sizes.
pub fn control(circuit: &[u8], ones: usize, zeros: usize) -> Result<Vec<Halvings>, Refusal> {
    let circuit = Circuit::read(circuit)?;
    ensure(ones == circuit.lines.len(), 10)?;
    ensure(zeros == circuit.lines.len(), 10)?;
    Ok(circuit.halvings())
}
