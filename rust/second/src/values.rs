//! Values of lines: known, or X.
use crate::circuit::{Circuit, Gate, Rules};
use crate::fault::{Fault, Site};

/// A known value, or `None` for X.
pub type Value = Option<bool>;

fn not(a: Value) -> Value {
    Some(!a?)
}

fn and(a: Value, b: Value) -> Value {
    match (a, b) {
        (Some(false), _) | (_, Some(false)) => Some(false),
        (Some(true), Some(true)) => Some(true),
        _ => None,
    }
}

fn or(a: Value, b: Value) -> Value {
    match (a, b) {
        (Some(true), _) | (_, Some(true)) => Some(true),
        (Some(false), Some(false)) => Some(false),
        _ => None,
    }
}

fn xor(a: Value, b: Value) -> Value {
    Some(a? ^ b?)
}

/// A choice over both values of the select: what those give that it may have, if they give the same.
fn selected(a: Value, b: Value, select: Value) -> Value {
    let possible = [(false, a), (true, b)].into_iter().filter(|&(value, _)| select != Some(!value)).map(|(_, given)| given);
    possible.reduce(|one, other| one.filter(|_| one == other)).expect("a value that the select may have")
}

/// A value from its byte: 0, 1, or 2 for X.
pub fn value(byte: u8) -> Option<Value> {
    match byte {
        0 => Some(Some(false)),
        1 => Some(Some(true)),
        2 => Some(None),
        _ => None,
    }
}

/// The byte of a value.
pub fn byte(value: &Value) -> u8 {
    value.map_or(2, u8::from)
}

/// The bytes of the good and then of the faulty values.
pub fn bytes(good: &[Value], faulty: &[Value]) -> Vec<u8> {
    good.iter().chain(faulty).map(byte).collect()
}

impl Gate<Value> {
    /// The value that a gate makes of those at its pins. An input makes none.
    pub fn value(self) -> Value {
        self.made(Rules { input: None, not, and, or, xor, selected })
    }
}

impl Circuit {
    /// The values of all lines under a pattern, with or without a fault.
    pub fn values(&self, pattern: &[Value], fault: Option<Fault>) -> Vec<Value> {
        self.values_by(Gate::value, pattern, fault)
    }

    /// The same where gates go by this rule.
    pub fn values_by(&self, rule: fn(Gate<Value>) -> Value, pattern: &[Value], fault: Option<Fault>) -> Vec<Value> {
        let mut pattern = pattern.iter().copied();
        let given = |line: usize| (self.lines[line].gate == Gate::Input).then(|| pattern.next().expect("a value for each input"));
        self.values_given(rule, given, fault)
    }

    /// The same where some lines are given their values, asked for in line order, and the gates of the others go by this rule.
    pub fn values_given(
        &self,
        rule: fn(Gate<Value>) -> Value,
        mut given: impl FnMut(usize) -> Option<Value>,
        fault: Option<Fault>,
    ) -> Vec<Value> {
        let mut values = Vec::with_capacity(self.lines.len());
        for (number, line) in self.lines.iter().enumerate() {
            let stuck = |site| fault.filter(|fault| (fault.line, fault.site) == (number, site)).map(|fault| Some(fault.stuck));
            let seen = |pin, source: usize| stuck(Site::Pin(pin)).unwrap_or(values[source]);
            let value = given(number).unwrap_or_else(|| rule(line.gate.over(seen)));
            values.push(stuck(Site::Line).unwrap_or(value));
        }
        values
    }
}
