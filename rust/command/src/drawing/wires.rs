//! The wires: from a gate behind it, past other columns, and in at the pins that read it.
use super::heights::pin_height;
use super::plan::Thing;
use super::shapes::{self, BODY};
use super::{Picture, BEFORE, BEHIND};
use crate::value::Value;

impl Picture<'_> {
    /// What colour and what stroke the wire of a line has.
    pub fn class(&self, line: usize) -> String {
        let value = match self.simulation.good(line) {
            Value::Zero => "zero",
            Value::One => "one",
            Value::X => "x",
        };
        format!("wire {value}{}", self.difference(line))
    }

    /// For each line the way of its wire, from its gate to all that read it.
    pub fn wires(&self) -> Vec<String> {
        let mut wires = vec![String::new(); self.circuit.size()];
        for (node, at) in self.plan.nodes.iter().enumerate() {
            let (x, y) = (self.x[at.column], self.y[node]);
            match at.thing {
                Thing::Line(line) => wires[line] += &format!("M{} {y}H{}", x + shapes::right(self.circuit.kind(line)), x + BEHIND),
                Thing::Wire(line) => wires[line] += &format!("M{} {y}H{}", x - BEFORE, x + BEHIND),
                Thing::Port(_) => (),
            }
            for pin in 0..at.pins.len() {
                wires[self.read_at(node, pin)] += &self.way_in(node, pin);
            }
        }
        wires
    }

    /// The way to a pin from the column before, or its last piece where the wire is not drawn.
    fn way_in(&self, node: usize, pin: usize) -> String {
        let at = &self.plan.nodes[node];
        let (x, y) = (self.x[at.column], self.y[node] + pin_height(pin, at.pins.len()));
        let from = x - BEFORE;
        let end = match at.thing {
            Thing::Line(line) => x + shapes::left(self.circuit.kind(line)),
            Thing::Wire(_) => from,
            Thing::Port(_) => x - BODY,
        };
        match at.pins[pin] {
            None => format!("M{from} {y}H{end}"),
            Some(source) => {
                let (x, height) = (self.x[at.column - 1] + BEHIND, self.y[source]);
                let middle = (x + from) / 2.0;
                format!("M{x} {height}C{middle} {height} {middle} {y} {from} {y}H{end}")
            }
        }
    }
}
