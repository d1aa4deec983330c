//! The columns from left to right, with room for names and for wires that bend.
use super::plan::Thing;
use super::shapes::BODY;
use super::{Picture, BEFORE, BEHIND, MARGIN};
use crate::kind::Kind;

/// The width of a letter of a name.
pub const LETTER: f64 = 8.5;

impl Picture<'_> {
    /// The middles of the columns: between two there is room for names, and the more the higher the wires climb there.
    pub fn middles(&self) -> Vec<f64> {
        let mut middles = vec![MARGIN + self.width_before(0)];
        for column in 1..self.plan.columns.len() {
            let climb = self.plan.columns[column].iter().map(|&node| self.climb(node)).fold(0.0, f64::max);
            let bend = 40.0 + (climb / 4.0).min(200.0).round();
            middles.push(middles[column - 1] + BEHIND + bend + self.width_before(column));
        }
        middles
    }

    /// How high the wires climb or fall that come in at a node.
    fn climb(&self, node: usize) -> f64 {
        let sources = self.plan.nodes[node].pins.iter().flatten();
        sources.map(|&source| (self.y[source] - self.y[node]).abs()).fold(0.0, f64::max)
    }

    /// What a column needs left of its middle.
    fn width_before(&self, column: usize) -> f64 {
        let node_width = |&node: &usize| match self.plan.nodes[node].thing {
            Thing::Line(line) if self.circuit.kind(line) == Kind::Input => self.box_width(line) - BODY,
            Thing::Line(line) => {
                let labels = self.labels(node).into_iter().map(|source| self.name_width(source) + BEFORE + 4.0);
                labels.fold((self.name_width(line) / 2.0).max(BEFORE), f64::max)
            }
            Thing::Wire(_) | Thing::Port(_) => BEFORE,
        };
        self.plan.columns[column].iter().map(node_width).fold(0.0, f64::max).round()
    }

    /// The lines that a node reads over wires that are not drawn.
    fn labels(&self, node: usize) -> Vec<usize> {
        let pins = &self.plan.nodes[node].pins;
        (0..pins.len()).filter(|&pin| pins[pin].is_none()).map(|pin| self.read_at(node, pin)).collect()
    }

    pub fn name_width(&self, line: usize) -> f64 {
        LETTER * self.circuit.name(line).len() as f64
    }

    /// The width of an input's box.
    pub fn box_width(&self, line: usize) -> f64 {
        (self.name_width(line) + 20.0).round()
    }

    /// What the outputs need right of the middle of their column.
    pub fn port_width(&self) -> f64 {
        let ports = (0..self.circuit.size()).filter(|&line| self.circuit.is_output(line));
        ports.map(|line| self.name_width(line) + 6.0 * LETTER).fold(0.0, f64::max).round()
    }
}
