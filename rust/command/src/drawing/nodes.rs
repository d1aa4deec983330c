//! Gates, inputs, outputs and the fault, with their names and values.
use super::across::LETTER;
use super::heights::pin_height;
use super::plan::Thing;
use super::shapes::{self, BODY, HALF};
use super::svg::{Anchor, Svg};
use super::{Picture, BEFORE, BEHIND};
use crate::fault::Fault;
use crate::kind::Kind;

/// Where on the wire behind a gate the value stands, and the cross of a fault.
const VALUE: f64 = 66.0;

impl Picture<'_> {
    pub fn node(&self, svg: &mut Svg, node: usize, readers: usize) {
        let at = &self.plan.nodes[node];
        let (x, y, line) = (self.x[at.column], self.y[node], at.thing.line());
        match at.thing {
            Thing::Line(line) => svg.group(&format!("line-{}", self.circuit.name(line)), x, y, |svg| self.line(svg, line)),
            Thing::Port(line) => svg.group(&format!("output-{}", self.circuit.name(line)), x, y, |svg| self.port(svg, line)),
            Thing::Wire(_) => (),
        }
        if readers > 1 {
            svg.circle(&format!("dot{}", self.difference(line)), x + BEHIND, y, 3.5);
        }
        for pin in (0..at.pins.len()).filter(|&pin| at.pins[pin].is_none() && matches!(at.thing, Thing::Line(_))) {
            let height = y + pin_height(pin, at.pins.len()) + 4.0;
            svg.text("label", Anchor::End, x - BEFORE - 4.0, height, self.circuit.name(self.read_at(node, pin)));
        }
    }

    fn line(&self, svg: &mut Svg, line: usize) {
        let (name, kind) = (self.circuit.name(line), self.circuit.kind(line));
        if kind == Kind::Input {
            let width = self.box_width(line);
            svg.path("gate", &format!("M{BODY} -15H{}V15H{BODY}Z", BODY - width));
            svg.text("name", Anchor::Middle, BODY - width / 2.0, 5.0, name);
        } else {
            shapes::draw(svg, kind);
            svg.text("name", Anchor::Middle, 0.0, -HALF - 7.0, name);
        }
        svg.text(&format!("value{}", self.difference(line)), Anchor::Middle, VALUE, -9.0, &self.simulation.letters(line));
    }

    fn port(&self, svg: &mut Svg, line: usize) {
        let (name, values) = (self.circuit.name(line), self.simulation.letters(line));
        let end = self.name_width(line) + LETTER * (values.len() + 1) as f64;
        svg.path("gate", &format!("M{} 0L{} -15H{end}V15H{}Z", -BODY, 12.0 - BODY, 12.0 - BODY));
        svg.text("name", Anchor::Start, 18.0 - BODY, 5.0, name);
        svg.text(&format!("value{}", self.difference(line)), Anchor::End, end - 7.0, 5.0, &values);
    }

    /// A cross on the wire that is stuck, and what it is stuck at.
    pub fn fault(&self, svg: &mut Svg, fault: Fault) {
        let Some(node) = self.plan.nodes.iter().position(|node| node.thing == Thing::Line(fault.line)) else { return };
        let (x, y) = (self.x[self.plan.nodes[node].column], self.y[node]);
        let word = fault.named(self.circuit);
        svg.group("fault", x, y, |svg| match fault.site {
            0 => {
                svg.path("cross", &cross(VALUE, 0.0));
                svg.text("stuck", Anchor::Middle, VALUE, 22.0, &word);
            }
            pin => {
                let height = pin_height(pin - 1, self.circuit.kind(fault.line).pins());
                svg.path("cross", &cross(8.0 - BEFORE, height));
                svg.text("stuck", Anchor::Middle, 0.0, HALF + 17.0, &word);
            }
        });
    }
}

/// Two strokes through a point.
pub fn cross(x: f64, y: f64) -> String {
    let (left, right, top, bottom) = (x - 6.0, x + 6.0, y - 6.0, y + 6.0);
    format!("M{left} {top}L{right} {bottom}M{left} {bottom}L{right} {top}")
}
