//! The picture of a circuit under a pattern, for a class: inputs at the left, gates in columns by level, outputs at the right, with the values of
//! all lines, and with a fault its place and the lines that differ.
mod across;
mod heights;
mod nodes;
mod order;
mod plan;
mod shapes;
mod style;
mod svg;
mod wires;

use crate::circuit::Circuit;
use crate::simulation::{Difference, Simulation};
use heights::heights;
use plan::{Plan, Thing};
use shapes::{BODY, HALF};
use svg::{Anchor, Svg};

/// How far the wires at a gate go straight: before its middle and behind it. Between two columns they bend.
const BEFORE: f64 = 46.0;
const BEHIND: f64 = 92.0;
const MARGIN: f64 = 24.0;
/// The room of the title above the columns, and of the legend below them.
const HEAD: f64 = 116.0;
const FOOT: f64 = 64.0;
/// The width of the legend.
const LEGEND: f64 = 1000.0;
/// The width of a letter of the title.
const TITLE_LETTER: f64 = 13.0;

pub fn draw(circuit: &Circuit, simulation: &Simulation) -> String {
    Picture::of(circuit, simulation).drawn()
}

struct Picture<'a> {
    circuit: &'a Circuit,
    simulation: &'a Simulation,
    plan: Plan,
    /// The middle of each node from top to bottom.
    y: Vec<f64>,
    /// The middle of each column from left to right.
    x: Vec<f64>,
}

impl Picture<'_> {
    fn of<'a>(circuit: &'a Circuit, simulation: &'a Simulation) -> Picture<'a> {
        let mut plan = Plan::of(circuit);
        order::order(&mut plan);
        let y = heights(&plan).into_iter().map(|height| height + HEAD).collect();
        let mut picture = Picture { circuit, simulation, plan, y, x: Vec::new() };
        picture.x = picture.middles();
        picture
    }

    fn drawn(&self) -> String {
        let last = self.plan.columns.len() - 1;
        let right = self.x[last] + self.port_width() + MARGIN;
        let bottom = self.y.iter().copied().fold(0.0, f64::max) + HALF + MARGIN;
        let width = right.max(LEGEND).max(2.0 * MARGIN + TITLE_LETTER * self.title().chars().count() as f64);
        let mut svg = Svg::new(width, bottom + FOOT, &self.title(), style::STYLE);
        self.head(&mut svg);
        self.wires().iter().enumerate().for_each(|(line, wire)| svg.path(&self.class(line), wire));
        self.plan.readers().iter().enumerate().for_each(|(node, readers)| self.node(&mut svg, node, readers.len()));
        if let Some(faulty) = &self.simulation.faulty {
            self.fault(&mut svg, faulty.fault);
        }
        style::legend(&mut svg, MARGIN, bottom + MARGIN, self.simulation.faulty.is_some());
        svg.end()
    }

    /// The line that a pin of a node reads.
    fn read_at(&self, node: usize, pin: usize) -> usize {
        match self.plan.nodes[node].thing {
            Thing::Line(line) => self.circuit.source(line, pin + 1),
            Thing::Wire(line) | Thing::Port(line) => line,
        }
    }

    fn difference(&self, line: usize) -> &'static str {
        match self.simulation.difference(line) {
            Difference::None => "",
            Difference::Sure => " differs",
            Difference::Perhaps => " perhaps",
        }
    }

    /// The file, the pattern and the fault.
    fn title(&self) -> String {
        let fault = self.simulation.faulty.as_ref().map_or(String::new(), |faulty| format!(", fault {}", faulty.fault.named(self.circuit)));
        format!("{}, pattern {}{fault}", self.circuit.file, self.simulation.pattern.letters())
    }

    fn head(&self, svg: &mut Svg) {
        svg.text("title", Anchor::Start, MARGIN, 38.0, &self.title());
        svg.text("verdict", Anchor::Start, MARGIN, 64.0, &self.simulation.verdict(self.circuit).unwrap_or_default());
        let last = self.x.len() - 1;
        for (column, &x) in self.x.iter().enumerate() {
            let (x, anchor, says) = match column {
                0 => (MARGIN, Anchor::Start, "inputs".to_string()),
                output if output == last => (x - BODY, Anchor::Start, "outputs".to_string()),
                level => (x, Anchor::Middle, format!("level {level}")),
            };
            svg.text("level", anchor, x, HEAD - 16.0, &says);
        }
    }
}

fn mean(numbers: impl Iterator<Item = f64>) -> Option<f64> {
    let (sum, count) = numbers.fold((0.0, 0), |(sum, count), number| (sum + number, count + 1));
    (count > 0).then(|| sum / f64::from(count))
}
