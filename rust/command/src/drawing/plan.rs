//! What a drawing is made of, column by column: the lines at their levels, the outputs at the right, and in between the wires that pass.
use crate::circuit::Circuit;
use crate::levels::levels;

/// A wire that would pass more columns than these is not drawn: the pin that reads it has the line's name beside it.
const MOST_COLUMNS: usize = 40;

#[derive(Clone, Copy, PartialEq, Eq, Debug)]
pub enum Thing {
    /// An input or a gate.
    Line(usize),
    /// The wire of a line on its way to a column further on.
    Wire(usize),
    /// An output at the right.
    Port(usize),
}

impl Thing {
    /// The line that it is about.
    pub fn line(self) -> usize {
        let (Thing::Line(line) | Thing::Wire(line) | Thing::Port(line)) = self;
        line
    }
}

pub struct Node {
    pub thing: Thing,
    pub column: usize,
    /// For each pin the node in the column before whose wire comes in there; nothing where that wire is not drawn.
    pub pins: Vec<Option<usize>>,
}

pub struct Plan {
    pub nodes: Vec<Node>,
    /// The nodes of each column from top to bottom.
    pub columns: Vec<Vec<usize>>,
}

impl Plan {
    pub fn of(circuit: &Circuit) -> Plan {
        let levels = levels(circuit);
        let last = levels.iter().max().map_or(0, |highest| highest + 1);
        let mut plan = Plan { nodes: Vec::new(), columns: vec![Vec::new(); last + 1] };
        // for each line its node, and then the wires that carry it on
        let carriers: Vec<Vec<usize>> = reaches(circuit, &levels, last)
            .into_iter()
            .enumerate()
            .map(|(line, reach)| {
                let thing = |on| if on == 0 { Thing::Line(line) } else { Thing::Wire(line) };
                (0..=reach).map(|on| plan.push(thing(on), levels[line] + on)).collect()
            })
            .collect();
        let carrier = |line: usize, column: usize| carriers[line].get(column - 1 - levels[line]).copied();
        for line in 0..circuit.size() {
            let own = carriers[line][0];
            plan.nodes[own].pins = circuit.sources(line).into_iter().map(|source| carrier(source, levels[line])).collect();
            carriers[line].windows(2).for_each(|pair| plan.nodes[pair[1]].pins = vec![Some(pair[0])]);
            if circuit.is_output(line) {
                let port = plan.push(Thing::Port(line), last);
                plan.nodes[port].pins = vec![carrier(line, last)];
            }
        }
        plan
    }

    fn push(&mut self, thing: Thing, column: usize) -> usize {
        let node = self.nodes.len();
        self.nodes.push(Node { thing, column, pins: Vec::new() });
        self.columns[column].push(node);
        node
    }

    /// For each node the nodes of the next column that read it, each with the pin.
    pub fn readers(&self) -> Vec<Vec<(usize, usize)>> {
        let mut readers = vec![Vec::new(); self.nodes.len()];
        for (reader, node) in self.nodes.iter().enumerate() {
            for (pin, source) in node.pins.iter().enumerate() {
                if let Some(source) = *source {
                    readers[source].push((reader, pin));
                }
            }
        }
        readers
    }
}

/// For each line how many columns its wire must pass to reach all that is drawn to read it.
fn reaches(circuit: &Circuit, levels: &[usize], last: usize) -> Vec<usize> {
    let mut reaches = vec![0; circuit.size()];
    let mut read = |line: usize, column: usize| {
        let passed = column - 1 - levels[line];
        if passed <= MOST_COLUMNS {
            reaches[line] = passed.max(reaches[line]);
        }
    };
    for (line, &level) in levels.iter().enumerate() {
        circuit.sources(line).into_iter().for_each(|source| read(source, level));
        if circuit.is_output(line) {
            read(line, last);
        }
    }
    reaches
}
