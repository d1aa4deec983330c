//! The order of a column from top to bottom, so that wires cross little: what is joined is brought to the same height, column by column.
use super::heights::pin_place;
use super::mean;
use super::plan::Plan;

/// Rounds from left to right and back. More change little.
const ROUNDS: usize = 4;
/// How far the last pin is from the middle of its gate, where nodes are one apart.
const LAST_PIN: f64 = 0.25;

/// Orders all columns but the first: the inputs stay in the order of the pattern's values.
pub fn order(plan: &mut Plan) {
    let readers = plan.readers();
    let Plan { nodes, columns } = plan;
    let mut places = vec![0.0; nodes.len()];
    columns.iter().for_each(|column| number(column, &mut places));
    let before = |node: usize, places: &[f64]| mean(nodes[node].pins.iter().flatten().map(|&source| places[source]));
    let read_at = |reader: usize, pin: usize| LAST_PIN * pin_place(pin, nodes[reader].pins.len());
    let behind = |node: usize, places: &[f64]| mean(readers[node].iter().map(|&(reader, pin)| places[reader] + read_at(reader, pin)));
    for _ in 0..ROUNDS {
        columns.iter_mut().skip(1).for_each(|column| sort(column, &mut places, before));
        columns.iter_mut().skip(1).rev().for_each(|column| sort(column, &mut places, behind));
    }
    columns.iter_mut().skip(1).for_each(|column| sort(column, &mut places, before));
}

/// Sorts a column by what each node wishes; one without a wish wants to stay where it is.
fn sort(column: &mut [usize], places: &mut [f64], wish: impl Fn(usize, &[f64]) -> Option<f64>) {
    let mut wishes: Vec<(f64, usize)> = column.iter().map(|&node| (wish(node, places).unwrap_or(places[node]), node)).collect();
    wishes.sort_by(|one, other| one.0.total_cmp(&other.0));
    column.iter_mut().zip(wishes).for_each(|(place, (_, node))| *place = node);
    number(column, places);
}

fn number(column: &[usize], places: &mut [f64]) {
    column.iter().enumerate().for_each(|(place, &node)| places[node] = place as f64);
}
