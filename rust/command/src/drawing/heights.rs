//! How high each node stands: wires as straight as the order of the columns and the room between nodes allow.
use super::mean;
use super::plan::{Plan, Thing};

/// How far the last of two pins is from the middle of its gate, and the last of three.
const LAST_OF_TWO: f64 = 11.0;
const LAST_OF_THREE: f64 = 15.0;
/// Rounds from left to right and back. More change little.
const ROUNDS: usize = 4;

/// Where a pin is, seen from the middle of its gate.
pub fn pin_height(pin: usize, pins: usize) -> f64 {
    pin_place(pin, pins) * if pins > 2 { LAST_OF_THREE } else { LAST_OF_TWO }
}

/// The same where the first pin is at -1 and the last at 1.
pub fn pin_place(pin: usize, pins: usize) -> f64 {
    match pins {
        0 | 1 => 0.0,
        _ => (2 * pin) as f64 / (pins - 1) as f64 - 1.0,
    }
}

/// The room that a node takes from top to bottom.
fn room(thing: Thing) -> f64 {
    match thing {
        Thing::Line(_) => 84.0,
        Thing::Wire(_) => 18.0,
        Thing::Port(_) => 44.0,
    }
}

/// The middle of each node, from 0 downwards; the highest node ends at 0.
pub fn heights(plan: &Plan) -> Vec<f64> {
    let readers = plan.readers();
    let pins = |node: usize| plan.nodes[node].pins.len();
    let mut heights = vec![0.0; plan.nodes.len()];
    let before = |node: usize, heights: &[f64]| {
        let pin = |(pin, source): (usize, &Option<usize>)| source.map(|source| heights[source] - pin_height(pin, pins(node)));
        mean(plan.nodes[node].pins.iter().enumerate().filter_map(pin))
    };
    let behind =
        |node: usize, heights: &[f64]| mean(readers[node].iter().map(|&(reader, pin)| heights[reader] + pin_height(pin, pins(reader))));
    plan.columns.iter().for_each(|column| place(plan, column, &mut heights, |_, _| None));
    for _ in 0..ROUNDS {
        plan.columns.iter().for_each(|column| place(plan, column, &mut heights, before));
        plan.columns.iter().rev().for_each(|column| place(plan, column, &mut heights, behind));
    }
    plan.columns.iter().for_each(|column| place(plan, column, &mut heights, before));
    let top = (0..heights.len()).map(|node| heights[node] - room(plan.nodes[node].thing) / 2.0).fold(f64::INFINITY, f64::min);
    heights.iter().map(|height| (height - top).round()).collect()
}

/// Places the nodes of a column near what they wish; one without a wish wants to stay where it is.
fn place(plan: &Plan, column: &[usize], heights: &mut [f64], wish: impl Fn(usize, &[f64]) -> Option<f64>) {
    let wishes: Vec<f64> = column.iter().map(|&node| wish(node, heights).unwrap_or(heights[node])).collect();
    let rooms: Vec<f64> = column.iter().map(|&node| room(plan.nodes[node].thing)).collect();
    for (&node, height) in column.iter().zip(spaced(&wishes, &rooms)) {
        heights[node] = height;
    }
}

/// The heights that keep the order and the rooms, and of all such the nearest to the wishes: the sum of the squared distances is least. Nodes
/// that get in each other's way move together, by the mean of what they wish.
fn spaced(wishes: &[f64], rooms: &[f64]) -> Vec<f64> {
    let mut groups: Vec<(f64, usize)> = Vec::new(); // the sum of the wishes, without the rooms above them, and how many
    let mut above = Vec::with_capacity(wishes.len());
    let mut end = 0.0;
    for (wish, room) in wishes.iter().zip(rooms) {
        above.push(end + room / 2.0);
        end += room;
        let mut last = (wish - above[above.len() - 1], 1);
        while let Some(&(sum, count)) = groups.last() {
            if sum / count as f64 <= last.0 / last.1 as f64 {
                break;
            }
            last = (sum + last.0, count + last.1);
            groups.pop();
        }
        groups.push(last);
    }
    let free = groups.into_iter().flat_map(|(sum, count)| std::iter::repeat_n(sum / count as f64, count));
    free.zip(above).map(|(free, above)| free + above).collect()
}

#[cfg(test)]
mod tests {
    use super::spaced;

    #[test]
    fn wishes_that_leave_room_are_met() {
        assert_eq!(spaced(&[1.0, 5.0, 30.0], &[4.0, 4.0, 10.0]), [1.0, 5.0, 30.0]);
    }

    #[test]
    fn the_others_share_what_is_missing() {
        assert_eq!(spaced(&[0.0, 0.0], &[10.0, 10.0]), [-5.0, 5.0]);
        assert_eq!(spaced(&[10.0, 0.0, 100.0], &[10.0, 10.0, 10.0]), [0.0, 10.0, 100.0]);
        assert_eq!(spaced(&[0.0, 0.0, 0.0], &[10.0, 20.0, 10.0]), [-15.0, 0.0, 15.0]);
    }
}
