//! The second program's search over head lines: where lines stand, what document 001 says of its figures, and what all input vectors do.
mod vectors;

use cases::placed::{self, figure_1, figure_5, FIGURE_1, FIGURE_5};
use cases::{circuits, drawn, faults, trees, Random};
use second::circuit::{Circuit, Gate};
use second::search::search_circuit;
use second::search_heads::{pins, searched, Place, Placed};
use second::values::byte;
use second::{Fault, Outcome, Searched, Site, Value};
use vectors::{detects, every_pattern, fillings, tiny_of, with_faults};

#[test]
fn places_by_hand() {
    for by_hand in placed::every() {
        let circuit = Circuit::read(&by_hand.circuit).expect("sound");
        let places = Placed::new(&circuit).places;
        let at = |place| (0..places.len()).filter(|&line| places[line] == place).collect::<Vec<_>>();
        assert_eq!((at(Place::Bound), at(Place::Head)), (by_hand.bound, by_hand.heads), "{}", by_hand.name);
    }
}

/// How many pins read a line.
fn readings(circuit: &Circuit, line: usize) -> usize {
    circuit.lines.iter().flat_map(|reader| reader.gate.sources()).filter(|&source| source == line).count()
}

/// Some pin reads a line that branches or is bound itself.
fn is_bound(circuit: &Circuit, line: usize) -> bool {
    circuit.lines[line].gate.sources().into_iter().any(|source| readings(circuit, source) > 1 || is_bound(circuit, source))
}

/// Free, and a bound line reads it; a free line that branches is read by bound lines alone.
fn is_head(circuit: &Circuit, line: usize) -> bool {
    let read_by = |reader: usize| circuit.lines[reader].gate.sources().contains(&line);
    !is_bound(circuit, line) && (0..circuit.lines.len()).any(|reader| read_by(reader) && is_bound(circuit, reader))
}

/// A circuit of a few lines, with trees or not, and all its faults.
fn tiny(random: &mut Random) -> (Circuit, Vec<Fault>) {
    if random.once_in(3) {
        return tiny_of(random, 10);
    }
    let (inputs, in_trees, above) = (1 + random.below(5), random.below(7), random.below(5));
    with_faults(&trees::circuit(random, inputs, in_trees, above))
}

/// Seen from the end of a path as from its beginning. No two head lines have an input in common, so that they are no more than the inputs.
#[test]
fn places_of_every_line() {
    let mut seen = [0; 3];
    for (circuit, _) in drawn(1, 3_000, tiny) {
        let placed = Placed::new(&circuit);
        for (line, &place) in placed.places.iter().enumerate() {
            let expected = match (is_bound(&circuit, line), is_head(&circuit, line)) {
                (true, _) => Place::Bound,
                (false, true) => Place::Head,
                (false, false) => Place::Other,
            };
            assert_eq!(place, expected, "line {line} of {circuit:?}");
            assert!(place != Place::Other || readings(&circuit, line) < 2);
            seen[place as usize] += 1;
        }
        assert!(placed.heads().count() <= circuit.inputs().count());
    }
    assert!(seen.iter().all(|&times| times > 2_000), "{seen:?}");
}

/// Whatever value a gate of a tree has to make, what is put on its pins makes it, and nothing that it does not need is put there.
#[test]
fn pins_of_every_gate() {
    let gates = [
        (Gate::Buffer(0), ["0", "1"]),
        (Gate::Not(0), ["1", "0"]),
        (Gate::And(0, 1), ["0X", "11"]),
        (Gate::Nand(0, 1), ["11", "0X"]),
        (Gate::Or(0, 1), ["00", "1X"]),
        (Gate::Nor(0, 1), ["1X", "00"]),
        (Gate::Xor(0, 1), ["00", "01"]),
        (Gate::Xnor(0, 1), ["01", "00"]),
        (Gate::Selector(0, 1, 2), ["0X0", "1X0"]),
    ];
    let letter = |value: &Value| ['0', '1', 'X'][usize::from(byte(value))];
    for (gate, letters) in gates {
        for (value, letters) in [false, true].into_iter().zip(letters) {
            let set = pins(gate, value)[..gate.sources().len()].to_vec();
            assert_eq!(set.iter().map(letter).collect::<String>(), letters, "{gate:?} for {value}");
            assert_eq!(gate.over(|pin, _| set[pin - 1]).value(), Some(value));
        }
    }
}

/// Whatever a node is, the pattern that is made of it gives each head line its value, X too.
#[test]
fn trees_of_every_node() {
    let mut set = 0;
    for (circuit, _) in drawn(3, 500, tiny) {
        let placed = Placed::new(&circuit);
        let heads: Vec<usize> = placed.heads().collect();
        for node in every_pattern(heads.len()) {
            let values = circuit.values(&placed.pattern(pins, &node), None);
            assert_eq!(heads.iter().map(|&head| values[head]).collect::<Vec<_>>(), node, "{circuit:?}");
            set += node.iter().flatten().count();
        }
        assert!(placed.pattern(pins, &vec![None; heads.len()]).iter().all(Option::is_none));
    }
    assert!(set > 3_000, "{set}");
}

/// The good and faulty values that are called D and its bar, or are equal.
fn both(circuit: &Circuit, pattern: &str, fault: Fault, lines: &str, letters: &str) -> Vec<String> {
    let pattern: Vec<Value> = pattern.chars().map(|letter| letter.to_digit(2).map(|digit| digit == 1)).collect();
    let (good, faulty) = (circuit.values(&pattern, None), circuit.values(&pattern, Some(fault)));
    let value = |line: usize| match (good[line], faulty[line]) {
        (Some(true), Some(false)) => "D".to_string(),
        (Some(false), Some(true)) => "!D".to_string(),
        (good, faulty) if good == faulty => byte(&good).to_string(),
        other => panic!("{other:?}"),
    };
    letters.chars().map(|letter| format!("{letter}={}", value(lines.find(letter).expect("a line")))).collect()
}

fn fault(lines: &str, letter: char, stuck: bool) -> Fault {
    Fault { line: lines.find(letter).expect("a line"), site: Site::Line, stuck }
}

/// Example 2: with K = 1 and L = 0 the fault N stuck at 1 is lost at U, with L = 1 it is seen there. C = 0 and F = 0 set K and L.
#[test]
fn figure_1_has_the_values_of_example_2() {
    let circuit = Circuit::read(&figure_1()).expect("sound");
    let stuck = fault(FIGURE_1, 'N', true);
    assert_eq!(both(&circuit, "XX0110XX", stuck, FIGURE_1, "NKLRMQSPTU").join(" "), "N=!D K=1 L=1 R=D M=0 Q=1 S=D P=0 T=1 U=!D");
    assert_eq!(both(&circuit, "XX0111X0", stuck, FIGURE_1, "NKLRMQSPTU").join(" "), "N=!D K=1 L=0 R=D M=0 Q=1 S=1 P=1 T=0 U=1");
    let placed = Placed::new(&circuit);
    assert_eq!(placed.pattern(pins, &[Some(true); 4]).iter().map(byte).collect::<Vec<_>>(), [2, 2, 0, 1, 1, 0, 2, 2]);
}

/// Example 3: there is one way to see G stuck at 0, and the search finds it.
#[test]
fn figure_5_has_the_test_of_example_3() {
    let circuit = Circuit::read(&figure_5()).expect("sound");
    let stuck = fault(FIGURE_5, 'G', false);
    let values = "G=D K=1 M=!D N=1 P=D L=0 A=1 J=1 I=0 H=1 C=1 B=0 E=0";
    assert_eq!(both(&circuit, "1010X1", stuck, FIGURE_5, "GKMNPLAJIHCBE").join(" "), values);
    let found = searched(&circuit, stuck, u64::MAX);
    assert_eq!((found.outcome, found.test), (Outcome::Test, Some(vec![1, 0, 1, 0, 2, 1])));
}

/// What the work memory says of a node: its values at the head lines, in line order.
fn node(placed: &Placed, work: &[u8]) -> Vec<u8> {
    placed.heads().map(|head| work[head]).collect()
}

/// The test of a node gives the head lines its values, and then the bound lines have those of the work memory, in both circuits; all others are
/// X there.
fn holds_the_node(placed: &Placed, fault: Fault, test: &[Value], work: &[u8]) {
    let halves = [None, Some(fault)].map(|fault| placed.circuit.values(test, fault));
    for (half, work) in halves.iter().zip(work.chunks_exact(placed.places.len())) {
        for (line, place) in placed.places.iter().enumerate() {
            assert_eq!(work[line], if *place == Place::Other { 2 } else { byte(&half[line]) }, "line {line}");
        }
    }
}

/// Where a fault is, from the lowest: at a bound line, at a head line, at another free line; and one more at a pin.
fn sort(placed: &Placed, fault: Fault) -> usize {
    2 * placed.places[fault.line] as usize + usize::from(fault.site != Site::Line)
}

/// There is a test exactly if some vector detects the fault, and then every filling of it does. The search over patterns says the same. Of h head
/// lines there are no more than 2^(h+1) - 1 nodes, and with fewer than it needs the search gives up.
#[test]
fn searches_agree_with_all_vectors_and_with_the_search_over_patterns() {
    let (mut outcomes, mut sorts, mut more, mut fewer) = ([0; 2], [0; 6], 0, 0);
    for (circuit, faults) in drawn(2, 1_500, tiny) {
        let placed = Placed::new(&circuit);
        let inputs = circuit.inputs().count();
        let vectors = fillings(&vec![None; inputs]);
        for fault in faults {
            let Searched { outcome, nodes, test, work } = searched(&circuit, fault, u64::MAX);
            let detected = vectors.iter().any(|vector| detects(&circuit, vector, fault));
            assert_eq!(outcome, if detected { Outcome::Test } else { Outcome::Redundant }, "{fault:?} of {circuit:?}");
            let old = search_circuit(&circuit, fault, u64::MAX);
            assert_eq!(outcome, old.outcome);
            assert_eq!(test.is_some(), detected);
            let work = work.expect("a node");
            if let Some(test) = test {
                let test: Vec<Value> = test.iter().map(|&byte| second::values::value(byte).expect("a value")).collect();
                assert!(fillings(&test).iter().all(|vector| detects(&circuit, vector, fault)), "{fault:?} of {circuit:?}");
                if placed.serves(fault) {
                    holds_the_node(&placed, fault, &test, &work);
                }
            }
            if placed.serves(fault) {
                assert!(nodes < 2 << placed.heads().count());
                more += usize::from(nodes > old.nodes);
                fewer += usize::from(nodes < old.nodes);
            } else {
                assert_eq!((nodes, work), (old.nodes, circuit.work(&old.last.expect("a node"), fault)));
            }
            let given_up = searched(&circuit, fault, nodes - 1);
            assert_eq!((given_up.outcome, given_up.nodes, given_up.test), (Outcome::GivenUp, nodes - 1, None));
            outcomes[outcome as usize] += 1;
            sorts[sort(&placed, fault)] += 1;
        }
    }
    assert!(outcomes.iter().chain(&sorts).all(|&times| times > 300), "{outcomes:?} {sorts:?}");
    assert!(more > 0 && fewer > 1_000, "more nodes than over patterns: {more} times, fewer: {fewer} times");
}

/// The nodes as a recursion over head lines: where all heads are known at most, the budget that is just enough ends at each of them.
#[test]
fn nodes_are_counted_over_head_lines() {
    let circuit = Circuit::read(&circuits::always_0()).expect("sound");
    let placed = Placed::new(&circuit);
    let stuck = Fault { line: 2, site: Site::Line, stuck: false };
    let nodes: Vec<_> = (0..4).map(|budget| searched(&circuit, stuck, budget)).collect();
    assert!(nodes[0].work.is_none());
    assert_eq!(nodes[1..].iter().map(|one| node(&placed, one.work.as_ref().expect("a node"))).collect::<Vec<_>>(), [[2], [0], [1]]);
    assert_eq!(nodes.iter().map(|one| one.outcome as u8).collect::<Vec<_>>(), [2, 2, 2, 1]);
}

/// 64 inputs in one tree or in two: no more nodes than one or two lines have, where the search over patterns gives up.
#[test]
fn wide_trees() {
    let mut drowned = 0;
    for kind in circuits::AND..=circuits::XNOR {
        for (bytes, heads) in [(trees::one_tree(kind, 6, &[1, 2]), 1), (trees::two_trees(kind, 5), 2)] {
            let circuit = Circuit::read(&bytes).expect("sound");
            assert_eq!((circuit.inputs().count(), Placed::new(&circuit).heads().count()), (64, heads));
            let last = bytes.len() / 8 - 1;
            let fault = Fault { line: last, site: Site::Line, stuck: false };
            let found = searched(&circuit, fault, u64::MAX);
            assert_eq!((found.outcome, found.nodes), (Outcome::Redundant, [3, 7][heads - 1]));
            drowned += usize::from(search_circuit(&circuit, fault, 2_000).outcome == Outcome::GivenUp);
        }
    }
    assert!(drowned >= 8, "{drowned} of 12");
}

/// Where no output is looked at, the start is left.
#[test]
fn no_output_to_look_at() {
    let by_hand = placed::every().into_iter().find(|one| one.name.starts_with("no bound line and no head line")).expect("it stands there");
    let found = second::search_heads(&by_hand.circuit, &faults::record(3, 0, true), u64::MAX, 2, 10).expect("sound");
    assert_eq!(
        (found.outcome, found.nodes, found.test, found.work),
        (Outcome::Redundant, 1, None, Some(vec![2, 2, 2, 2, 2, 2, 2, 2, 1, 2]))
    );
}
