//! The test search for a list of faults: one walk through the nodes for all of them together, where the good circuit is simulated once a
//! node; where few faults look at a node, each goes on alone. The last fault with a budget is searched on its own, since the work memory ends
//! as its search leaves it.
use super::check::check;
use super::dictionary::check_faults;
use super::gates::Gates;
use super::report;
use super::search::search_from;
use super::simulate::{entry, faulty_values, good_values, Fault};

const TEST: u8 = 0;
const REDUNDANT: u8 = 1;
const GIVEN_UP: u8 = 2;

/// The level of the first node. With each input that is set the level is one higher.
const START: u8 = 3;

/// Beyond all levels.
const OPEN: u8 = 255;

/// What is lent.
#[derive(Clone, Debug, PartialEq, Eq)]
pub struct Lent {
    pub outcomes: Vec<u8>,
    pub counts: Vec<u64>,
    pub tests: Vec<u8>,
    pub work: Vec<u8>,
}

/// The searches for some faults together. In the place of its outcome each fault has its reach: that it has a test, that it is given up, or
/// the highest level at which it looks at the next nodes.
struct Walk<'a> {
    circuit: &'a [u8],
    faults: &'a [u8],
    budgets: &'a [u64],
    reaches: &'a mut [u8],
    counts: &'a mut [u64],
    tests: &'a mut [u8],
    work: &'a mut [u8],
}

impl Walk<'_> {
    /// Goes through the nodes from this one on, as far as a fault looks at them.
    fn go<G: Gates>(&mut self, node: &mut [u8], level: u8) {
        let some = self.reaches.iter().filter(|&&reach| reach >= level).count();
        if some == 0 {
            return;
        }
        let n = self.work.len() / 2;
        let few = 3 * n * some < self.reaches.len() + 3 * n;
        if !few {
            good_values::<G>(self.circuit, node, self.work, n);
        }
        for j in 0..self.reaches.len() {
            if self.reaches[j] >= level {
                self.reaches[j] = match self.budgets[j] - self.counts[j] {
                    0 => GIVEN_UP,
                    left if few => self.go_alone::<G>(j, node, level, left),
                    _ => self.look::<G>(j, node, level),
                };
            }
        }
        if few {
            return;
        }
        let Some(at) = node.iter().position(|&v| v == 2) else { return };
        for side in [0, 1] {
            node[at] = side;
            self.go::<G>(node, level + 1);
        }
        node[at] = 2;
    }

    /// The reach of the j-th fault when it has gone through the nodes from this one on alone.
    fn go_alone<G: Gates>(&mut self, j: usize, node: &[u8], level: u8, left: u64) -> u8 {
        let test = &mut self.tests[j * node.len()..(j + 1) * node.len()];
        let [outcome, nodes] = search_from::<G>(self.circuit, Fault::read(self.faults, j), node, left, test, self.work);
        self.counts[j] += nodes;
        match outcome as u8 {
            REDUNDANT => level,
            ended => ended,
        }
    }

    /// The reach of the j-th fault after its look at a node, whose good values stand in the work memory.
    fn look<G: Gates>(&mut self, j: usize, node: &[u8], level: u8) -> u8 {
        self.counts[j] += 1;
        let n = self.work.len() / 2;
        faulty_values::<G>(self.circuit, Fault::read(self.faults, j), self.work, n);
        match entry(false, self.circuit, self.work, n) {
            1 => {
                self.tests[j * node.len()..(j + 1) * node.len()].copy_from_slice(node);
                TEST
            }
            0 => level,
            _ => OPEN,
        }
    }
}

fn search_all<G: Gates>(circuit: &[u8], faults: &[u8], budgets: &[u64], lent: &mut Lent) -> Result<(), (u32, usize)> {
    let [n, inputs, _] = check(circuit)?;
    check_faults(circuit, faults, 256)?;
    let count = faults.len() / 8;
    let Lent { outcomes, counts, tests, work } = lent;
    let one_each = budgets.len() == count && outcomes.len() == count && counts.len() == count;
    if !one_each || tests.len() != count * inputs || work.len() != 2 * n {
        return Err((10, 0));
    }
    outcomes.fill(GIVEN_UP);
    counts.fill(0);
    if let Some(last) = budgets.iter().rposition(|&budget| budget > 0) {
        let reaches = &mut outcomes[..last];
        reaches.fill(OPEN);
        Walk { circuit, faults, budgets, reaches, counts, tests, work }.go::<G>(&mut [2; 64][..inputs], START);
        reaches.iter_mut().filter(|reach| **reach >= START).for_each(|reach| *reach = REDUNDANT);
        let test = &mut tests[last * inputs..(last + 1) * inputs];
        let [outcome, nodes] = search_from::<G>(circuit, Fault::read(faults, last), &[2; 64][..inputs], budgets[last], test, work);
        (outcomes[last], counts[last]) = (outcome as u8, nodes);
    }
    Ok(())
}

pub fn enter<G: Gates>(circuit: &[u8], faults: &[u8], budgets: &[u64], lent: &mut Lent, answer: &mut [u8; 32]) -> u32 {
    match search_all::<G>(circuit, faults, budgets, lent) {
        Ok(()) => report(0, [0; 3], answer),
        Err((number, place)) => report(number, [place as u64, 0, 0], answer),
    }
}

#[cfg(test)]
mod tests {
    use super::*;
    use crate::baseline::gates::{Branches, Table};
    use cases::{circuits, damage, drawn, faults, Random};
    use second::entries::{self, Seen};
    use second::search_all::Lent as Before;

    /// What is read, and what is lent.
    type List = (Vec<u8>, Vec<u8>, Vec<u64>, Lent);

    fn list(random: &mut Random) -> List {
        let circuit = circuits::few_inputs(random);
        let count = 1 + random.below(12);
        let faults = faults::some(random, &circuit, count);
        let budgets = (0..count).map(|_| random.pick(&[0, 0, 1, 2, 5, 20, 100, u64::MAX])).collect();
        let (outcomes, counts) = (random.junk(count), vec![7; count]);
        let (tests, work) = (random.junk(count * faults::inputs(&circuit)), random.junk(circuit.len() / 4));
        (circuit, faults, budgets, Lent { outcomes, counts, tests, work })
    }

    /// One thing or several are wrong.
    fn damaged(random: &mut Random) -> List {
        let mut list = list(random);
        damage::several(random, &mut list, |random, (circuit, faults, budgets, lent)| match random.below(7) {
            0 => damage::circuit(random, circuit),
            1 => damage::faults(random, faults, circuit.len() / 8),
            2 => budgets.resize(damage::size(random, budgets.len()), 7),
            3 => lent.outcomes.resize(damage::size(random, lent.outcomes.len()), 7),
            4 => lent.counts.resize(damage::size(random, lent.counts.len()), 7),
            5 => lent.tests.resize(damage::size(random, lent.tests.len()), 7),
            _ => lent.work.resize(damage::size(random, lent.work.len()), 7),
        });
        // a damaged circuit may have many inputs: no long searches
        list.2.iter_mut().for_each(|budget| *budget = 300.min(*budget));
        list
    }

    fn seen<G: Gates>((circuit, faults, budgets, lent): &List) -> Seen {
        let (mut lent, mut answer) = (lent.clone(), [7; 32]);
        let returned = enter::<G>(circuit, faults, budgets, &mut lent, &mut answer);
        let Lent { outcomes, counts, tests, work } = lent;
        Seen { returned, answer: answer.to_vec(), lent: vec![outcomes.into(), counts.into(), tests.into(), work.into()] }
    }

    /// It finds the same as the second program, which knows single searches alone.
    #[test]
    fn answers_as_the_second_program_does() {
        for list in drawn(1, 5_000, list).chain(drawn(2, 5_000, damaged)) {
            let (circuit, faults, budgets, lent) = &list;
            let before = Before { outcomes: &lent.outcomes, counts: &lent.counts, tests: &lent.tests, work: &lent.work };
            let said = entries::search_all(circuit, faults, budgets, before, &[7; 32]);
            assert_eq!(seen::<Branches>(&list), said, "{list:?}");
            assert_eq!(seen::<Table>(&list), said, "{list:?}");
        }
    }
}
