//! The test search: over a node that is set and restored in place, with the budget carried through.
use super::check::check;
use super::dictionary::check_faults;
use super::gates::Gates;
use super::report;
use super::simulate::{entry, faulty_values, good_values, Fault};

enum Verdict {
    Test(u64),
    Redundant(u64),
    GivenUp(u64),
}
use Verdict::*;

fn side<G: Gates>(circuit: &[u8], fault: Fault, n: usize, node: &mut [u8], work: &mut [u8], left: u64) -> Verdict {
    if left == 0 {
        return GivenUp(0);
    }
    good_values::<G>(circuit, node, work, n);
    faulty_values::<G>(circuit, fault, work, n);
    match entry(false, circuit, work, n) {
        1 => return Test(1),
        0 => return Redundant(1),
        _ => (),
    }
    let at = node.iter().position(|&v| v == 2).expect("an unknown node has an X");
    node[at] = 0;
    let m = match side::<G>(circuit, fault, n, node, work, left - 1) {
        Redundant(m) => m,
        Test(m) => return Test(1 + m),
        GivenUp(_) => return GivenUp(left),
    };
    node[at] = 1;
    match side::<G>(circuit, fault, n, node, work, left - 1 - m) {
        Redundant(k) => {
            node[at] = 2;
            Redundant(1 + m + k)
        }
        Test(k) => Test(1 + m + k),
        GivenUp(_) => GivenUp(left),
    }
}

/// The search from a node on: its outcome and the number of nodes. The test is written if there is one.
pub fn search_from<G: Gates>(circuit: &[u8], fault: Fault, node: &[u8], budget: u64, test: &mut [u8], work: &mut [u8]) -> [u64; 2] {
    let mut own = [2; 64];
    let own = &mut own[..node.len()];
    own.copy_from_slice(node);
    match side::<G>(circuit, fault, work.len() / 2, own, work, budget) {
        Test(nodes) => {
            test.copy_from_slice(own);
            [0, nodes]
        }
        Redundant(nodes) => [1, nodes],
        GivenUp(nodes) => [2, nodes],
    }
}

/// Refusals 1, 2, 4 to 7 and 10, or the numbers of lines and inputs.
pub fn check_search(circuit: &[u8], fault: &[u8], test: usize, work: usize) -> Result<[usize; 2], (u32, usize)> {
    let [n, inputs, _] = check(circuit)?;
    check_faults(circuit, fault, 1)?;
    if test != inputs || work != 2 * n {
        return Err((10, 0));
    }
    Ok([n, inputs])
}

fn search<G: Gates>(circuit: &[u8], fault: &[u8], budget: u64, test: &mut [u8], work: &mut [u8]) -> Result<[u64; 3], (u32, usize)> {
    let [_, inputs] = check_search(circuit, fault, test.len(), work.len())?;
    let [outcome, nodes] = search_from::<G>(circuit, Fault::read(fault, 0), &[2; 64][..inputs], budget, test, work);
    Ok([outcome, nodes, 0])
}

pub fn enter<G: Gates>(circuit: &[u8], fault: &[u8], budget: u64, test: &mut [u8], work: &mut [u8], answer: &mut [u8; 32]) -> u32 {
    match search::<G>(circuit, fault, budget, test, work) {
        Ok(numbers) => report(0, numbers, answer),
        Err((number, place)) => report(number, [place as u64, 0, 0], answer),
    }
}
