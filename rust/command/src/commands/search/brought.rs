//! What head lines brought, in numbers.
use super::pieces::Found;
use super::way::Way;
use crate::circuit::Circuit;
use crate::form::count;
use crate::heads::Heads;
use ullimaqsu::{Outcome, Search};

pub struct Brought<'a> {
    heads: &'a Heads,
    /// How many faults were searched for over head lines, how many nodes were looked at for them, and how many faults are left.
    served: usize,
    nodes: u64,
    others: usize,
    over_inputs: Option<OverInputs>,
}

/// What the search over inputs says of the faults that were searched for over head lines.
struct OverInputs {
    nodes: u64,
    given_up: usize,
    /// It alone gives up, or the other one alone.
    won: usize,
    lost: usize,
}

impl Brought<'_> {
    /// Nothing where the search was over inputs alone.
    pub fn by<'a>(way: &'a Way, all: &[Found]) -> Option<Brought<'a>> {
        let heads = way.heads()?;
        let served: Vec<&Found> = all.iter().filter(|found| heads.serve(found.fault)).collect();
        let nodes = served.iter().map(|found| found.search.nodes).sum();
        let over_inputs = matches!(way, Way::Both(_)).then(|| OverInputs::of(&served));
        Some(Brought { heads, served: served.len(), nodes, others: all.len() - served.len(), over_inputs })
    }

    pub fn lines(&self, circuit: &Circuit) -> String {
        let (faults, nodes) = (count(self.served, "fault"), count(self.nodes as usize, "node"));
        let over_inputs = self.over_inputs.as_ref().map_or(String::new(), |inputs| {
            let OverInputs { given_up, lost, .. } = inputs;
            let (nodes, won) = (count(inputs.nodes as usize, "node"), count(inputs.won, "verdict"));
            format!("the same {faults} over inputs: {nodes}, {given_up} given up; head lines bring {won} and lose {lost}\n")
        });
        format!("{}: {faults} searched over head lines in {nodes}, {} over inputs\n{over_inputs}", self.heads.counted(circuit), self.others)
    }

    /// The same for a json, behind other fields.
    pub fn fields(&self) -> String {
        let over_inputs = self.over_inputs.as_ref().map_or(String::new(), |OverInputs { nodes, given_up, won, lost }| {
            format!(",\n\"nodes over inputs\": {nodes}, \"given up over inputs\": {given_up}, \"verdicts won\": {won}, \"verdicts lost\": {lost}")
        });
        format!(",\n\"faults over head lines\": {}, \"nodes over head lines\": {}{over_inputs}", self.served, self.nodes)
    }
}

impl OverInputs {
    fn of(served: &[&Found]) -> OverInputs {
        let pairs: Vec<(Search, Search)> = served.iter().filter_map(|found| Some((found.search, found.over_inputs?))).collect();
        let gives_up = |search: Search| search.outcome == Outcome::GivenUp;
        let number = |of: fn(bool, bool) -> bool| pairs.iter().filter(|(heads, inputs)| of(gives_up(*heads), gives_up(*inputs))).count();
        OverInputs {
            nodes: pairs.iter().map(|(_, inputs)| inputs.nodes).sum(),
            given_up: number(|_, inputs| inputs),
            won: number(|heads, inputs| inputs && !heads),
            lost: number(|heads, inputs| heads && !inputs),
        }
    }
}
