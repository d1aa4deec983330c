//! What a dictionary is of: a circuit, or several clock steps of one.
use crate::circuit::Circuit;
use crate::fault::Fault;
use crate::pattern::Pattern;
use crate::problem::Problem;
use crate::table;
use crate::unfolded::Unfolded;
use std::path::Path;

pub enum Of {
    Circuit(Circuit),
    Steps(Unfolded),
}

impl Of {
    pub fn load(path: &Path, steps: Option<u64>) -> Result<Of, Problem> {
        match steps {
            None => Circuit::load(path).map(Of::Circuit),
            Some(steps) => Unfolded::load(path, steps).map(Of::Steps),
        }
    }

    /// The circuit that has the faults.
    pub fn faulty(&self) -> &Circuit {
        match self {
            Of::Circuit(circuit) => circuit,
            Of::Steps(unfolded) => &unfolded.clocked.circuit,
        }
    }

    /// The circuit to whose inputs the patterns go.
    pub fn stimulated(&self) -> &Circuit {
        match self {
            Of::Circuit(circuit) => circuit,
            Of::Steps(unfolded) => &unfolded.circuit,
        }
    }

    pub fn entries(&self, faults: &[Fault], patterns: &[Pattern]) -> Vec<u8> {
        match self {
            Of::Circuit(circuit) => table::entries(circuit, faults, patterns),
            Of::Steps(unfolded) => unfolded.entries(faults, patterns),
        }
    }

    /// The number of steps, where it is of several.
    pub fn steps(&self) -> Option<u64> {
        match self {
            Of::Circuit(_) => None,
            Of::Steps(unfolded) => Some(unfolded.steps),
        }
    }
}
