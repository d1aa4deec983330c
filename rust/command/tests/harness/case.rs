//! A circuit with faults and patterns, as the second program has them and as files.
use super::named::{pattern_lines, Named};
use super::{example, ullimaqsu, Directory, Said};
use cases::{circuits, texts, Random};
use second::Given;
use std::fs;
use std::path::{Path, PathBuf};

pub struct Case {
    pub directory: Directory,
    pub circuit: PathBuf,
    pub named: Named,
    pub given: Given,
}

impl Case {
    fn new(name: &str, text_or_records: &[u8], named: Named, random: &mut Random, [fault_count, pattern_count]: [usize; 2]) -> Case {
        let (directory, given) = (Directory::new(name), named.given(random, fault_count, pattern_count));
        let circuit = directory.write("circuit", text_or_records);
        directory.write("faults", named.fault_lines(&given.faults));
        directory.write("patterns", pattern_lines(&given.patterns));
        Case { directory, circuit, named, given }
    }

    pub fn c17(name: &str, random: &mut Random, counts: [usize; 2]) -> Case {
        let text = fs::read(example("c17")).expect("c17");
        Case::new(name, &text, Named::of_text(&text), random, counts)
    }

    /// A few of every sort.
    pub fn drawn(name: &str, random: &mut Random) -> Case {
        let counts = [1 + random.below(12), 1 + random.below(12)];
        if random.once_in(2) {
            let text = texts::small(random);
            Case::new(name, &text, Named::of_text(&text), random, counts)
        } else {
            let records = circuits::small(random);
            Case::new(name, &records, Named::of_records(&records), random, counts)
        }
    }

    pub fn words(&self, command: &str, more: &[&Path]) -> Vec<PathBuf> {
        let given = [command.into(), self.circuit.clone(), self.directory.path("faults"), self.directory.path("patterns")];
        given.into_iter().chain(more.iter().map(PathBuf::from)).collect()
    }

    pub fn run(&self, command: &str, more: &[&Path]) -> Said {
        ullimaqsu(&self.words(command, more))
    }
}
