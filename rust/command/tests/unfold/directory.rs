//! `ullimaqsu dictionary DIR --steps K`: records, and with them states.rec.
use crate::drawn::Drawn;
use crate::harness::{stopped, ullimaqsu, Directory, Said};
use cases::circuits::{record, INPUT};
use cases::clocked::state;
use cases::{damage, drawn as draw, faults, Random, Tally};
use second::clocked::Clocked;
use second::unfold_dictionary::unfold_dictionary;
use second::{compact, Refusal};
use std::fs;
use std::path::Path;

/// What a directory has, and the steps.
struct Given {
    circuit: Vec<u8>,
    states: Vec<u8>,
    faults: Vec<u8>,
    patterns: Vec<u8>,
    steps: u64,
}

impl Given {
    fn new(random: &mut Random) -> Given {
        let drawn = Drawn::new(random);
        let (circuit, inputs) = (drawn.named.circuit.write(), drawn.clocked().inputs());
        let [fault_count, pattern_count] = [8, 8].map(|most| 1 + random.below(most));
        let faults = faults::some(random, &circuit, fault_count);
        let patterns = (0..inputs * pattern_count).map(|_| random.pick(&[0, 1, 0, 1, 2])).collect();
        Given { circuit, states: drawn.states, faults, patterns, steps: drawn.steps }
    }

    /// With damage to one thing, or to two.
    fn damaged(random: &mut Random) -> Given {
        let mut given = Given::new(random);
        let lines = given.circuit.len() / 8;
        for _ in 0..1 + random.below(2) {
            match random.below(4) {
                0 => damage::files(random, [&mut given.circuit, &mut given.faults, &mut given.patterns], lines),
                1 => damage::states(random, &mut given.states, lines),
                // no line is held over, so that there may be too many inputs
                2 => (given.states, given.steps) = (vec![], 8),
                _ => given.steps = damage::steps(random, given.steps),
            }
        }
        given
    }

    /// What is printed, by the second program, which has all state records. Another file is read up to one byte above its limit.
    fn right(&self) -> Result<String, Refusal> {
        let [circuit, faults, patterns] = [(&self.circuit, 16_384), (&self.faults, 2_048), (&self.patterns, 16_384)]
            .map(|(bytes, limit)| &bytes[..bytes.len().min(limit + 1)]);
        let clocked = Clocked::read(circuit, &self.states, self.steps)?;
        let (fault_count, pattern_count, work) = (faults.len() / 8, patterns.len() / clocked.inputs(), 2 * clocked.lines());
        let table = unfold_dictionary(clocked, faults, patterns, fault_count * pattern_count, work)?.table;
        let marks = compact(fault_count as u64, pattern_count as u64, &table, pattern_count)?;
        let letters = |row: &[u8]| row.iter().map(|&entry| char::from(b"PFU"[usize::from(entry)])).collect::<String>();
        let line = |(number, row): (usize, &[u8])| format!("{number} {} {}\n", if marks[number] == 1 { 'K' } else { 'D' }, letters(row));
        Ok(table.chunks_exact(fault_count).enumerate().map(line).collect())
    }

    fn write(&self, directory: &Directory) {
        let files = [("circuit", &self.circuit), ("states", &self.states), ("faults", &self.faults), ("patterns", &self.patterns)];
        files.into_iter().for_each(|(name, bytes)| drop(directory.write(&format!("{name}.rec"), bytes)));
    }
}

fn dictionary(directory: &Directory, steps: u64) -> Said {
    ullimaqsu(&[Path::new("dictionary"), &directory.0, Path::new("--steps"), Path::new(&steps.to_string())])
}

/// Prints what the second program prints, and of a refusal one line more.
fn compare(name: &str, cases: impl IntoIterator<Item = Given>) -> Tally {
    let (directory, mut tally) = (Directory::new(name), Tally::default());
    for given in cases {
        given.write(&directory);
        let (status, printed, said) = dictionary(&directory, given.steps);
        let number = match given.right() {
            Ok(right) => {
                assert_eq!((status, printed, said.as_str()), (Some(0), right, ""));
                0
            }
            Err(Refusal { number, place }) => {
                assert_eq!((status, printed, said.lines().count()), (Some(1), format!("refused {number} {place}\n"), 1), "{said}");
                number
            }
        };
        tally.count(number);
    }
    tally
}

#[test]
fn sound_directories() {
    assert_eq!(compare("sound records", draw(1, 100, Given::new)).seen(), [0]);
}

#[test]
fn damaged_directories() {
    assert_eq!(compare("damaged records", draw(2, 500, Given::damaged)).seen(), [0, 1, 2, 4, 5, 6, 7, 8, 9, 18, 19, 21]);
}

/// Of 64 inputs each may be a state line. However many records follow, the first bad one is told, or that the last is cut off.
#[test]
fn long_states() {
    let circuit = record(INPUT, true, 0, 0).repeat(64);
    let all: Vec<[u8; 4]> = (0..64).map(|line| state(line, line)).collect();
    let given = |different: usize, length: usize| Given {
        circuit: circuit.clone(),
        states: all[..different].concat().into_iter().cycle().take(length).collect(),
        faults: faults::record(0, 0, false).to_vec(),
        patterns: vec![1; 64],
        steps: 8,
    };
    let lengths = [63, 64, 65, 66, 2_048, 2_049, 2_250].into_iter().flat_map(|records| (0..4).map(move |rest| 4 * records + rest));
    let cases = lengths.flat_map(|length| [1, 2, 63, 64].map(|different| given(different, length)));
    // 63 good records leave an input that comes again in each step, and then there are too many
    assert_eq!(compare("long states", cases).seen(), [0, 18, 19]);
}

/// A bit that counts: line 0 counts up, line 1 is the state, line 2 their XOR. Which file a refusal is about, or that it is about the steps.
#[test]
fn words() {
    let directory = Directory::new("words of refusals");
    let circuit = [[0, 0, 0, 0, 0, 0, 0, 0], [0, 1, 0, 0, 0, 0, 0, 0], [7, 0, 0, 0, 1, 0, 0, 0]].concat();
    let counter = |states: &[u8], steps: u64| Given {
        circuit: circuit.clone(),
        states: states.to_vec(),
        faults: faults::record(1, 0, false).to_vec(),
        patterns: vec![1, 0, 0, 0, 0, 0],
        steps,
    };
    let said = |given: Given| {
        given.write(&directory);
        dictionary(&directory, given.steps)
    };
    let path = |name: &str| directory.path(name).display().to_string();
    let refused = |number: &str, of: &str, says: &str| (Some(1), format!("refused {number}\n"), format!("ullimaqsu: {of}: {says}\n"));
    // counted once, then held: q stuck at 0 is seen; never counted it is not
    assert_eq!(said(counter(&[2, 0, 1, 0], 2)), (Some(0), "0 K F\n1 D P\n".to_string(), String::new()));
    let states =
        "the state records are not a multiple of 4 bytes, or one names no line, a state line that is no input, or one that is named before";
    let record = |number: u64| refused(&format!("18 {number}"), &path("states.rec"), &format!("{states} (record {number})"));
    assert_eq!(said(counter(&[2, 0, 0, 1], 2)), record(0));
    assert_eq!(said(counter(&[2, 0, 1, 0].repeat(2), 2)), record(1));
    assert_eq!(said(counter(&[2, 0, 1, 0].repeat(2_250), 2)), record(1));
    // where the last record is cut off, none is at fault
    let cut = refused("18 0", &path("states.rec"), states);
    assert_eq!(said(counter(&[2, 0, 1], 2)), cut);
    assert_eq!(said(counter(&[&[2, 0, 1, 0].repeat(2_250)[..], &[2]].concat(), 2)), cut);
    assert_eq!(said(counter(&[2, 0, 1, 0], 9)), refused("21 0", "--steps 9", "the number of steps is outside 1 to 8"));
    let large = "the circuit has more than 2,048 lines or 64 inputs when it is unfolded";
    let many = Given { circuit: [&[0, 1, 0, 0, 0, 0, 0, 0].repeat(33)[..], &circuit[16..]].concat(), ..counter(&[], 2) };
    assert_eq!(said(many), refused("19 0", &path("circuit.rec"), large));
    let eight = "the patterns are not a multiple of the inputs, empty, or above 256";
    assert_eq!(said(counter(&[], 2)), refused("8 0", &path("patterns.rec"), eight));

    // absent faults count as empty; absent states would pass for a circuit without any
    counter(&[2, 0, 1, 0], 2).write(&directory);
    fs::remove_file(directory.path("faults.rec")).expect("removed");
    let (status, printed, told) = dictionary(&directory, 2);
    assert_eq!((status, printed.as_str(), told.lines().count()), (Some(1), "refused 6 0\n", 2), "{told}");
    fs::remove_file(directory.path("states.rec")).expect("removed");
    let line = format!("there is no file {}, which --steps wants, if only an empty one", path("states.rec"));
    assert_eq!(dictionary(&directory, 2), stopped(&line));
    let csv = [Path::new("dictionary"), &directory.0, Path::new("--steps"), Path::new("2"), Path::new("--csv")];
    assert_eq!(ullimaqsu(&csv), stopped("dictionary prints a directory in no other form; see ullimaqsu dictionary --help"));
}
