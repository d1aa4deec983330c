//! Directories of a circuit, faults and patterns, right and wrong, from which dictionaries are made.
use cases::circuits::{circuit, record, small, BUFFER};
use cases::faults::{patterns, some};
use cases::{damage, Directory, Random};
use second::Files;

/// A directory of these files.
pub fn directory_of(name: &str, files: &Files) -> Directory {
    let directory = Directory::new(name);
    for (name, file) in [("circuit.rec", &files.circuit), ("faults.rec", &files.faults), ("patterns.rec", &files.patterns)] {
        if let Some(bytes) = file {
            directory.write(name, bytes);
        }
    }
    directory
}

fn files(random: &mut Random, circuit: Vec<u8>, fault_count: usize, pattern_count: usize) -> Files {
    let (faults, patterns) = (some(random, &circuit, fault_count), patterns(random, &circuit, pattern_count));
    Files { circuit: Some(circuit), faults: Some(faults), patterns: Some(patterns) }
}

pub fn sound(random: &mut Random) -> Files {
    let circuit = small(random);
    let (fault_count, pattern_count) = (1 + random.below(12), 1 + random.below(12));
    files(random, circuit, fault_count, pattern_count)
}

/// Takes a file away, makes it too long, or damages it.
fn spoil(random: &mut Random, file: &mut Option<Vec<u8>>, limit: usize, damage: impl Fn(&mut Random, &mut Vec<u8>)) {
    match (random.below(8), file.as_mut()) {
        (0, _) => *file = None,
        (1, Some(bytes)) => *bytes = bytes.iter().copied().cycle().take(limit + random.below(20)).collect(),
        (_, Some(bytes)) => damage(random, bytes),
        (_, None) => (),
    }
}

/// One thing or several are wrong.
pub fn damaged(random: &mut Random) -> Files {
    let mut files = sound(random);
    let lines = files.circuit.as_ref().map_or(0, |bytes| bytes.len() / 8);
    damage::several(random, &mut files, |random, files| match random.below(5) {
        0 => spoil(random, &mut files.circuit, 16_384, damage::circuit),
        1..=2 => spoil(random, &mut files.faults, 2_048, |random, bytes| damage::faults(random, bytes, lines)),
        _ => spoil(random, &mut files.patterns, 16_384, damage::patterns),
    });
    files
}

/// The sizes at which something changes.
pub fn boundaries(random: &mut Random) -> Vec<Files> {
    let mut all: Vec<_> = [(1, 1), (2, 1), (65, 64), (66, 65), (2048, 64), (2049, 64)]
        .map(|(lines, inputs)| {
            let circuit = circuit(random, lines, inputs);
            files(random, circuit, 3, 3)
        })
        .into();
    for (fault_count, pattern_count) in [(256, 256), (257, 256), (256, 257), (1, 256), (256, 1)] {
        let circuit = circuit(random, 60, 12);
        all.push(files(random, circuit, fault_count, pattern_count));
    }
    all.push(Files::default());
    // a file that is too long is as good as cut one byte above its limit, whatever stands behind
    let mut long = sound(random);
    long.circuit = long.circuit.map(|bytes| [&bytes[..], &record(BUFFER, true, 0, 0).repeat(4000)].concat());
    all.push(long);
    all
}
