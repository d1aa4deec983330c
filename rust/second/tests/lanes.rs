//! The words that the second program leaves for 64 patterns at once: in each lane what the dictionary of its pattern alone leaves as bytes.
use cases::selects::{valued, VALUED};
use cases::{drawn, files, lane, Files, Random, Tally};

/// Up to three groups of patterns.
fn groups(random: &mut Random) -> Files {
    let count = random.pick(&[1, 2, 7, 63, 64, 65, 100, 127, 128, 129]);
    files::small(random, count)
}

#[test]
fn lanes_are_single_patterns() {
    let mut spare = 0;
    let mut tally = Tally::default();
    for files in drawn(1, 500, groups) {
        let Files { circuit, faults, patterns } = &files;
        let words = second::dictionary_lanes(circuit, faults, patterns, files.entries(), 4 * files.lines()).expect("sound").work;
        let last_group = patterns.chunks(64 * files.inputs()).last().expect("a pattern");
        let mut lanes = last_group.to_vec();
        lanes.resize(64 * files.inputs(), 2);
        for (number, pattern) in lanes.chunks_exact(files.inputs()).enumerate() {
            let single = second::dictionary(circuit, faults, pattern, files.fault_count(), 2 * files.lines()).expect("sound");
            assert_eq!(lane(&words, number), single.work, "lane {number} of {files:?}");
            tally.count_sorts(valued(circuit, &single.work));
        }
        spare += 64 - last_group.len() / files.inputs();
    }
    assert!((10_000..25_000).contains(&spare), "{spare} of 32,000 lanes are spare");
    tally.with_sorts(&[&VALUED]);
}
