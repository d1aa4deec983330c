//! The second program's audit against another way to say the same, by sets of patterns, and on the compactor's lists.
use cases::tables::{every, marks, small};
use cases::{drawn, Random};
use second::Finding;

/// A table, its number of faults, and marks.
type Given = (usize, Vec<u8>, Vec<u8>);

/// A need is the set of the patterns that meet it, a bit each. It is lost where no kept one is among them, and a kept pattern can be spared
/// unless for some need it is the only kept one.
fn by_sets((faults, table, marks): &Given) -> Finding {
    let set = |has: &dyn Fn(usize) -> bool| (0..marks.len()).map(|pattern| u16::from(has(pattern)) << pattern).sum::<u16>();
    let with = |fault: usize, entry| set(&|pattern| table[pattern * faults + fault] == entry);
    let detected: Vec<usize> = (0..*faults).filter(|&fault| with(fault, 1) != 0).collect();
    let singly = detected.iter().map(|&fault| (with(fault, 1), Finding::LostFault(fault)));
    let pairs = detected.iter().flat_map(|&one| detected.iter().filter(move |&&other| one < other).map(move |&other| (one, other)));
    let told = pairs.map(|(one, other)| {
        let telling = with(one, 1) & with(other, 0) | with(one, 0) & with(other, 1);
        (telling, Finding::LostPair(one, other))
    });
    let needs: Vec<_> = singly.chain(told).filter(|(set, _)| *set != 0).collect();
    let kept = set(&|pattern| marks[pattern] == 1);
    let bad = (0..marks.len()).find(|&place| marks[place] > 1).map(Finding::BadMark);
    let lost = || needs.iter().find(|(set, _)| set & kept == 0).map(|&(_, finding)| finding);
    let is_spare = |alone: u16| kept & alone != 0 && needs.iter().all(|(set, _)| set & kept != alone);
    let spare = || (0..marks.len()).find(|&pattern| is_spare(1 << pattern)).map(Finding::SparePattern);
    bad.or_else(lost).or_else(spare).unwrap_or(Finding::Sound)
}

fn audit((faults, table, marks): &Given) -> Finding {
    second::audit(*faults as u64, marks.len() as u64, table, marks).expect("accepted")
}

fn marked(random: &mut Random) -> Given {
    let (faults, table) = small(random);
    let marks = marks(random, table.len() / faults);
    (faults, table, marks)
}

#[test]
fn findings() {
    let mut seen = [0; 5];
    for given in drawn(1, 50_000, marked) {
        let found = audit(&given);
        assert_eq!(found, by_sets(&given), "{given:?}");
        seen[found.numbers()[0] as usize] += 1;
    }
    assert!(seen.iter().all(|&times| times > 500), "{seen:?}");
}

/// Every table of these sizes with all marks of 0, 1 and 2.
#[test]
fn every_small_table() {
    for (faults, patterns) in [(1, 1), (1, 4), (2, 1), (2, 2), (2, 3), (3, 2), (6, 1)] {
        for table in every(faults * patterns) {
            for marks in every(patterns) {
                let given = (faults as usize, table.clone(), marks);
                assert_eq!(audit(&given), by_sets(&given), "{given:?}");
            }
        }
    }
}

#[test]
fn lists_of_the_compactor() {
    for (faults, table) in drawn(2, 10_000, small) {
        let patterns = table.len() / faults;
        let marks = second::compact(faults as u64, patterns as u64, &table, patterns).expect("accepted");
        assert_eq!(audit(&(faults, table, marks)), Finding::Sound);
    }
}
