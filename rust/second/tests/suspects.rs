//! The second program's suspects against another way to say the same, by sets of patterns; and its areas.
use cases::tables::small;
use cases::{drawn, Random};
use second::Suspects;

/// A table, its number of faults, and reports: a pattern, and whether it failed.
type Given = (usize, Vec<u8>, Vec<(usize, bool)>);

fn given(random: &mut Random) -> Given {
    let (faults, table) = small(random);
    let report = |random: &mut Random| (random.below(table.len() / faults), random.once_in(2));
    let reports = (0..random.below(6)).map(|_| report(random)).collect();
    (faults, table, reports)
}

/// Two sets of patterns are reported, those that failed and those that passed, a bit each. A fault remains where it has pass in none of the first
/// and fail in none of the second.
fn by_sets((faults, table, reports): &Given) -> Vec<u8> {
    let reported = |failed| reports.iter().filter(|report| report.1 == failed).fold(0u16, |set, report| set | 1 << report.0);
    let with =
        |fault: usize, entry| (0..table.len() / faults).filter(|row| table[row * faults + fault] == entry).map(|row| 1 << row).sum::<u16>();
    let remains = |fault| with(fault, 0) & reported(true) == 0 && with(fault, 1) & reported(false) == 0;
    (0..*faults).map(|fault| u8::from(remains(fault))).collect()
}

fn suspects((faults, table, reports): &Given) -> Suspects {
    let counts = [*faults as u64, (table.len() / faults) as u64];
    let opened = Suspects::open(counts[0], counts[1], table, 288).expect("accepted");
    reports
        .iter()
        .fold(opened, |suspects, &(pattern, failed)| suspects.and(counts, table, pattern as u64, failed.into()).expect("accepted"))
}

/// What remains is by the sets; and an area that is read says the same as what it was written of.
#[test]
fn what_remains() {
    let (mut none, mut all) = (0, 0);
    for given in drawn(1, 50_000, given) {
        let (suspects, expected) = (suspects(&given), by_sets(&given));
        let remaining = expected.iter().filter(|&&mark| mark == 1).count();
        assert_eq!((suspects.marks(given.0), suspects.remaining()), (Ok(expected), remaining as u64), "{given:?}");
        let read = Suspects::read(&suspects.area()).expect("opened");
        assert_eq!((read.faults, read.patterns, read.marks(given.0)), (suspects.faults, suspects.patterns, suspects.marks(given.0)));
        none += usize::from(remaining == 0);
        all += usize::from(remaining == given.0);
    }
    assert!(none > 5_000 && all > 5_000, "{none} {all}");
}

/// FUP and PFU, the first failed, then the first passed: the area as the layout says it, byte by byte.
#[test]
fn areas() {
    let area = |reports: &[(usize, bool)]| suspects(&(3, vec![1, 2, 0, 0, 1, 2], reports.to_vec())).area();
    let written = |remaining: u8, marks: [u8; 3]| {
        let number = |number| [number, 0, 0, 0, 0, 0, 0, 0];
        [&number(3)[..], &number(2), &number(6), &number(remaining), &marks, &[0; 253]].concat()
    };
    assert_eq!(area(&[]), written(3, [1, 1, 1]));
    assert_eq!(area(&[(0, true)]), written(2, [1, 1, 0]));
    assert_eq!(area(&[(0, true), (0, false)]), written(1, [0, 1, 0]));
    assert_eq!(area(&[(0, true), (0, false), (1, false)]), written(0, [0, 0, 0]));
    let most = suspects(&(256, vec![0; 65_536], vec![])).area();
    assert_eq!(most[..32], [0, 1, 0, 0, 0, 0, 0, 0, 0, 1, 0, 0, 0, 0, 0, 0, 0, 0, 1, 0, 0, 0, 0, 0, 0, 1, 0, 0, 0, 0, 0, 0]);
    assert_eq!(most[32..], [1; 256]);
}

/// One byte more or less, or another byte: no area.
#[test]
fn areas_of_none() {
    let area = suspects(&(3, vec![1, 2, 0, 0, 1, 2], vec![(0, true)])).area();
    assert!(
        Suspects::read(&area[..287]).is_none() && Suspects::read(&[&area[..], &[0]].concat()).is_none() && Suspects::read(&[]).is_none()
    );
    for place in 0..288 {
        for byte in (0..=255).filter(|&byte| byte != area[place]) {
            assert!(Suspects::read(&[&area[..place], &[byte], &area[place + 1..]].concat()).is_none(), "byte {place} is {byte}");
        }
    }
}
