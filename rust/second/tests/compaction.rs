//! The second program's compaction against another way to say the same, and against what compaction is for.
use cases::{drawn, tables};
use second::compact::{kept, meet_all, needs, read, without, Need, Row};

/// From the last to the first, a pattern is kept if it is the first of all that meet some need, and no later one that is kept meets it.
fn by_first_patterns(table: &[Row]) -> Vec<usize> {
    let needs = needs(table);
    let mut kept = vec![];
    for (pattern, _) in table.iter().enumerate().rev() {
        let first = |need: &Need| table.iter().position(|row| need.is_met_by(row)) == Some(pattern);
        if needs.iter().any(|need| first(need) && !kept.iter().any(|&later: &usize| need.is_met_by(&table[later]))) {
            kept.insert(0, pattern);
        }
    }
    kept
}

#[test]
fn kept_patterns() {
    let (mut dropped, mut left) = (0, 0);
    for (faults, table) in drawn(1, 20_000, tables::small) {
        let patterns = table.len() / faults;
        let table = read(faults as u64, patterns as u64, &table, patterns).expect("sound");
        let kept = kept(&table);
        assert_eq!(kept, by_first_patterns(&table));
        let needs = needs(&table);
        assert!(meet_all(&table, &kept, &needs), "every need is met");
        for &pattern in &kept {
            assert!(!meet_all(&table, &without(&kept, pattern), &needs), "no kept pattern can be spared");
        }
        left += kept.len();
        dropped += table.len() - kept.len();
    }
    assert!(left > 10_000 && dropped > 10_000, "{left} kept, {dropped} dropped");
}
