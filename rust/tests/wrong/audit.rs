//! Audits that are wrong in one way each.
use super::needs::{faults_alone, pairs_alone, read_as, undetected_too};
use super::{Audit, Case};
use second::audit::finding;
use second::compact::{kept, meet_all, needs, read, without, Need, Row};
use second::entries::{seen, Seen};
use second::{Entry, Finding, Refusal};

/// What a caller sees of a finding or a refusal.
fn said(case: &Audit, outcome: Result<Finding, Refusal>) -> Seen {
    seen(&case.answer, vec![], outcome.map(|finding| (finding.numbers(), vec![])))
}

/// What a caller sees where table and marks are looked at by another rule.
pub fn by(case: &Audit, find: Find) -> Seen {
    said(case, read(case.fault_count, case.pattern_count, &case.table, case.marks.len()).map(|table| find(&table, &case.marks)))
}

fn right(table: &[Row], marks: &[u8]) -> Finding {
    finding(table, &needs(table), marks)
}

/// The right finding, of marks that are read in another way.
fn reading(table: &[Row], marks: &[u8], mark: fn(u8) -> u8) -> Finding {
    right(table, &marks.iter().map(|&other| mark(other)).collect::<Vec<_>>())
}

/// The patterns that are kept.
fn patterns(marks: &[u8]) -> Vec<usize> {
    (0..marks.len()).filter(|&pattern| marks[pattern] == 1).collect()
}

/// The needs that are lost in order, and the kept patterns without which the others meet every need that is not lost.
fn all_wrong(table: &[Row], marks: &[u8]) -> (Vec<Need>, Vec<usize>) {
    let kept = patterns(marks);
    let (met, mut lost): (Vec<Need>, Vec<Need>) = needs(table).into_iter().partition(|&need| meet_all(table, &kept, &[need]));
    lost.sort();
    let spare = kept.iter().copied().filter(|&pattern| meet_all(table, &without(&kept, pattern), &met)).collect();
    (lost, spare)
}

/// The right finding, but where all marks are 0 or 1 and another is chosen of all that is wrong.
fn choosing(table: &[Row], marks: &[u8], choose: fn(&[Need], &[usize]) -> Option<Finding>) -> Finding {
    match right(table, marks) {
        bad @ Finding::BadMark(_) => bad,
        right => {
            let (lost, spare) = all_wrong(table, marks);
            choose(&lost, &spare).unwrap_or(right)
        }
    }
}

fn lost(need: &Need) -> Finding {
    match *need {
        Need::Detected(fault) => Finding::LostFault(fault),
        Need::Apart(first, second) => Finding::LostPair(first, second),
    }
}

fn spare(pattern: &usize) -> Finding {
    Finding::SparePattern(*pattern)
}

fn is_pair(need: &Need) -> bool {
    matches!(need, Need::Apart(..))
}

/// Faults before pairs, and these by their second fault and then by their first.
fn by_second(need: &Need) -> (bool, usize, usize) {
    match *need {
        Need::Detected(fault) => (false, fault, 0),
        Need::Apart(first, second) => (true, second, first),
    }
}

/// Pairs are told apart by a table that has another entry for unknown, faults are detected as before.
fn unknown_in_pairs(table: &[Row], marks: &[u8], unknown: Entry) -> Finding {
    let (detected, faults) = (faults_alone(table), table[0].len());
    let doubled: Vec<Row> = table.iter().zip(read_as(table, unknown)).map(|(row, other)| [&row[..], &other].concat()).collect();
    let pairs = (0..faults).flat_map(|other| (0..other).map(move |one| [one, other]));
    let pairs = pairs.filter(|pair| pair.iter().all(|&fault| detected.contains(&Need::Detected(fault))));
    let told = pairs.map(|[one, other]| Need::Apart(faults + one, faults + other)).filter(|need| need.is_met(doubled.iter()));
    match finding(&doubled, &detected.iter().copied().chain(told).collect::<Vec<_>>(), marks) {
        Finding::LostPair(first, second) => Finding::LostPair(first - faults, second - faults),
        other => other,
    }
}

/// The first need that is lost by how many kept patterns and how many dropped ones meet it, or else a spare pattern.
fn counting(table: &[Row], marks: &[u8], is_lost: fn(&Need, usize, usize) -> bool) -> Finding {
    let count = |need: &Need, mark| table.iter().zip(marks).filter(|(row, &other)| other == mark && need.is_met_by(row)).count();
    let lost_need = needs(table).into_iter().filter(|need| is_lost(need, count(need, 1), count(need, 0))).min();
    match (right(table, marks), lost_need) {
        (bad @ Finding::BadMark(_), _) => bad,
        (_, Some(need)) => lost(&need),
        (Finding::LostFault(_) | Finding::LostPair(..), None) => Finding::Sound,
        (other, None) => other,
    }
}

type Find = fn(&[Row], &[u8]) -> Finding;

/// By what is found.
pub const FINDINGS: [(&str, Find); 36] = [
    ("finds every list sound", |_, _| Finding::Sound),
    ("finds the compactor's list alone sound", |table, marks| match right(table, marks) {
        Finding::Sound => {
            let (kept, others) = (kept(table), patterns(marks));
            (0..marks.len()).find(|pattern| kept.contains(pattern) != others.contains(pattern)).as_ref().map_or(Finding::Sound, spare)
        }
        unsound => unsound,
    }),
    // needs
    ("forgets the faults", |table, marks| finding(table, &pairs_alone(table), marks)),
    ("forgets the pairs", |table, marks| finding(table, &faults_alone(table), marks)),
    ("needs pairs with a fault that is not detected", |table, marks| finding(table, &undetected_too(table), marks)),
    ("takes unknown against pass for told apart", |table, marks| unknown_in_pairs(table, marks, Entry::Fail)),
    ("takes unknown against fail for told apart", |table, marks| unknown_in_pairs(table, marks, Entry::Pass)),
    ("reads unknown as pass", |table, marks| right(&read_as(table, Entry::Pass), marks)),
    ("reads unknown as fail", |table, marks| right(&read_as(table, Entry::Fail), marks)),
    ("asks for what the kept patterns do, and for no more", |table, marks| {
        choosing(table, marks, |_, spares| Some(spares.first().map_or(Finding::Sound, spare)))
    }),
    // patterns that can be spared
    ("spares what all others can, the dropped ones too", |table, marks| match right(table, marks) {
        Finding::Sound => {
            let (all, needs) = ((0..marks.len()).collect::<Vec<_>>(), needs(table));
            let spares = patterns(marks).into_iter().find(|&pattern| meet_all(table, &without(&all, pattern), &needs));
            spares.as_ref().map_or(Finding::Sound, spare)
        }
        other => other,
    }),
    ("spares only what stands there twice", |table, marks| match right(table, marks) {
        Finding::SparePattern(_) => {
            let kept = patterns(marks);
            let twice = |pattern: &&usize| without(&kept, **pattern).iter().any(|&other| table[other] == table[**pattern]);
            kept.iter().find(twice).map_or(Finding::Sound, spare)
        }
        other => other,
    }),
    ("spares what is dropped", |table, marks| match right(table, marks) {
        Finding::Sound => marks.iter().position(|&mark| mark == 0).as_ref().map_or(Finding::Sound, spare),
        other => other,
    }),
    ("spares only what fails no fault", |table, marks| match right(table, marks) {
        Finding::SparePattern(_) => {
            let (_, spares) = all_wrong(table, marks);
            spares.iter().find(|&&pattern| !table[pattern].contains(&Entry::Fail)).map_or(Finding::Sound, spare)
        }
        other => other,
    }),
    // order
    ("gives the highest lost fault", |table, marks| {
        choosing(table, marks, |losses, _| losses.iter().rfind(|need| !is_pair(need)).map(lost))
    }),
    ("gives the highest lost pair", |table, marks| {
        choosing(table, marks, |losses, _| losses.first().filter(|need| is_pair(need)).and(losses.last()).map(lost))
    }),
    ("gives lost pairs by their second fault", |table, marks| {
        choosing(table, marks, |losses, _| losses.iter().min_by_key(|need| by_second(need)).map(lost))
    }),
    ("gives the highest spare pattern", |table, marks| {
        choosing(table, marks, |losses, spares| spares.last().filter(|_| losses.is_empty()).map(spare))
    }),
    ("gives a lost pair before a lost fault", |table, marks| {
        choosing(table, marks, |losses, _| losses.iter().find(|need| is_pair(need)).map(lost))
    }),
    ("gives a spare pattern before a lost pair", |table, marks| {
        choosing(table, marks, |losses, spares| spares.first().filter(|_| losses.iter().all(is_pair)).map(spare))
    }),
    ("gives a spare pattern before a lost fault", |table, marks| choosing(table, marks, |_, spares| spares.first().map(spare))),
    ("gives bad marks last, and keeps their patterns", |table, marks| match reading(table, marks, |mark| mark.min(1)) {
        Finding::Sound => right(table, marks),
        unsound => unsound,
    }),
    // marks
    ("keeps every pattern whose mark is not 0", |table, marks| reading(table, marks, |mark| mark.min(1))),
    ("drops every pattern whose mark is not 1", |table, marks| reading(table, marks, |mark| u8::from(mark == 1))),
    ("reads the lowest bit of a mark", |table, marks| reading(table, marks, |mark| mark & 1)),
    ("reads marks as signed", |table, marks| reading(table, marks, |mark| if mark > 127 { 0 } else { mark })),
    ("lets a mark be 2, as an entry may", |table, marks| reading(table, marks, |mark| if mark == 2 { 0 } else { mark })),
    ("gives the last bad mark", |table, marks| {
        marks.iter().rposition(|&mark| mark > 1).map_or_else(|| right(table, marks), Finding::BadMark)
    }),
    // numbers
    ("gives the bad mark in place of where it is", |table, marks| match right(table, marks) {
        Finding::BadMark(place) => Finding::BadMark(marks[place].into()),
        other => other,
    }),
    ("gives the second fault of a pair first", |table, marks| match right(table, marks) {
        Finding::LostPair(first, second) => Finding::LostPair(second, first),
        other => other,
    }),
    ("counts detected faults alone", |table, marks| {
        let among = |fault| faults_alone(table).iter().filter(|&&need| need < Need::Detected(fault)).count();
        match right(table, marks) {
            Finding::LostFault(fault) => Finding::LostFault(among(fault)),
            other => other,
        }
    }),
    ("counts kept patterns alone", |table, marks| match right(table, marks) {
        Finding::SparePattern(pattern) => Finding::SparePattern(patterns(&marks[..pattern]).len()),
        other => other,
    }),
    ("counts patterns from 1", |table, marks| match right(table, marks) {
        Finding::SparePattern(pattern) => Finding::SparePattern(pattern + 1),
        other => other,
    }),
    // counts in bytes
    ("counts 256 kept patterns that fail a fault as none", |table, marks| {
        counting(table, marks, |need, kept, _| kept == 0 || !is_pair(need) && kept == 256)
    }),
    ("counts 256 kept patterns that tell a pair apart as none", |table, marks| {
        counting(table, marks, |need, kept, _| kept == 0 || is_pair(need) && kept == 256)
    }),
    ("counts 256 dropped patterns as none", |table, marks| counting(table, marks, |_, kept, dropped| kept == 0 && dropped != 256)),
];

type Wrong = (&'static str, fn(&Audit) -> Seen);

/// By what is refused, and by what is written.
pub const ANSWERS: [Wrong; 6] = [
    ("refuses a bad mark", |case| match case.marks.iter().position(|&mark| mark > 1) {
        Some(place) if case.second().returned == 0 => said(case, Err(Refusal { number: 13, place })),
        _ => case.second(),
    }),
    ("looks at the marks' size before the table's bytes", |case| match case.second().returned {
        13 if case.marks.len() as u64 != case.pattern_count => said(case, Err(Refusal { number: 10, place: 0 })),
        _ => case.second(),
    }),
    ("looks for a bad mark before the table's bytes", |case| match case.marks.iter().position(|&mark| mark > 1) {
        Some(place) if case.second().returned == 13 => said(case, Ok(Finding::BadMark(place))),
        _ => case.second(),
    }),
    ("takes more marks than there are patterns", |case| {
        let marks = case.marks.iter().copied().take(case.pattern_count as usize).collect();
        Audit { marks, ..case.clone() }.second()
    }),
    ("takes an area that is too large", |case| {
        let (area, rest) = case.answer.split_at(case.answer.len().min(32));
        let mut seen = Audit { answer: area.to_vec(), ..case.clone() }.second();
        seen.answer.extend(rest);
        seen
    }),
    ("leaves the numbers that it has no use for", |case| {
        let mut seen = case.second();
        let found = second::audit(case.fault_count, case.pattern_count, &case.table, &case.marks);
        if let (Ok(finding), 0) = (found, seen.returned) {
            let used = 8 * finding.numbers().len();
            seen.answer[used..].copy_from_slice(&case.answer[used..]);
        }
        seen
    }),
];
