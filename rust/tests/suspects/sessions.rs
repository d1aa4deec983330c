//! Sessions of suspects against the second program, which holds all reports: a state is opened, and each report goes to the state as the library
//! left it. After every call the number returned and every byte of the state and of the answer are compared.
use crate::courses::{by_library, by_second, last_state, opened, Course};
use crate::wrong_sessions::{holding, HELD};
use cases::suspects::{report, report_on_any, session, spoil, Report, Session, MARKS};
use cases::tables::{of_density, small, table, DENSITIES};
use cases::{drawn, Random, Tally};
use second::entries::Seen;
use ullimaqsu::{Refusal, Suspects};

/// The same with some reports, drawn in this way.
fn with_reports(random: &mut Random, session: Session, most: usize, draw: fn(&mut Random, &Session) -> Report) -> Session {
    let reports = (0..=random.below(most)).map(|_| draw(random, &session)).collect();
    Session { reports, ..session }
}

/// A report on this table or on another, now and then one that is refused.
fn any_report(random: &mut Random, session: &Session) -> Report {
    let mut report = report_on_any(random, session);
    if random.once_in(5) {
        spoil(random, &mut report);
    }
    report
}

fn small_session(random: &mut Random, draw: fn(&mut Random, &Session) -> Report) -> Session {
    let (faults, table) = small(random);
    with_reports(random, session(faults, table), 12, draw)
}

/// Of any size up to the largest.
fn sized_session(random: &mut Random) -> Session {
    let [faults, patterns] = [(); 2].map(|_| 1 + random.below(256));
    let table = table(random, faults, patterns);
    with_reports(random, session(faults, table), 12, any_report)
}

/// Whatever the course, a refusal changes nothing, no fault comes back, and the number remaining in state and answer is that of the marks.
fn holds_together(course: &Course) {
    let mut before: Option<Vec<u8>> = None;
    for Seen { returned, answer, lent } in course {
        let state = lent[0].clone().u8().clone();
        let remaining = state[MARKS..].iter().filter(|&&mark| mark == 1).count() as u64;
        assert_eq!(state[24..MARKS], remaining.to_le_bytes());
        match before {
            Some(before) if *returned != 0 => assert_eq!(state, before),
            Some(before) => assert!(state[MARKS..].iter().zip(&before[MARKS..]).all(|(now, then)| now <= then)),
            None => (),
        }
        assert!(*returned != 0 || answer[..8] == remaining.to_le_bytes());
        before = Some(state);
    }
}

/// Compares the courses of sessions, and counts what each call returned.
fn compare_courses(name: &str, mut sessions: impl Iterator<Item = Session>) -> Tally {
    let mut tally = Tally::default();
    loop {
        let some: Vec<Session> = sessions.by_ref().take(200).collect();
        if some.is_empty() {
            break;
        }
        for (session, course) in some.iter().zip(by_library(&some)) {
            let said = by_second(session);
            let differs = (0..said.len()).find(|&step| course[step] != said[step]);
            assert_eq!((course.len(), differs), (said.len(), None), "{name}: {session:?}\nlibrary: {course:?}\n  other: {said:?}");
            holds_together(&course);
            said.iter().for_each(|seen| tally.count(seen.returned));
        }
    }
    println!("{name}: {tally}");
    tally
}

#[test]
fn any_sessions() {
    let small = drawn(1, 20_000, |random| small_session(random, any_report));
    assert_eq!(compare_courses("sessions, small", small).seen(), [0, 12, 13, 17]);
    assert_eq!(compare_courses("sessions, of any size", drawn(2, 150, sized_session)).seen(), [0, 12, 13, 17]);
}

/// 256 by 256, of every density.
#[test]
fn largest() {
    let mut random = Random::new(3);
    let sessions = DENSITIES.map(|density| {
        let table = of_density(&mut random, density, 256, 256);
        with_reports(&mut random, session(256, table), 20, report)
    });
    assert_eq!(compare_courses("sessions, 256 by 256", sessions.into_iter()).seen(), [0]);
}

/// The same reports in other orders, and several times.
fn rearranged(random: &mut Random, session: &Session) -> Vec<Session> {
    let reports = &session.reports;
    let mut shuffled = reports.clone();
    shuffled.sort_by_cached_key(|_| random.word());
    let others = [
        reports.iter().rev().cloned().collect(),
        [&reports[1..], &reports[..1]].concat(),
        [&reports[..], &reports[..]].concat(),
        reports.iter().flat_map(|report| [report.clone(), report.clone()]).collect(),
        [&shuffled[..], &reports[..1]].concat(),
        shuffled,
    ];
    others.map(|reports| Session { reports, ..session.clone() }).into()
}

#[test]
fn any_order_and_repeated() {
    let mut random = Random::new(4);
    let sessions: Vec<Session> = drawn(5, 3_000, |random| small_session(random, report_on_any)).collect();
    let expected: Vec<Vec<u8>> = by_library(&sessions).iter().map(|course| last_state(course)).collect();
    for (session, state) in sessions.iter().zip(expected) {
        let others = rearranged(&mut random, session);
        for (other, course) in others.iter().zip(by_library(&others)) {
            assert_eq!(last_state(&course), state, "{session:?}\n{other:?}");
        }
    }
}

/// Each pattern is reported failed and passed: what remains is what no pattern knows anything of.
#[test]
fn contradictions() {
    let mut random = Random::new(6);
    let (mut none, mut some) = (0, 0);
    for (faults, table) in drawn(7, 3_000, small) {
        let opened = session(faults, table);
        let counts = opened.counts;
        let both = (0..counts[1]).flat_map(|pattern| [0, random.pick(&[1, 2, u64::MAX])].map(|failed| (pattern, failed)));
        let reports = both.map(|(pattern, failed)| Report { counts, table: opened.table.clone(), pattern, failed }).collect();
        let state = last_state(&by_library(&[Session { reports, ..opened.clone() }])[0]);
        let unknown = |fault: &usize| opened.table.chunks(faults).all(|row| row[*fault] == 2);
        let expected: Vec<usize> = (0..faults).filter(unknown).collect();
        let remaining: Vec<usize> = (0..256).filter(|fault| state[MARKS + fault] == 1).collect();
        assert_eq!((&remaining, state[24]), (&expected, expected.len() as u8), "{opened:?}");
        (none, some) = (none + usize::from(expected.is_empty()), some + usize::from(!expected.is_empty()));
    }
    assert!(none > 500 && some > 500, "{none} {some}");
}

/// The entry that is lent with the report counts, whatever stood there before or comes after.
#[test]
fn tables_that_change() {
    let mut suspects = Suspects::open(3, 2, &[0, 0, 0, 0, 0, 0]).expect("accepted");
    assert_eq!(suspects.report(&[1, 1, 0, 0, 0, 0], 0, true), Ok(2));
    assert_eq!(suspects.marks(), [true, true, false]);
    assert_eq!(suspects.report(&[0, 0, 1, 2, 2, 2], 1, true), Ok(2), "its row alone counts");
    assert_eq!(suspects.report(&[1, 2, 1, 2, 2, 2], 0, false), Ok(1));
    assert_eq!(suspects.marks(), [false, true, false]);
    assert_eq!(suspects.report(&[1, 0, 1, 2, 2, 2], 0, true), Ok(0));
    assert_eq!(suspects.report(&[1, 1, 1, 1, 1, 1], 0, true), Ok(0), "none comes back");
}

#[test]
fn wrong_programs() {
    let sessions: Vec<Session> = drawn(8, 2_000, |random| small_session(random, any_report)).collect();
    let library = by_library(&sessions);
    assert!(sessions.iter().map(by_second).eq(library.iter().cloned()));
    for (name, held) in HELD {
        let differs = |(session, course): (&Session, &Course)| holding(session, held) != *course;
        assert!(sessions.iter().zip(&library).any(differs), "not seen: a program that {name}");
    }
}

/// The safe calls beside the second program, after each report.
#[test]
fn bindings() {
    for session in drawn(9, 2_000, |random| small_session(random, any_report)).chain(drawn(10, 20, sized_session)) {
        let [faults, patterns] = session.counts;
        let mut suspects = Suspects::open(faults, patterns, &session.table).expect("accepted");
        let mut held = opened(&session);
        // its counts are always those at opening
        for Report { table, pattern, failed, .. } in &session.reports {
            let before = suspects.clone();
            let said = held.clone().and(session.counts, table, *pattern, *failed);
            let expected = said.as_ref().map(|held| held.remaining()).map_err(|refusal| Refusal::new(refusal.number, refusal.place as u64));
            assert_eq!(suspects.report(table, *pattern, *failed != 0), expected, "{session:?}");
            assert!(expected.is_ok() || suspects == before);
            held = said.unwrap_or(held);
            let marks: Vec<bool> = held.marks(held.faults).expect("one a fault").iter().map(|&mark| mark == 1).collect();
            assert_eq!((suspects.remaining(), suspects.faults(), suspects.patterns()), (held.remaining(), faults, patterns));
            assert!((0..300).all(|fault| suspects.remains(fault) == *marks.get(fault).unwrap_or(&false)) && !suspects.remains(usize::MAX));
            assert_eq!(suspects.marks(), marks);
        }
    }
}

/// What cannot be opened.
#[test]
fn refused_bindings() {
    let refused = |faults, patterns, table: &[u8]| Suspects::open(faults, patterns, table).expect_err("refused").to_string();
    let counts = "refusal 12: a count of faults or patterns is outside 1 to 256, or the table is not of their product \
        (report to suspects: or a count is other than at opening)";
    assert_eq!(refused(3, 2, &[0; 5]), counts);
    assert_eq!(refused(0, 2, &[]), counts);
    assert_eq!(refused(257, 1, &[0; 257]), counts);
    assert_eq!(refused(3, 2, &[0, 1, 2, 0, 1, 3]), "refusal 13: a table byte is above 2 (byte 5)");
    let mut suspects = Suspects::open(3, 2, &[0, 1, 2, 0, 1, 2]).expect("accepted");
    let mut refused = |table: &[u8], pattern| suspects.report(table, pattern, true).expect_err("refused").to_string();
    assert_eq!(refused(&[0, 1, 2, 0, 1, 2, 0], 0), counts);
    assert_eq!(refused(&[0, 1, 2, 0, 1, 2], 2), "refusal 17: the number of the pattern is not below the number of patterns");
    assert_eq!(suspects.marks(), [true; 3]);
}
