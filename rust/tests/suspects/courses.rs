//! Courses: what is seen of a session, of its opening and then of each report, to the state as the call before left it.
use crate::calls::{open, report_to};
use crate::harness::library;
use cases::suspects::{Report, Session, STATE};
use cases::Random;
use second::entries::{stood, Seen};
use second::Suspects;

pub type Course = Vec<Seen>;

/// The state that a course ends in.
pub fn last_state(course: &[Seen]) -> Vec<u8> {
    course.last().expect("an opening").lent[0].clone().u8().clone()
}

/// What the library does, in all sessions at once.
pub fn by_library(sessions: &[Session]) -> Vec<Course> {
    let mut random = Random::new(1);
    let opens: Vec<_> = sessions.iter().map(|session| open(&mut random, session.counts, session.table.clone())).collect();
    let mut courses: Vec<Course> = library(&opens).into_iter().map(|seen| vec![seen]).collect();
    let longest = sessions.iter().map(|session| session.reports.len()).max().unwrap_or(0);
    for step in 0..longest {
        let going: Vec<usize> = (0..sessions.len()).filter(|&k| step < sessions[k].reports.len()).collect();
        let report = |&k: &usize| report_to(&mut random, last_state(&courses[k]), sessions[k].reports[step].clone());
        let reports: Vec<_> = going.iter().map(report).collect();
        going.into_iter().zip(library(&reports)).for_each(|(k, seen)| courses[k].push(seen));
    }
    courses
}

/// The suspects with one report more.
pub fn and(suspects: Suspects, Report { counts, table, pattern, failed }: &Report) -> Result<Suspects, second::Refusal> {
    suspects.and(*counts, table, *pattern, *failed)
}

pub fn opened(session: &Session) -> Suspects {
    Suspects::open(session.counts[0], session.counts[1], &session.table, STATE).expect("accepted")
}

/// The course by what becomes of the suspects with each report. Where that is refused they stay.
pub fn course(session: &Session, mut next: impl FnMut(Suspects, &Report) -> Result<Suspects, second::Refusal>) -> Course {
    let (area, mut held) = ([0; 32], opened(session));
    let mut course = vec![stood(&[], &area, Ok(held.clone()))];
    for report in &session.reports {
        let said = next(held.clone(), report);
        course.push(stood(&held.area(), &area, said.clone()));
        held = said.unwrap_or(held);
    }
    course
}

/// What the second program says: all reports are held.
pub fn by_second(session: &Session) -> Course {
    course(session, and)
}
