//! Courses of sessions that are wrong in one way each: by what they hold of the reports that came so far, the last of which is new.
use super::courses::{and, course, opened, Course};
use cases::suspects::{Report, Session};

type Held = fn(&Session, &[Report]) -> Vec<Report>;

/// The course in which what remains goes by other reports than came. Refusals are right.
pub fn holding(session: &Session, held: Held) -> Course {
    let mut reports = vec![];
    course(session, |suspects, report| {
        and(suspects, report)?;
        reports.push(report.clone());
        Ok(remaining(session, &held(session, &reports)))
    })
}

fn remaining(session: &Session, reports: &[Report]) -> second::Suspects {
    reports.iter().fold(opened(session), |suspects, report| and(suspects, report).expect("accepted"))
}

/// The same reports on another table.
fn on(table: &[u8], reports: &[Report]) -> Vec<Report> {
    reports.iter().map(|report| Report { table: table.to_vec(), ..report.clone() }).collect()
}

fn is_contradicted(report: &Report, reports: &[Report]) -> bool {
    reports.iter().any(|other| other.pattern == report.pattern && (other.failed == 0) != (report.failed == 0))
}

/// The reports that hold good beside those before them and those behind them.
fn filtered(reports: &[Report], holds: fn(&[Report], &Report, &[Report]) -> bool) -> Vec<Report> {
    let held = (0..reports.len()).filter(|&k| holds(&reports[..k], &reports[k], &reports[k + 1..]));
    held.map(|k| reports[k].clone()).collect()
}

pub const HELD: [(&str, Held); 12] = [
    ("takes the table at opening", |session, reports| on(&session.table, reports)),
    ("takes the table lent last for all reports", |_, reports| on(&reports[reports.len() - 1].table, reports)),
    ("takes the table lent first for all reports", |_, reports| on(&reports[0].table, reports)),
    ("holds the last report alone", |_, reports| reports[reports.len() - 1..].to_vec()),
    ("holds the first report alone", |_, reports| reports[..1].to_vec()),
    ("holds the last two reports alone", |_, reports| reports[reports.len().saturating_sub(2)..].to_vec()),
    ("holds the last report on a pattern alone", |_, reports| {
        filtered(reports, |_, report, behind| behind.iter().all(|other| other.pattern != report.pattern))
    }),
    ("holds the first report on a pattern alone", |_, reports| {
        filtered(reports, |before, report, _| before.iter().all(|other| other.pattern != report.pattern))
    }),
    ("holds neither of two reports that contradict each other", |_, reports| {
        filtered(reports, |before, report, behind| !is_contradicted(report, before) && !is_contradicted(report, behind))
    }),
    ("holds reports alone that a pattern failed", |_, reports| filtered(reports, |_, report, _| report.failed != 0)),
    ("holds reports alone that a pattern passed", |_, reports| filtered(reports, |_, report, _| report.failed == 0)),
    ("opens anew where none remains", |session, reports| {
        let hold = |mut held: Vec<Report>, report: &Report| {
            if remaining(session, &held).remaining() == 0 {
                held.clear();
            }
            held.push(report.clone());
            held
        };
        reports.iter().fold(vec![], hold)
    }),
];
