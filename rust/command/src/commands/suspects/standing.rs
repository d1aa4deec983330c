//! Where one stands after a report: which faults remain, and what to try.
use super::reports::Report;
use super::split::Split;
use crate::filled::filled;
use crate::form::{count, csv_row, list, quoted, Form};

/// How far the lines of an answer that follow its first are set in.
const INDENT: usize = 2;

const COLUMNS: [&str; 8] = ["pattern", "report", "remaining", "faults", "next", "values", "if failed", "if passed"];

pub struct Standing {
    /// What was reported last.
    pub report: Option<Report>,
    /// Whether any pattern was reported failed.
    pub any_failed: bool,
    pub remaining: usize,
    /// The faults that remain, by name.
    pub faults: Vec<String>,
    /// The pattern to try, with its values.
    pub next: Option<(Split, String)>,
}

/// A field of an answer for programs.
#[derive(Clone, Copy)]
enum Field<'a> {
    Absent,
    Number(usize),
    Text(&'a str),
    Names(&'a [String]),
}

impl Field<'_> {
    fn csv(self) -> String {
        match self {
            Field::Absent => String::new(),
            Field::Number(number) => number.to_string(),
            Field::Text(text) => text.to_string(),
            Field::Names(names) => names.join(" "),
        }
    }

    fn json(self) -> String {
        match self {
            Field::Absent => "null".to_string(),
            Field::Number(number) => number.to_string(),
            Field::Text(text) => quoted(text),
            Field::Names(names) => list(names),
        }
    }
}

/// What stands above all answers.
pub fn head(form: Form) -> String {
    match form {
        Form::Csv => csv_row(COLUMNS),
        Form::Table | Form::Json => String::new(),
    }
}

impl Standing {
    pub fn printed(&self, form: Form) -> String {
        match form {
            Form::Table => [self.remain(), self.advice()].map(|line| filled("", &line, INDENT)).concat(),
            Form::Csv => csv_row(self.fields().map(Field::csv)),
            Form::Json => {
                let pairs = COLUMNS.iter().zip(self.fields()).map(|(name, field)| format!("{}: {}", quoted(name), field.json()));
                format!("{{{}}}\n", pairs.collect::<Vec<_>>().join(", "))
            }
        }
    }

    /// One for each column.
    fn fields(&self) -> [Field<'_>; COLUMNS.len()] {
        let [pattern, report] = match self.report {
            Some(Report { pattern, failed }) => [Field::Number(pattern), Field::Text(if failed { "fail" } else { "pass" })],
            None => [Field::Absent; 2],
        };
        let [next, values, if_failed, if_passed] = match &self.next {
            Some((split, values)) => {
                [Field::Number(split.pattern), Field::Text(values), Field::Number(split.if_failed), Field::Number(split.if_passed)]
            }
            None => [Field::Absent; 4],
        };
        [pattern, report, Field::Number(self.remaining), Field::Names(&self.faults), next, values, if_failed, if_passed]
    }

    /// How many faults remain after which report, and which.
    fn remain(&self) -> String {
        let ended = |report: &Report| format!("pattern {} {}, ", report.pattern, if report.failed { "failed" } else { "passed" });
        let after = self.report.as_ref().map_or(String::new(), ended);
        let remain = if self.remaining == 1 { "remains" } else { "remain" };
        let names: String = self.faults.iter().map(|name| format!(" {name}")).collect();
        format!("{after}{} {remain}{}{names}", count(self.remaining, "fault"), if names.is_empty() { "" } else { ":" })
    }

    /// What to do next.
    fn advice(&self) -> String {
        match &self.next {
            Some((split, values)) => proposal(split, values),
            None => self.meaning().to_string(),
        }
    }

    /// What it may mean that there is no pattern to try. The part has a fault for sure only if something has failed.
    fn meaning(&self) -> &'static str {
        let all_passed = self.report.is_some() && !self.any_failed;
        match (self.remaining, all_passed) {
            (0, false) => {
                "no fault of the list fits all reports: some contradict each other, or the fault is not in the list, or there are several"
            }
            (0, true) => {
                "no fault of the list passes all of these: the part has no fault, or one that is not in the list, or several that hide each other"
            }
            (1, false) => "nothing is left to tell apart",
            (1, true) => "no pattern has failed: the part may have no fault",
            (_, false) => "no pattern tells these apart",
            (_, true) => "no pattern tells these apart, and none has failed: the part may have no fault",
        }
    }
}

/// That a pattern with these values is to be tried, and what comes of it.
fn proposal(Split { pattern, kept, if_failed, if_passed }: &Split, values: &str) -> String {
    let why = if *kept { "" } else { "no kept pattern tells these apart; " };
    let remain = if *if_failed == 1 { "remains" } else { "remain" };
    format!("{why}try pattern {pattern} ({values}): {if_failed} {remain} if it fails, {if_passed} if it passes")
}
