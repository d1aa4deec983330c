//! What the printed dictionary says of reports, and every form of an answer held to it.
use crate::harness::case::Case;
use crate::harness::fed;
use crate::harness::json::Json;
use std::path::Path;

/// A dictionary as it is printed, and what compaction keeps.
pub struct Printed {
    pub names: Vec<String>,
    /// For each fault its letters, one for each pattern.
    pub rows: Vec<Vec<String>>,
    pub patterns: Vec<String>,
    pub kept: Vec<usize>,
}

pub type Reports = [(usize, bool)];

impl Printed {
    pub fn of(case: &Case) -> Printed {
        let csv = |command: &str| -> Vec<Vec<String>> {
            let (status, printed, _) = case.run(command, &[Path::new("--csv")]);
            assert_eq!(status, Some(0));
            printed.lines().skip(1).map(|row| row.split(',').map(String::from).collect()).collect()
        };
        let (names, rows) = csv("dictionary").into_iter().map(|row| (row[0].clone(), row[1..].to_vec())).unzip();
        let compacted = csv("compact");
        let kept = (0..compacted.len()).filter(|&pattern| compacted[pattern][1] == "K").collect();
        Printed { names, rows, patterns: compacted.into_iter().map(|row| row[2].clone()).collect(), kept }
    }

    /// The faults that no report rules out.
    pub fn remaining(&self, reports: &Reports) -> Vec<usize> {
        let ruled_out = |fault: usize| reports.iter().any(|&(pattern, failed)| self.rows[fault][pattern] == if failed { "P" } else { "F" });
        (0..self.rows.len()).filter(|&fault| !ruled_out(fault)).collect()
    }

    /// A pattern tells two of these faults apart: it fails one and passes the other.
    pub fn tells_apart(&self, pattern: usize, faults: &[usize]) -> bool {
        ["F", "P"].iter().all(|entry| faults.iter().any(|&fault| self.rows[fault][pattern] == *entry))
    }

    /// How many remain if a pattern fails then, and if it passes.
    fn split(&self, reports: &Reports, pattern: usize) -> [usize; 2] {
        [true, false].map(|failed| self.remaining(&[reports, &[(pattern, failed)]].concat()).len())
    }

    /// The pattern to try: of those that are kept, and if none of these will do of all.
    pub fn next(&self, reports: &Reports) -> Option<usize> {
        let all: Vec<usize> = (0..self.patterns.len()).collect();
        self.best(reports, &self.kept).or_else(|| self.best(reports, &all))
    }

    fn best(&self, reports: &Reports, of: &[usize]) -> Option<usize> {
        let larger = |pattern: &usize| self.split(reports, *pattern).into_iter().max().expect("two numbers");
        // where no fault is detected no pattern is kept
        let best = of.iter().map(larger).min()?;
        of.iter().copied().find(|pattern| larger(pattern) == best && best < self.remaining(reports).len())
    }

    /// The answer to the last of these reports, in the order of the columns.
    fn answer(&self, reports: &Reports) -> [Json; 8] {
        let (last, remaining, next) = (reports.last(), self.remaining(reports), self.next(reports));
        let number = |number: usize| Json::Number(number as u64);
        let or_null = |json: Option<Json>| json.unwrap_or(Json::Null);
        let split = |case: usize| or_null(next.map(|next| number(self.split(reports, next)[case])));
        [
            or_null(last.map(|&(pattern, _)| number(pattern))),
            or_null(last.map(|&(_, failed)| Json::Text(if failed { "fail" } else { "pass" }.to_string()))),
            number(remaining.len()),
            Json::List(remaining.iter().map(|&fault| Json::Text(self.names[fault].clone())).collect()),
            or_null(next.map(number)),
            or_null(next.map(|next| Json::Text(self.patterns[next].clone()))),
            split(0),
            split(1),
        ]
    }

    /// The same answer for people: which faults remain, and the pattern to try if there is one.
    fn lines(&self, reports: &Reports) -> (String, Option<String>) {
        let [pattern, report, remaining, faults, _, values, if_failed, if_passed] = self.answer(reports).each_ref().map(field);
        let one = |number: &str| if number == "1" { "s" } else { "" };
        let after = if report.is_empty() { String::new() } else { format!("pattern {pattern} {report}ed, ") };
        let names = if faults.is_empty() { faults } else { format!(": {faults}") };
        let many = if remaining == "1" { "" } else { "s" };
        let proposal = self.next(reports).map(|next| {
            let dropped = if self.kept.contains(&next) { "" } else { "no kept pattern tells these apart; " };
            format!("{dropped}try pattern {next} ({values}): {if_failed} remain{} if it fails, {if_passed} if it passes", one(&if_failed))
        });
        (format!("{after}{remaining} fault{many} remain{}{names}", one(&remaining)), proposal)
    }
}

const COLUMNS: [&str; 8] = ["pattern", "report", "remaining", "faults", "next", "values", "if failed", "if passed"];

/// A field as the csv has it.
fn field(json: &Json) -> String {
    match json {
        Json::Null => String::new(),
        Json::Number(number) => number.to_string(),
        Json::Text(text) => text.clone(),
        other => other.texts().join(" "),
    }
}

/// All forms say what the printed dictionary says, report by report.
pub fn compare(printed: &Printed, case: &Case, reports: &Reports) {
    let written: String =
        reports.iter().map(|(pattern, failed)| format!("{pattern} {}\n", if *failed { "fail" } else { "pass" })).collect();
    let told = |form: &[&Path]| {
        let (status, printed, said) = fed(&case.words("suspects", form), &written);
        assert_eq!((status, said.as_str()), (Some(0), ""));
        printed
    };
    let answers: Vec<[Json; 8]> = (0..=reports.len()).map(|count| printed.answer(&reports[..count])).collect();
    let json: Vec<[Json; 8]> =
        told(&[Path::new("--json")]).lines().map(|line| COLUMNS.map(|column| Json::read(line).at(column).clone())).collect();
    assert_eq!(json, answers);
    let row = |fields: Vec<String>| fields.join(",") + "\n";
    let csv: String = answers.iter().map(|answer| row(answer.iter().map(field).collect())).collect();
    assert_eq!(told(&[Path::new("--csv")]), row(COLUMNS.map(String::from).to_vec()) + &csv);

    let table = told(&[]);
    // a line fits a terminal, but for a word that is longer
    assert!(table.lines().all(|line| line.len() <= 80 || !line.trim_start().contains(' ')), "{table}");
    let whole = table.replace("\n  ", " ");
    let lines: Vec<&str> = whole.lines().collect();
    assert_eq!(lines.len(), 2 * answers.len(), "{table}");
    for (count, pair) in lines.chunks(2).enumerate() {
        let (first, proposal) = printed.lines(&reports[..count]);
        assert_eq!(pair[0], first);
        match proposal {
            Some(proposal) => assert_eq!(pair[1], proposal),
            None => {
                assert!(!pair[1].contains("try"), "{table}");
                // the part may have no fault once something is reported, and nothing has failed
                let all_passed = count > 0 && reports[..count].iter().all(|(_, failed)| !failed);
                assert_eq!(pair[1].contains(": the part "), all_passed, "{table}");
            }
        }
    }
}
