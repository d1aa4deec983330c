//! What a search has found, as the command prints it in each form.
use super::json::Json;
use super::named::{letters, Named};
use second::search::{Outcome, Search};
use second::Fault;

pub fn word(outcome: Outcome) -> &'static str {
    match outcome {
        Outcome::Test => "test",
        Outcome::Redundant => "redundant",
        Outcome::GivenUp => "given up",
    }
}

/// The test, or nothing.
pub fn test(search: &Search) -> Option<String> {
    search.last.as_ref().filter(|_| search.outcome == Outcome::Test).map(letters)
}

pub fn totals(found: &[Search]) -> [usize; 3] {
    [Outcome::Test, Outcome::Redundant, Outcome::GivenUp].map(|of| found.iter().filter(|search| search.outcome == of).count())
}

/// The csv of what was found.
pub fn csv(named: &Named, faults: &[Fault], found: &[Search]) -> String {
    let head = ["fault", "outcome", "nodes"].into_iter().chain(named.inputs()).collect::<Vec<_>>().join(",");
    let row = |(&fault, search): (&Fault, &Search)| {
        let values = test(search).map_or(vec![String::new(); named.inputs().len()], |test| test.chars().map(String::from).collect());
        format!("{},{},{},{}\n", named.word(fault), word(search.outcome), search.nodes, values.join(","))
    };
    format!("{head}\n{}", faults.iter().zip(found).map(row).collect::<String>())
}

/// The json of what was found, as values.
pub fn json(named: &Named, faults: &[Fault], found: &[Search]) -> Json {
    let text = |text: &str| Json::Text(text.to_string());
    let pair = |key: &str, value: Json| (key.to_string(), value);
    let one = |(&fault, search): (&Fault, &Search)| {
        Json::Object(vec![
            pair("fault", Json::Text(named.word(fault))),
            pair("outcome", text(word(search.outcome))),
            pair("nodes", Json::Number(search.nodes)),
            pair("test", test(search).map_or(Json::Null, Json::Text)),
        ])
    };
    let [tests, redundant, given_up] = totals(found).map(|count| Json::Number(count as u64));
    Json::Object(vec![
        pair("inputs", Json::List(named.inputs().into_iter().map(text).collect())),
        pair("faults", Json::List(faults.iter().zip(found).map(one).collect())),
        pair("tests", tests),
        pair("redundant", redundant),
        pair("given up", given_up),
    ])
}

/// The words of a table's line, whatever stands between them.
fn cells(line: &str) -> Vec<&str> {
    line.split_whitespace().collect()
}

/// The table of what was found: a line for each fault, with every cell under the beginning of its column's name, or its end for numbers; then
/// how many there are, and these lines.
pub fn is_table(table: &str, named: &Named, faults: &[Fault], found: &[Search], more: &[String]) {
    let lines: Vec<&str> = table.lines().collect();
    assert_eq!(cells(lines[0]), ["fault", "outcome", "nodes"].into_iter().chain(named.inputs()).collect::<Vec<_>>());
    let column = lines[0].find("nodes").expect("nodes") + "nodes ".len();
    for ((line, &fault), search) in lines[1..].iter().zip(faults).zip(found) {
        let (fault, nodes) = (named.word(fault), search.nodes.to_string());
        let test = test(search).unwrap_or_default();
        let values: Vec<String> = test.chars().map(String::from).collect();
        let outcome = word(search.outcome).split(' ');
        let expected: Vec<&str> =
            [fault.as_str()].into_iter().chain(outcome).chain([nodes.as_str()]).chain(values.iter().map(String::as_str)).collect();
        assert_eq!(cells(line), expected, "{table}");
        assert!(line[..column.min(line.len())].trim_end().ends_with(&nodes), "{table}");
        let at = |input: usize| column + named.inputs()[..input].iter().map(|name| name.len() + 1).sum::<usize>();
        assert!(values.iter().enumerate().all(|(input, value)| line[at(input)..].starts_with(value)), "{table}");
    }
    let ([tests, redundant, given_up], count) = (totals(found), faults.len());
    let totals = format!("{}: {}, {redundant} redundant, {given_up} given up", counted(count, "fault"), counted(tests, "test"));
    let last: Vec<&str> = [&totals].into_iter().chain(more).map(String::as_str).collect();
    assert_eq!(lines[1 + count..], last);
}

/// A number with what it is of.
pub fn counted(number: usize, of: &str) -> String {
    format!("{number} {of}{}", if number == 1 { "" } else { "s" })
}
