//! `ullimaqsu values` against the second program: every value in every form, and the picture.
mod harness;
#[path = "harness/xml.rs"]
mod xml;

use cases::{circuits, drawn, texts, Directory, Random};
use harness::json::Json;
use harness::named::{kind, letters, Named};
use harness::{example, examples, into_broken, into_full, printed, refused, selectors, stopped, ullimaqsu};
use second::circuit::Gate;
use second::{Entry, Fault, Pattern, Value};
use std::collections::HashMap;
use std::fs;
use std::path::Path;
use std::time::Instant;
use xml::Element;

/// A pattern and perhaps a fault of a circuit, with what the second program says of them.
struct Case<'a> {
    named: &'a Named,
    pattern: Pattern,
    fault: Option<Fault>,
    good: Vec<Value>,
    faulty: Option<Vec<Value>>,
}

impl Case<'_> {
    fn of(named: &Named, pattern: Pattern, fault: Option<Fault>) -> Case<'_> {
        let good = named.circuit.values(&pattern, None);
        let faulty = fault.map(|fault| named.circuit.values(&pattern, Some(fault)));
        Case { named, pattern, fault, good, faulty }
    }

    fn drawn<'a>(random: &mut Random, named: &'a Named) -> Case<'a> {
        let mut given = named.given(random, 1, 1);
        let fault = given.faults.pop().filter(|_| !random.once_in(4));
        Case::of(named, given.patterns.pop().expect("a pattern"), fault)
    }

    fn lines(&self) -> usize {
        self.good.len()
    }

    fn name(&self, line: usize) -> &str {
        &self.named.names[line]
    }

    fn sources(&self, line: usize) -> Vec<&str> {
        self.named.circuit.lines[line].gate.sources().into_iter().map(|source| self.name(source)).collect()
    }

    fn is_output(&self, line: usize) -> bool {
        self.named.circuit.lines[line].output
    }

    fn kind(&self, line: usize) -> &'static str {
        kind(self.named.circuit.lines[line].gate)
    }

    /// What is written into its body.
    fn written(&self, line: usize) -> Vec<&'static str> {
        match self.kind(line) {
            "INPUT" => vec![],
            "SELECTOR" => vec!["SEL", "0", "1", "S"],
            kind => vec![kind],
        }
    }

    /// The mark of a line: both values are known and differ, or exactly one is X.
    fn mark(&self, line: usize) -> &'static str {
        match (self.good[line], self.faulty.as_ref().map_or(self.good[line], |faulty| faulty[line])) {
            (Some(good), Some(faulty)) if good != faulty => "*",
            (Some(_), None) | (None, Some(_)) => "?",
            _ => "",
        }
    }

    /// `1`, or with a fault `1/0`.
    fn both(&self, line: usize) -> String {
        let faulty = self.faulty.as_ref().map_or(String::new(), |faulty| format!("/{}", letter(faulty[line])));
        format!("{}{faulty}", letter(self.good[line]))
    }

    /// What stands above the cells of a line, and the cells.
    fn heads(&self) -> Vec<&'static str> {
        let faulty: &[&str] = if self.fault.is_some() { &["faulty", "differs"] } else { &[] };
        [&["line", "kind", "sources", "good"], faulty, &["output"]].concat()
    }

    fn cells(&self, line: usize) -> Vec<String> {
        let mut cells =
            vec![self.name(line).to_string(), self.kind(line).to_string(), self.sources(line).join(" "), letter(self.good[line])];
        if let Some(faulty) = &self.faulty {
            cells.extend([letter(faulty[line]), self.mark(line).to_string()]);
        }
        cells.push(if self.is_output(line) { "output" } else { "" }.to_string());
        cells
    }

    /// The last line of the table.
    fn verdict(&self) -> Option<String> {
        let compared = (0..self.lines()).filter(|&line| self.is_output(line) && self.good[line].is_some());
        let with = |mark: &str| compared.filter(|&line| self.mark(line) == mark).map(|line| self.name(line)).collect::<Vec<_>>().join(", ");
        Some(match self.named.circuit.entry(&self.pattern, self.fault?) {
            Entry::Pass => "pass: no output that is compared differs".to_string(),
            Entry::Fail => format!("fail: seen at {}", with("*")),
            Entry::Unknown => format!("unknown: the faulty value is X at {}", with("?")),
        })
    }

    /// The words of the command, with some more.
    fn words(&self, path: &Path, more: &[&str]) -> Vec<String> {
        let fault = self.fault.map(|fault| self.named.word(fault));
        let words = ["values".to_string(), path.to_str().expect("text").to_string(), letters(&self.pattern)];
        words.into_iter().chain(fault).chain(more.iter().map(|word| word.to_string())).collect()
    }
}

fn letter(value: Value) -> String {
    letters(&vec![value])
}

/// Each cell stands under its head, and the last one ends its line.
fn is_table(case: &Case, table: &str) {
    let mut lines: Vec<&str> = table.lines().collect();
    if let Some(verdict) = case.verdict() {
        assert_eq!(lines.pop(), Some(verdict.as_str()));
    }
    let heads = case.heads();
    assert_eq!(lines[0].split_whitespace().collect::<Vec<_>>(), heads);
    let starts: Vec<usize> = heads.iter().map(|head| lines[0].find(head).expect("a head")).collect();
    let cell = |text: &str, column: usize| {
        let end = starts.get(column + 1).map_or(text.len(), |next| *next).min(text.len());
        text.get(starts[column]..end).unwrap_or_default().trim_end().to_string()
    };
    let found: Vec<Vec<String>> = lines[1..].iter().map(|text| (0..heads.len()).map(|column| cell(text, column)).collect()).collect();
    assert_eq!(found, (0..case.lines()).map(|line| case.cells(line)).collect::<Vec<_>>(), "{table}");
    assert!(lines.iter().all(|text| text.trim_end() == *text), "{table}");
}

fn csv(case: &Case) -> String {
    let rows = (0..case.lines()).map(|line| case.cells(line).join(",") + "\n");
    case.heads().join(",") + "\n" + &rows.collect::<String>()
}

fn json(case: &Case) -> Json {
    let text = |text: &str| Json::Text(text.to_string());
    let pair = |key: &str, value: Json| (key.to_string(), value);
    let line = |line: usize| {
        let sources = case.sources(line).into_iter().map(text).collect();
        let mut pairs =
            vec![pair("line", text(case.name(line))), pair("kind", text(case.kind(line))), pair("sources", Json::List(sources))];
        pairs.push(pair("good", text(&letter(case.good[line]))));
        if let Some(faulty) = &case.faulty {
            pairs.extend([pair("faulty", text(&letter(faulty[line]))), pair("differs", text(case.mark(line)))]);
        }
        pairs.push(pair("output", Json::Truth(case.is_output(line))));
        Json::Object(pairs)
    };
    let mut pairs = vec![pair("pattern", text(&letters(&case.pattern)))];
    if let Some(fault) = case.fault {
        let entry = match case.named.circuit.entry(&case.pattern, fault) {
            Entry::Pass => "P",
            Entry::Fail => "F",
            Entry::Unknown => "U",
        };
        pairs.extend([pair("fault", text(&case.named.word(fault))), pair("entry", text(entry))]);
    }
    pairs.push(pair("lines", Json::List((0..case.lines()).map(line).collect())));
    Json::Object(pairs)
}

/// The place of a group.
fn place(group: &Element) -> (f64, f64) {
    let numbers = group.needs("transform").strip_prefix("translate(").and_then(|rest| rest.strip_suffix(')')).expect("a place");
    let (x, y) = numbers.split_once(' ').expect("two numbers");
    (x.parse().expect("a number"), y.parse().expect("a number"))
}

/// The picture shows each line once, with its name and values, at its place; the outputs; the fault; and what differs, by its colour.
fn is_picture(case: &Case, file: &str, picture: &str) {
    let root = Element::read(picture);
    let all = root.all();
    assert!(all.iter().all(|element| ["svg", "title", "style", "rect", "g", "path", "circle", "text"].contains(&element.name.as_str())));
    assert!(!picture.contains("url(") && !picture.contains("href") && !picture.contains("@import"), "nothing is fetched");
    let groups: HashMap<&str, &Element> =
        all.iter().filter(|element| element.name == "g").map(|group| (group.needs("id"), *group)).collect();
    let ports = (0..case.lines()).filter(|&line| case.is_output(line)).count();
    assert_eq!(groups.len(), case.lines() + ports + usize::from(case.fault.is_some()), "no group twice, and no other");

    let wires: Vec<&str> = all.iter().filter_map(|element| element.attribute("class")).filter(|class| class.starts_with("wire ")).collect();
    let mut places = vec![];
    for line in 0..case.lines() {
        let group = groups[format!("line-{}", case.name(line)).as_str()];
        assert_eq!((group.texts("name"), group.texts("value")), (vec![case.name(line)], vec![case.both(line).as_str()]));
        assert_eq!(group.texts("kind"), case.written(line));
        let value = case.good[line].map_or("x", |value| if value { "one" } else { "zero" });
        let difference =
            [("*", " differs"), ("?", " perhaps"), ("", "")].into_iter().find(|(mark, _)| *mark == case.mark(line)).expect("a mark").1;
        assert_eq!(wires[line], format!("wire {value}{difference}"), "{}", case.name(line));
        places.push(place(group));
        if case.is_output(line) {
            let port = groups[format!("output-{}", case.name(line)).as_str()];
            assert_eq!((port.texts("name"), port.texts("value")), (vec![case.name(line)], vec![case.both(line).as_str()]));
            assert!(place(port).0 > places[line].0, "outputs are at the right");
        }
    }
    let size = |name: &str| root.needs(name).parse::<f64>().expect("a number");
    assert!(groups.values().map(|group| place(group)).all(|(x, y)| x > 0.0 && y > 0.0 && x < size("width") && y < size("height")));
    for (line, &(x, y)) in places.iter().enumerate() {
        let sources = case.named.circuit.lines[line].gate.sources();
        assert!(sources.into_iter().all(|source| places[source].0 + 100.0 < x), "{} is behind its sources", case.name(line));
        assert!(places[..line].iter().all(|(other, height)| (other - x).abs() > 100.0 || (height - y).abs() > 60.0), "nothing overlaps");
    }

    let fault = case.fault.map(|fault| case.named.word(fault));
    let title = fault.as_ref().map_or(String::new(), |fault| format!(", fault {fault}"));
    let title = format!("{file}, pattern {}{title}", letters(&case.pattern));
    assert_eq!((root.children[0].name.as_str(), &root.children[0].text), ("title", &title));
    assert_eq!((root.texts("title"), root.texts("verdict")), (vec![title.as_str()], vec![case.verdict().unwrap_or_default().as_str()]));
    if let Some(fault) = fault {
        assert_eq!(groups["fault"].texts("stuck"), [fault]);
        let stuck = groups[format!("line-{}", case.name(case.fault.expect("a fault").line)).as_str()];
        assert_eq!(place(groups["fault"]), place(stuck));
    }
}

type Point = (f64, f64);

/// Where the pieces of a path begin and end: it goes somewhere (M), then along a curve (C) or level (H).
fn pieces(path: &str) -> Vec<(Point, Point)> {
    let piece = |piece: &str| {
        let mut steps = piece.split_inclusive(|letter: char| letter.is_ascii_alphabetic()).collect::<Vec<_>>();
        let first = steps.remove(0);
        let numbers = |text: &str| -> Vec<f64> {
            let digits = text.trim_end_matches(|letter: char| letter.is_ascii_alphabetic());
            digits.split(' ').map(|number| number.parse().expect("a number")).collect()
        };
        let begin = (numbers(first)[0], numbers(first)[1]);
        let mut letter = first.chars().last().expect("a letter");
        let mut end = begin;
        for step in steps {
            end = match (letter, numbers(step).as_slice()) {
                ('H', [x]) => (*x, end.1),
                ('C', [_, _, _, _, x, y]) => (*x, *y),
                other => panic!("{other:?} in {path}"),
            };
            letter = step.chars().last().expect("a letter");
        }
        (begin, end)
    };
    path.split('M').skip(1).map(piece).collect()
}

/// Each wire begins at its gate and ends at the pins that read it and at its output, and nowhere else; its pieces hang together.
fn are_wires(case: &Case, root: &Element) {
    let all = root.all();
    let place_of = |id: String| place(all.iter().find(|element| element.attribute("id") == Some(&id)).expect("a group"));
    let places: Vec<Point> = (0..case.lines()).map(|line| place_of(format!("line-{}", case.name(line)))).collect();
    let mut right: Vec<Vec<Point>> = vec![vec![]; case.lines()];
    for (reader, &(x, y)) in places.iter().enumerate() {
        let gate = case.named.circuit.lines[reader].gate;
        let left = if matches!(gate, Gate::Or(..) | Gate::Nor(..) | Gate::Xor(..) | Gate::Xnor(..)) { 23.5 } else { 28.0 };
        let heights: &[f64] = [&[0.0][..], &[0.0], &[-11.0, 11.0], &[-15.0, 0.0, 15.0]][gate.sources().len()];
        gate.sources().into_iter().zip(heights).for_each(|(source, height)| right[source].push((x - left, y + height)));
        if case.is_output(reader) {
            let (x, y) = place_of(format!("output-{}", case.name(reader)));
            right[reader].push((x - 28.0, y));
        }
    }
    let is_wire = |element: &&&Element| element.attribute("class").is_some_and(|class| class.starts_with("wire "));
    for (line, wire) in all.iter().filter(is_wire).take(case.lines()).enumerate() {
        let pieces = pieces(wire.needs("d"));
        let inverts = matches!(case.kind(line), "NOT" | "NAND" | "NOR" | "XNOR");
        let gate = (places[line].0 + if inverts { 36.0 } else { 28.0 }, places[line].1);
        assert_eq!(pieces.iter().filter(|(begin, _)| *begin == gate).count(), 1, "{} leaves its gate", case.name(line));
        let mut ends: Vec<Point> = pieces.iter().map(|(_, end)| *end).filter(|end| !pieces.iter().any(|(begin, _)| begin == end)).collect();
        let hangs = |begin: Point| begin == gate || pieces.iter().any(|(_, end)| *end == begin);
        assert!(pieces.iter().all(|(begin, _)| hangs(*begin)), "{} hangs together", case.name(line));
        if right[line].is_empty() {
            // a line that nobody reads ends behind its gate
            assert_eq!((pieces.len(), ends.pop().map(|end| end.1)), (1, Some(gate.1)));
        }
        let sorted = |points: &mut Vec<Point>| points.sort_by(|one, other| one.0.total_cmp(&other.0).then(one.1.total_cmp(&other.1)));
        sorted(&mut ends);
        sorted(&mut right[line]);
        assert_eq!(ends, right[line], "{} is read where its wire ends", case.name(line));
    }
}

/// Every form of a case.
fn compare(directory: &Directory, path: &Path, case: &Case) {
    is_table(case, &printed(&case.words(path, &[])));
    assert_eq!(printed(&case.words(path, &["--csv"])), csv(case));
    let picture = directory.path("picture.svg");
    let said = printed(&case.words(path, &["--json", "--svg", picture.to_str().expect("text")]));
    assert_eq!(Json::read(&said), json(case));
    let picture = directory.read("picture.svg");
    is_picture(case, &path.display().to_string(), &picture);
    are_wires(case, &Element::read(&picture));
}

#[test]
fn all_examples() {
    let (directory, mut random) = (Directory::new("values of examples"), Random::new(1));
    for path in examples() {
        let named = Named::of_file(&path);
        for _ in 0..6 {
            compare(&directory, &path, &Case::drawn(&mut random, &named));
        }
    }
}

#[test]
fn random_circuits() {
    let (directory, mut random) = (Directory::new("values"), Random::new(2));
    let mut verdicts = HashMap::new();
    let mut look = |path: &Path, named: &Named| {
        // few are unknown, and each circuit is asked for one
        let unknown = (0..30)
            .map(|_| Case::drawn(&mut random, named))
            .find(|case| case.verdict().is_some_and(|verdict| verdict.starts_with("unknown")));
        let case = unknown.unwrap_or_else(|| Case::drawn(&mut random, named));
        compare(&directory, path, &case);
        *verdicts.entry(case.verdict().map(|verdict| verdict[..4].to_string())).or_insert(0) += 1;
    };
    for text in drawn(3, 150, texts::small) {
        look(&directory.write("text", &text), &Named::of_text(&text));
    }
    for records in drawn(4, 150, circuits::small) {
        look(&directory.write("records", &records), &Named::of_records(&records));
    }
    println!("values: {verdicts:?}");
    assert_eq!(verdicts.len(), 4, "no fault, fail, pass and unknown");
}

/// A selector whose select is X has a value where its sources have the same.
#[test]
fn values_of_selectors() {
    let path = selectors("circuit");
    let cases = [
        ("100000", "101"),
        ("010010", "101"),
        ("110101", "100"),
        ("1100X0", "101"),
        ("10100X", "111"),
        ("1000X0", "X0X"),
        ("10000X", "10X"),
        ("XX0000", "X0X"),
        ("XX00X0", "X0X"),
        ("1XXX00", "1X1"),
        ("0000XX", "000"),
    ];
    for (pattern, right) in cases {
        let table = printed(&[Path::new("values"), &path, Path::new(pattern), Path::new("--csv")]);
        let good: String = table.lines().skip(7).map(|row| row.split(',').nth(3).expect("a value")).collect();
        assert_eq!(good, right, "{pattern}");
    }
}

/// The picture of a selector says at each pin what it is, beside the wire that comes in there, and has the cross of a select that is stuck.
#[test]
fn pictures_of_selectors() {
    let (directory, path) = (Directory::new("selectors"), selectors("circuit"));
    let picture = directory.path("picture.svg");
    printed(&[Path::new("values"), &path, Path::new("1000X0"), Path::new("8.3/1"), Path::new("--svg"), &picture]);
    let root = Element::read(&directory.read("picture.svg"));
    let all = root.all();
    let inside = |id: &str| all.iter().find(|element| element.attribute("id") == Some(id)).expect("a group").all();
    let (selector, fault) = (inside("line-8"), inside("fault"));
    let paths =
        |group: &[&Element]| -> Vec<String> { group.iter().filter_map(|element| element.attribute("d")).map(String::from).collect() };
    assert_eq!(paths(&selector), ["M-28 -22L28 -12V12L-28 22Z"], "wider at the left");
    let marks: Vec<(&str, &str, &str)> = selector
        .iter()
        .filter(|element| element.attribute("class") == Some("kind"))
        .map(|mark| (mark.text.as_str(), mark.needs("x"), mark.needs("y")))
        .collect();
    assert_eq!(marks, [("SEL", "6", "4"), ("0", "-24", "-11.5"), ("1", "-24", "3.5"), ("S", "-24", "18.5")]);
    assert_eq!(paths(&fault), ["M-44 9L-32 21M-44 21L-32 9"], "on the third wire, which is at 15");
}

/// The largest circuits, deep ones and broad ones, are drawn at once, and always in the same way.
#[test]
fn largest_pictures() {
    let (directory, mut random) = (Directory::new("large pictures"), Random::new(5));
    for _ in 0..4 {
        let records = circuits::circuit(&mut random, 2048, 64);
        let (path, named) = (directory.write("records", &records), Named::of_records(&records));
        let case = Case::drawn(&mut random, &named);
        let draw = |name: &str| {
            let began = Instant::now();
            printed(&case.words(&path, &["--svg", directory.path(name).to_str().expect("text")]));
            assert!(began.elapsed().as_secs_f64() < 2.0, "{:?}", began.elapsed());
            directory.read(name)
        };
        let picture = draw("one");
        assert_eq!(picture, draw("other"));
        is_picture(&case, &path.display().to_string(), &picture);
    }
}

/// A line that is read too far behind is named at the pin that reads it, and its wire is not drawn.
#[test]
fn long_wires() {
    let directory = Directory::new("long wires");
    let chain = |length: usize| {
        let buffers: String =
            (1..length).map(|k| format!("n{k} = BUFF({})\n", if k == 1 { "far".to_string() } else { format!("n{}", k - 1) })).collect();
        format!("INPUT(far)\nOUTPUT(y)\n{buffers}y = AND(n{}, far)\n", length - 1)
    };
    for (length, labels) in [(41, vec![]), (42, vec!["far"])] {
        let path = directory.write("chain", chain(length));
        let picture = directory.path("chain.svg");
        printed(&[Path::new("values"), &path, Path::new("1"), Path::new("--svg"), &picture]);
        assert_eq!(Element::read(&directory.read("chain.svg")).texts("label"), labels, "{length}");
    }
}

/// Inputs stand as the pattern has them, and gates so that wires need not cross.
#[test]
fn straight_wires() {
    let directory = Directory::new("straight wires");
    let names = ["a", "b", "c", "d", "e", "f"];
    let inputs: String = names.iter().map(|name| format!("INPUT({name})\nOUTPUT(n{name})\n")).collect();
    let gates: String = names.iter().rev().map(|name| format!("n{name} = BUFF(m{name})\nm{name} = NOT({name})\n")).collect();
    let path = directory.write("backwards", inputs + &gates);
    let picture = directory.path("backwards.svg");
    printed(&[Path::new("values"), &path, Path::new("000000"), Path::new("--svg"), &picture]);
    let root = Element::read(&directory.read("backwards.svg"));
    let height = |id: String| place(root.all().iter().find(|element| element.attribute("id") == Some(&id)).expect("a group")).1;
    let heights: Vec<f64> = names.iter().map(|name| height(format!("line-{name}"))).collect();
    assert!(heights.windows(2).all(|pair| pair[0] < pair[1]), "{heights:?}");
    for (name, right) in names.iter().zip(heights) {
        assert_eq!(["line-m", "line-n", "output-n"].map(|id| height(format!("{id}{name}"))), [right; 3], "{name}");
    }
}

/// Names of files may have any letters; the picture says them, and a browser reads it.
#[test]
fn names_of_files() {
    let directory = Directory::new("names of files");
    let text = fs::read(example("c17")).expect("c17");
    let named = Named::of_text(&text);
    for name in ["<b>&amp;\"'.bench", "]]>", "-->", "ä\u{1F600}"] {
        let (path, case) = (directory.write(name, &text), Case::of(&named, vec![None; 5], None));
        compare(&directory, &path, &case);
    }
    // what XML has no letter for is shown as `?`, as everywhere
    let path = directory.write("a\u{1}\nb\u{ffff}", &text);
    let picture = directory.path("picture.svg");
    printed(&[Path::new("values"), &path, Path::new("00000"), Path::new("--svg"), &picture]);
    let title = Element::read(&directory.read("picture.svg")).children[0].text.clone();
    assert!(title.ends_with("/a??b?, pattern 00000"), "{title}");
}

#[test]
fn what_is_refused() {
    let directory = Directory::new("no values");
    let path = directory.write("c17.bench", fs::read(example("c17")).expect("c17"));
    let picture = directory.path("picture.svg");
    let values = |more: &[&str]| {
        let words = ["values", path.to_str().expect("text"), "--svg", picture.to_str().expect("text")];
        ullimaqsu(&[&words[..], more].concat())
    };
    let cases: [(&[&str], &str); 6] = [
        (&["0000"], "pattern `0000`, column 5: this pattern has 4 values, and the circuit has 5 inputs"),
        (&["00 0000"], "pattern `00 0000`, column 7: this pattern has 6 values, and the circuit has 5 inputs"),
        (&["0ä2"], "pattern `0ä2`, column 2: `ä` is none of 0, 1 and X"),
        (&["00020"], "pattern `00020`, column 4: `2` is none of 0, 1 and X"),
        (&["00000", "99/0"], "there is no line `99`; the nearest name is `19`"),
        (&["00000", "1.1/0"], "`1` has no pin `1`: it is INPUT with no pins"),
    ];
    for (words, says) in cases {
        assert_eq!(values(words), refused(says), "{words:?}");
    }
    assert_eq!(
        values(&["00000", "1/0", "2/0"]),
        stopped("values wants a circuit, a pattern and perhaps a fault; see ullimaqsu values --help")
    );
    assert_eq!(values(&["00000", "--csv", "--json"]), stopped("values prints --csv or --json, not both; see ullimaqsu values --help"));
    assert_eq!(directory.names(), ["c17.bench"], "nothing is drawn where something is refused");

    // small letters and blanks are read
    assert_eq!(values(&[" 0 x\t1X0 "]).0, Some(0));
    let (status, _, said) = ullimaqsu(&[Path::new("values"), &path, Path::new("00000"), Path::new("--svg"), &path]);
    assert_eq!((status, said.lines().count()), (Some(2), 1), "{said}");
    assert_eq!(fs::read(&path).expect("c17"), fs::read(example("c17")).expect("c17"));
}

/// No picture takes its place where the table could not be printed, and nothing is left beside it.
#[test]
fn nobody_reads() {
    let directory = Directory::new("unread values");
    directory.write("old.svg", "a picture of old");
    for name in ["old.svg", "new.svg"] {
        let (circuit, picture) = (example("c17"), directory.path(name));
        let words = ["values", circuit.to_str().expect("text"), "00000", "--svg", picture.to_str().expect("text")];
        assert_eq!(into_full(&words), stopped("standard output could not be written: No space left on device"));
        assert_eq!(into_broken(&words), (Some(141), String::new(), String::new()));
    }
    assert_eq!((directory.read("old.svg").as_str(), directory.names()), ("a picture of old", vec!["old.svg".to_string()]));
}
