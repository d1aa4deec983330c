//! `ullimaqsu dictionary` of a circuit, faults and patterns against the second program, in every form and of every size.
mod harness;

use cases::{circuits, drawn, texts, Directory, Random};
use harness::json::Json;
use harness::named::{letters, pattern_lines, Named};
use harness::{example, fed, into_broken, printed, said, started, stopped, ullimaqsu};
use second::{Entry, Given};
use std::fs;
use std::io::{BufRead, BufReader};
use std::path::Path;

/// The letters of each fault, one for each pattern.
fn entries(given: &Given) -> Vec<String> {
    let rows = given.rows();
    let letter = |entry: Entry| match entry {
        Entry::Fail => 'F',
        Entry::Pass => 'P',
        Entry::Unknown => 'U',
    };
    (0..given.faults.len()).map(|fault| rows.iter().map(|row| letter(row[fault])).collect()).collect()
}

/// A dictionary in three forms.
struct Printed {
    table: String,
    csv: String,
    json: String,
}

fn dictionary(directory: &Directory, circuit: &Path, named: &Named, given: &Given) -> Printed {
    let faults = directory.write("faults", named.fault_lines(&given.faults));
    let patterns = directory.write("patterns", pattern_lines(&given.patterns));
    let print = |form: &[&str]| {
        let words = [Path::new("dictionary"), circuit, &faults, &patterns];
        printed(&words.into_iter().chain(form.iter().map(Path::new)).collect::<Vec<_>>())
    };
    Printed { table: print(&[]), csv: print(&["--csv"]), json: print(&["--json"]) }
}

/// Compares all forms with the second program, and counts the letters.
fn compare(directory: &Directory, circuit: &Path, named: &Named, given: &Given) -> [usize; 3] {
    let entries = entries(given);
    let names: Vec<String> = given.faults.iter().map(|&fault| named.word(fault)).collect();
    let Printed { table, csv, json } = dictionary(directory, circuit, named, given);

    // a row for each fault, all letters at the same place
    let digits = (given.patterns.len() - 1).to_string().len();
    let lines: Vec<&str> = table.lines().collect();
    let width = names.iter().map(String::len).max().expect("a fault").max(5);
    for (line, (name, row)) in lines[digits..].iter().zip(names.iter().zip(&entries)) {
        assert_eq!(*line, format!("{name:width$} {row}"));
    }
    // the number of a pattern stands above its letters, written downwards
    for pattern in 0..given.patterns.len() {
        let column: String = lines[..digits].iter().map(|line| &line[width + 1 + pattern..width + 2 + pattern]).collect();
        assert_eq!(column.trim_start(), pattern.to_string());
    }
    assert_eq!(lines[digits - 1].split(' ').next(), Some("fault"));
    let detected = entries.iter().filter(|row| row.contains('F')).count();
    let many = |count: usize, of: &str| format!("{count} {of}{}", if count == 1 { "" } else { "s" });
    let last = format!("{}, {}: {detected} detected", many(names.len(), "fault"), many(given.patterns.len(), "pattern"));
    assert_eq!((lines.len(), lines[lines.len() - 1]), (digits + names.len() + 1, last.as_str()));

    let head: String = (0..given.patterns.len()).map(|pattern| format!(",{pattern}")).collect();
    let row = |(name, row): (&String, &String)| format!("{name}{}\n", row.chars().map(|letter| format!(",{letter}")).collect::<String>());
    assert_eq!(csv, format!("fault{head}\n{}", names.iter().zip(&entries).map(row).collect::<String>()));

    let json = Json::read(&json);
    assert_eq!(json.at("faults").texts(), names);
    assert_eq!(json.at("patterns").texts(), given.patterns.iter().map(letters).collect::<Vec<_>>());
    assert_eq!(json.at("entries").texts(), entries);
    ['P', 'F', 'U'].map(|letter| entries.iter().map(|row| row.matches(letter).count()).sum())
}

#[test]
fn examples() {
    let (directory, random) = (Directory::new("dictionary"), &mut Random::new(1));
    for path in harness::examples() {
        let named = Named::of_file(&path);
        compare(&directory, &path, &named, &named.given(random, 30, 12));
    }
}

#[test]
fn random_circuits() {
    let (directory, random) = (Directory::new("dictionaries"), &mut Random::new(2));
    let (mut seen, mut number, mut without) = ([0; 3], 0, 0);
    let mut one = |named: Named, path: &Path| {
        let mut given = || {
            let (fault_count, pattern_count) = (1 + random.below(12), 1 + random.below(12));
            named.given(random, fault_count, pattern_count)
        };
        // few entries are unknown, and every other circuit is asked for one
        let tries = if number % 2 == 0 { 0 } else { 100 };
        let unknown = (0..tries).map(|_| given()).find(|given| entries(given).concat().contains('U'));
        let letters = compare(&directory, path, &named, &unknown.unwrap_or_else(given));
        (0..3).for_each(|k| seen[k] += letters[k]);
        number += 1;
        without += usize::from(letters[2] == 0);
    };
    drawn(3, 50, texts::small).for_each(|text| one(Named::of_text(&text), &directory.write("text", &text)));
    drawn(4, 30, circuits::small).for_each(|records| one(Named::of_records(&records), &directory.write("records", &records)));
    println!("dictionaries: {seen:?}, {without} of {number} without U");
    assert!(seen.iter().all(|&times| times > 0) && 0 < without && without < number, "{seen:?}, {without} of {number} without U");
}

/// Around the most that a call of the library takes, and well above.
#[test]
fn many_faults_and_patterns() {
    let (directory, random) = (Directory::new("many"), &mut Random::new(5));
    let named = Named::of_text(&fs::read(example("c17")).expect("c17"));
    for (fault_count, pattern_count) in [(256, 256), (257, 1), (1, 257), (300, 10), (3, 11), (10, 513), (520, 300)] {
        let seen = compare(&directory, &example("c17"), &named, &named.given(random, fault_count, pattern_count));
        assert!(fault_count * pattern_count < 1000 || seen.iter().all(|&times| times > 20), "{seen:?}");
    }
}

/// The sizes of circuits.
#[test]
fn large_circuits() {
    let (directory, random) = (Directory::new("large"), &mut Random::new(6));
    for (lines, inputs) in [(1, 1), (65, 64), (2048, 64)] {
        let text = texts::largest(random, lines, inputs);
        let named = Named::of_text(&text);
        compare(&directory, &directory.write("text", &text), &named, &named.given(random, 5, 5));
    }
}

/// Records of faults and patterns say the same as words; so do lines with blanks, comments and CR.
#[test]
fn the_same_in_other_words() {
    let (directory, random) = (Directory::new("words"), &mut Random::new(7));
    let c17 = example("c17");
    let named = Named::of_text(&fs::read(&c17).expect("c17"));
    let given = named.given(random, 300, 20);
    let right = dictionary(&directory, &c17, &named, &given).table;
    let dictionary = |faults: &Path, patterns: &Path| printed(&[Path::new("dictionary"), &c17, faults, patterns]);

    let site = |site| if let second::Site::Pin(pin) = site { pin as u8 } else { 0 };
    let records: Vec<u8> = given.faults.iter().flat_map(|fault| cases::faults::record(fault.line, site(fault.site), fault.stuck)).collect();
    let values: Vec<u8> = given.patterns.iter().flatten().map(|value| value.map_or(2, u8::from)).collect();
    let (faults, patterns) = (directory.path("faults"), directory.path("patterns"));
    let (fault_records, pattern_records) = (directory.write("faults.rec", records), directory.write("patterns.rec", values));
    assert_eq!(dictionary(&fault_records, &patterns), right);
    assert_eq!(dictionary(&faults, &pattern_records), right);

    let spaced = |text: String| -> String { text.lines().map(|line| format!("\r\n# one more\n \t{line} # {line}\r\n")).collect() };
    let blanks = |text: String| -> String { text.replace('0', " 0\t").replace('X', "x") };
    let faults = directory.write("faults", spaced(named.fault_lines(&given.faults)));
    let patterns = directory.write("patterns", spaced(blanks(pattern_lines(&given.patterns))));
    assert_eq!(dictionary(&faults, &patterns), right);
    // the last line need not end
    let patterns = directory.write("patterns", pattern_lines(&given.patterns).trim_end());
    assert_eq!(dictionary(&faults, &patterns), right);
}

#[test]
fn words_and_pipes() {
    let directory = Directory::new("dictionary words");
    let c17 = example("c17");
    let (faults, patterns) = (directory.write("faults", "22/0\n"), directory.write("patterns", "00000\n"));
    let wants =
        "dictionary wants a circuit, a file of faults and one of patterns, or a directory of circuit.rec, faults.rec and patterns.rec";
    let wants = stopped(&format!("{wants}; see ullimaqsu dictionary --help"));
    assert_eq!(ullimaqsu(&["dictionary"]), wants);
    assert_eq!(ullimaqsu(&[Path::new("dictionary"), &c17, &faults]), wants);
    assert_eq!(ullimaqsu(&[Path::new("dictionary"), &c17, &faults, &patterns, &patterns]), wants);
    let whole = [Path::new("dictionary"), &c17, &faults, &patterns];
    assert_eq!(printed(&whole), "fault 0\n22/0  P\n1 fault, 1 pattern: 0 detected\n");
    assert_eq!(into_broken(&whole), (Some(141), String::new(), String::new()));

    // who has read enough goes in the middle of it
    let faults = directory.write("faults", "22/0\n".repeat(100_000));
    let mut process = started(&[Path::new("dictionary"), &c17, &faults, &patterns]);
    let mut line = String::new();
    BufReader::new(process.stdout.take().expect("piped")).read_line(&mut line).expect("a line");
    let (status, _, told) = said(process.wait_with_output().expect("it ends"));
    assert_eq!((line.as_str(), status, told.as_str()), ("fault 0\n", Some(141), ""));
}

/// Each file may come through a pipe.
#[test]
fn from_pipes() {
    let directory = Directory::new("dictionary from pipes");
    let c17 = fs::read(example("c17")).expect("c17");
    let parts = [("circuit", c17.as_slice()), ("faults", b"22/0\n"), ("patterns", b"10000\n")];
    let paths = parts.map(|(name, bytes)| directory.write(name, bytes));
    for (part, (_, bytes)) in parts.iter().enumerate() {
        let mut words = paths.clone();
        words[part] = "/dev/stdin".into();
        let said = fed(&[&["dictionary".into()], &words[..]].concat(), bytes);
        assert_eq!(said, (Some(0), "fault 0\n22/0  P\n1 fault, 1 pattern: 0 detected\n".to_string(), String::new()));
    }
}
