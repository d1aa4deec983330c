//! `ullimaqsu compact` and `ullimaqsu audit` against the second program.
mod harness;
#[path = "harness/pipes.rs"]
mod pipes;

use cases::{tables, Directory, Random};
use harness::case::Case;
use harness::json::Json;
use harness::named::letters;
use harness::{example, into_broken, into_full, printed, refused, root, said, selectors, stopped, ullimaqsu, Said, COMMAND};
use pipes::full_pipe;
use second::compact::{needs, Need, Row};
use second::Finding;
use std::collections::BTreeMap;
use std::io::Read;
use std::os::unix::fs::symlink;
use std::path::{Path, PathBuf};
use std::process::{Command, Stdio};
use std::time::Duration;
use std::{fs, thread};

impl Case {
    /// The words of a compaction that writes both files.
    fn both(&self, kept: &Path, marks: &Path) -> Vec<PathBuf> {
        self.words("compact", &[Path::new("-o"), kept, Path::new("--marks"), marks])
    }

    fn compact(&self, more: &[&str]) -> String {
        let (status, printed, said) = self.run("compact", &more.iter().map(Path::new).collect::<Vec<_>>());
        assert_eq!((status, said.as_str()), (Some(0), ""));
        printed
    }

    /// What the audit says of marks, written as letters or as bytes.
    fn audit(&self, marks: impl AsRef<[u8]>, more: &[&str]) -> Said {
        let kept = self.directory.write("kept", marks);
        self.run("audit", &[kept.as_path()].into_iter().chain(more.iter().map(Path::new)).collect::<Vec<_>>())
    }

    /// The marks of the second program.
    fn marks(&self) -> Vec<u8> {
        let kept = second::compact::kept(&self.given.rows());
        (0..self.given.patterns.len()).map(|pattern| u8::from(kept.contains(&pattern))).collect()
    }

    fn name(&self, fault: usize) -> String {
        self.named.word(self.given.faults[fault])
    }
}

fn letter(mark: &u8) -> char {
    if *mark == 1 {
        'K'
    } else {
        'D'
    }
}

fn many(count: usize, of: &str) -> String {
    format!("{count} {of}{}", if count == 1 { "" } else { "s" })
}

/// What is printed and written is what the second program keeps, in every form; and the audit finds it sound.
fn compaction(case: &Case) {
    let marks = case.marks();
    let patterns: Vec<String> = case.given.patterns.iter().map(letters).collect();
    let kept: Vec<&String> = patterns.iter().zip(&marks).filter(|(_, mark)| **mark == 1).map(|(pattern, _)| pattern).collect();
    let (to, marks_to) = (case.directory.path("to"), case.directory.path("marks"));
    let table = case.compact(&["-o", to.to_str().expect("text"), "--marks", marks_to.to_str().expect("text")]);

    let width = (marks.len() - 1).to_string().len();
    let line = |(number, (pattern, mark)): (usize, (&String, &u8))| format!("{number:>width$} {} {pattern}\n", letter(mark));
    let detected = needs(&case.given.rows()).iter().filter(|need| matches!(need, Need::Detected(_))).count();
    let last = format!(
        "{} of {} kept: {} detected and the same pairs told apart as by all of them\n",
        kept.len(),
        many(marks.len(), "pattern"),
        many(detected, "fault")
    );
    assert_eq!(table, patterns.iter().zip(&marks).enumerate().map(line).collect::<String>() + &last);
    assert_eq!(case.directory.read("to"), kept.iter().map(|pattern| format!("{pattern}\n")).collect::<String>());
    assert_eq!(case.directory.read("marks"), marks.iter().map(|mark| format!("{}\n", letter(mark))).collect::<String>());

    let row = |(number, (pattern, mark)): (usize, (&String, &u8))| format!("{number},{},{pattern}\n", letter(mark));
    let rows: String = patterns.iter().zip(&marks).enumerate().map(row).collect();
    assert_eq!(case.compact(&["--csv"]), format!("number,mark,pattern\n{rows}"));
    let json = Json::read(&case.compact(&["--json"]));
    assert_eq!(
        (json.at("patterns").texts(), json.at("marks").text()),
        (patterns.iter().map(String::as_str).collect(), &*marks.iter().map(letter).collect::<String>())
    );

    let sound =
        format!("sound: {} of {} kept, every need is met, and none of them can be spared\n", kept.len(), many(marks.len(), "pattern"));
    assert_eq!(case.audit(case.directory.read("marks"), &[]), (Some(0), sound, String::new()));
}

#[test]
fn kept_lists() {
    let random = &mut Random::new(1);
    for _ in 0..60 {
        compaction(&Case::drawn("kept lists", random));
    }
    for counts in [[1, 1], [46, 10], [46, 11], [256, 20], [20, 256]] {
        compaction(&Case::c17("kept of c17", random, counts));
    }
}

/// Of the example with selectors those are kept that its output says, and the audit finds them sound.
#[test]
fn kept_of_selectors() {
    let output = fs::read_to_string(root().join("examples/selector/output")).expect("output");
    let marks: Vec<&str> = output.lines().map(|line| line.split(' ').nth(1).expect("a mark")).collect();
    let words = |command: &str| [command.into(), selectors("circuit"), selectors("faults"), selectors("patterns")];
    let rows = printed(&[&words("compact")[..], &["--csv".into()]].concat());
    assert_eq!(rows.lines().skip(1).map(|row| row.split(',').nth(1).expect("a mark")).collect::<Vec<_>>(), marks);
    let directory = Directory::new("kept of selectors");
    let audit = |marks: &str| ullimaqsu(&[&words("audit")[..], &[directory.write("kept", marks)]].concat());
    let sound = "sound: 8 of 15 patterns kept, every need is met, and none of them can be spared\n";
    assert_eq!(audit(&marks.concat()), (Some(0), sound.to_string(), String::new()));
    // input 3 is 0 and selected in pattern 7 alone
    let lost = "lost fault: 3/1 is failed by pattern 7, and by no kept one\n";
    assert_eq!(audit(&marks.concat().replacen("KKKKKKKK", "KKKKKKKD", 1)), (Some(1), lost.to_string(), String::new()));
}

/// The first pattern whose row does what is needed.
fn shown_by(rows: &[Row], need: Need) -> usize {
    rows.iter().position(|row| need.is_met_by(row)).expect("some pattern does it")
}

/// A finding as it is printed: the table's words, the csv's row, and the json's values.
fn in_words(case: &Case, marks: &[u8], finding: Finding) -> (String, String, [Json; 3]) {
    let rows = case.given.rows();
    let (name, says, faults, pattern) = match finding {
        Finding::Sound => {
            let kept = marks.iter().filter(|mark| **mark == 1).count();
            let says = format!("sound: {kept} of {} kept, every need is met, and none of them can be spared", many(marks.len(), "pattern"));
            ("sound", says, vec![], None)
        }
        Finding::BadMark(mark) => ("bad mark", format!("bad mark {mark}: {} is neither 0 nor 1", marks[mark]), vec![], Some(mark)),
        Finding::LostFault(fault) => {
            let by = shown_by(&rows, Need::Detected(fault));
            let says = format!("lost fault: {} is failed by pattern {by}, and by no kept one", case.name(fault));
            ("lost fault", says, vec![case.name(fault)], Some(by))
        }
        Finding::LostPair(one, other) => {
            let by = shown_by(&rows, Need::Apart(one, other));
            let says = format!("lost pair: {} and {} are told apart by pattern {by}, and by no kept one", case.name(one), case.name(other));
            ("lost pair", says, vec![case.name(one), case.name(other)], Some(by))
        }
        Finding::SparePattern(pattern) => {
            ("spare pattern", format!("spare pattern {pattern}: the others that are kept meet every need"), vec![], Some(pattern))
        }
    };
    let fault = |k: usize| faults.get(k).cloned().unwrap_or_default();
    let number = pattern.map_or(String::new(), |pattern| pattern.to_string());
    let csv = format!("finding,fault,other fault,pattern\n{name},{},{},{number}\n", fault(0), fault(1));
    let json = [
        Json::Text(name.to_string()),
        Json::List(faults.iter().cloned().map(Json::Text).collect()),
        pattern.map_or(Json::Null, |pattern| Json::Number(pattern as u64)),
    ];
    (says + "\n", csv, json)
}

/// Lists of every sort, as letters where all marks have one, and as bytes.
#[test]
fn audits() {
    let random = &mut Random::new(2);
    let mut seen = BTreeMap::new();
    for number in 0..150 {
        let case = if number % 3 == 0 { Case::c17("audits", random, [12, 8]) } else { Case::drawn("audits", random) };
        let mut marks = case.marks();
        match random.below(4) {
            0 => marks = tables::marks(random, marks.len()),
            1 => marks.fill(1),
            2 => {
                let at = random.below(marks.len());
                marks[at] ^= 1;
            }
            _ => (),
        }
        let rows = case.given.rows();
        let finding = second::audit::finding(&rows, &needs(&rows), &marks);
        let (table, csv, json) = in_words(&case, &marks, finding);
        let status = Some(i32::from(finding != Finding::Sound));
        *seen.entry(table.split([':', ' ']).next().expect("a word").to_string()).or_insert(0) += 1;
        // told by a byte below 9, which marks of 0 and 1 always have
        if marks.iter().any(|&mark| mark < 9) {
            assert_eq!(case.audit(&marks, &[]), (status, table.clone(), String::new()), "{marks:?}");
            assert_eq!(case.audit(&marks, &["--csv"]), (status, csv.clone(), String::new()));
        }
        if marks.iter().all(|&mark| mark < 2) {
            let written: String = marks.iter().map(|mark| format!("{}# K\r\n ", letter(mark))).collect();
            assert_eq!(case.audit(&written, &[]), (status, table, String::new()));
            assert_eq!(case.audit(written.to_lowercase(), &["--csv"]), (status, csv, String::new()));
            let (told, printed, said) = case.audit(written, &["--json"]);
            assert_eq!((told, said.as_str()), (status, ""));
            let read = Json::read(&printed);
            assert_eq!(["finding", "faults", "pattern"].map(|key| read.at(key).clone()), json);
        }
    }
    assert_eq!(seen.keys().collect::<Vec<_>>(), ["bad", "lost", "sound", "spare"]);
}

/// Both findings of something lost are seen, by names.
#[test]
fn lost() {
    let directory = Directory::new("lost");
    let faults = directory.write("faults", "22/0\n22/1\n23/0\n");
    let patterns = directory.write("patterns", "10100\n00000\n01000\n");
    let audit = |marks: &str| ullimaqsu(&[Path::new("audit"), &example("c17"), &faults, &patterns, &directory.write("kept", marks)]);
    let said = |line: &str| (Some(1), format!("{line}\n"), String::new());
    // 10100 fails 22/0; 00000 fails 22/1; 01000 fails 22/0 and 23/0
    assert_eq!(audit("D D D"), said("lost fault: 22/0 is failed by pattern 0, and by no kept one"));
    assert_eq!(audit("K D D"), said("lost fault: 22/1 is failed by pattern 1, and by no kept one"));
    assert_eq!(audit("D K K"), said("lost pair: 22/0 and 23/0 are told apart by pattern 0, and by no kept one"));
    assert_eq!(audit("K K K").0, Some(0));

    // a finding that nobody reads, or that can't be printed, is no answer
    let words = [Path::new("audit"), &example("c17"), &faults, &patterns, &directory.write("kept", "DDD")];
    assert_eq!(into_broken(&words), (Some(141), String::new(), String::new()));
    let (status, _, said) = into_full(&words);
    assert_eq!((status, said.as_str()), (Some(2), "ullimaqsu: standard output could not be written: No space left on device\n"));
}

/// More than the library takes is refused by name, and so is what is written over what is read.
#[test]
fn limits_and_files() {
    let random = &mut Random::new(3);
    let case = Case::c17("limits", random, [257, 3]);
    let faults = case.directory.path("faults");
    for command in ["compact", "audit"] {
        let kept = case.directory.write("kept", "KKK");
        let more: &[&Path] = if command == "audit" { &[kept.as_path()] } else { &[] };
        let line = format!("{} has 257 faults, and {command} takes at most 256", faults.display());
        assert_eq!(case.run(command, more), refused(&line));
    }
    let case = Case::c17("limits of patterns", random, [3, 300]);
    let patterns = case.directory.path("patterns");
    assert_eq!(case.run("compact", &[]), refused(&format!("{} has 300 patterns, and compact takes at most 256", patterns.display())));

    let case = Case::c17("written over", random, [3, 3]);
    let before = case.directory.read("patterns");
    let patterns = case.directory.path("patterns");
    let line = format!("{} is one of the files that are read", patterns.display());
    for option in ["-o", "--marks"] {
        assert_eq!(case.run("compact", &[Path::new(option), &patterns]), stopped(&line));
    }
    // both files are written, or none
    let (to, long) = (case.directory.path("to"), case.directory.path(&"a".repeat(300)));
    assert_eq!(ullimaqsu(&case.both(&to, &patterns)), stopped(&line));
    assert_eq!(ullimaqsu(&case.both(&to, &long)), stopped(&format!("{} can't be written: File name too long", long.display())));
    assert_eq!(
        (case.directory.read("patterns"), case.directory.names()),
        (before, ["circuit", "faults", "patterns"].map(String::from).into())
    );
}

/// Kept patterns and marks go to two files. In one, however it is spelt, there would be the marks alone.
#[test]
fn one_file_for_both() {
    let case = Case::c17("one file", &mut Random::new(4), [3, 3]);
    let path = |name: &str| case.directory.path(name);
    let old = case.directory.write("old", "of old");
    symlink("old", path("link")).expect("a link");
    symlink(".", path("here")).expect("a link");
    fs::hard_link(&old, path("second")).expect("a second name");
    let before = case.directory.names();
    let pairs = [
        ("old", "old"),
        ("old", "./old"),
        ("old", "link"),
        ("link", "old"),
        ("old", "second"),
        ("second", "here/link"),
        ("new", "new"),
        ("new", "./new"),
        ("here/new", "new"),
    ];
    for (one, other) in pairs.map(|(one, other)| (path(one), path(other))) {
        let line = format!("{} and {} are one file, and two are to be written", one.display(), other.display());
        assert_eq!(ullimaqsu(&case.both(&one, &other)), stopped(&line));
    }
    assert_eq!((case.directory.read("old").as_str(), case.directory.names()), ("of old", before));
}

/// Neither file takes its place where the table could not be printed, and nothing is left beside them.
#[test]
fn nobody_reads() {
    let case = Case::c17("unread", &mut Random::new(5), [3, 3]);
    let words = case.both(&case.directory.write("old", "of old"), &case.directory.path("new"));
    assert_eq!(into_full(&words), stopped("standard output could not be written: No space left on device"));
    assert_eq!(into_broken(&words), (Some(141), String::new(), String::new()));
    assert_eq!(
        (case.directory.read("old"), case.directory.names()),
        ("of old".into(), ["circuit", "faults", "old", "patterns"].map(String::from).into())
    );
}

/// Both files are written before the table is printed, and then the first takes its place. Where the second can't, that is said too.
#[test]
fn the_second_file() {
    let case = Case::c17("second file", &mut Random::new(6), [3, 3]);
    let (kept, marks) = (case.directory.path("kept"), case.directory.path("marks"));
    let (mut reads, writes) = full_pipe();
    let words = case.both(&kept, &marks);
    let mut process = Command::new(COMMAND).args(words).stdout(writes).stderr(Stdio::piped()).spawn().expect("it starts");
    while case.directory.names().into_iter().filter(|name| name.starts_with('.')).count() < 2 {
        assert_eq!(process.try_wait().expect("a process"), None, "it ended and waited for nobody");
        assert!(!kept.exists(), "nobody has read the table yet");
        thread::sleep(Duration::from_millis(5));
    }
    fs::create_dir(&marks).expect("a directory");
    reads.read_to_end(&mut vec![]).expect("a pipe");
    let line = format!("{} could not be written: Is a directory; {} is written", marks.display(), kept.display());
    assert_eq!(said(process.wait_with_output().expect("it ends")), stopped(&line));
    assert_eq!(case.directory.names(), ["circuit", "faults", "kept", "marks", "patterns"]);
    let right: String =
        case.marks().iter().zip(&case.given.patterns).filter(|(mark, _)| **mark == 1).map(|(_, pattern)| letters(pattern) + "\n").collect();
    assert_eq!(case.directory.read("kept"), right);
}

/// The whole way: faults, tests for them, and a list of tests that is as good and sound.
#[test]
fn the_whole_way() {
    let directory = Directory::new("the whole way");
    let circuit = example("decoder4");
    let path = |name: &str| directory.path(name);
    let word = Path::new;
    printed(&[word("faults"), &circuit, word("--pins"), word("--collapse"), word("-o"), &path("faults")]);
    printed(&[word("search"), &circuit, word("--faults"), &path("faults"), word("-o"), &path("tests")]);
    let given = [circuit.as_path(), &path("faults"), &path("tests")];
    let table = printed(&[&[word("dictionary")], &given[..]].concat());
    let [faults, tests] = ["faults", "tests"].map(|name| directory.read(name).lines().count());
    assert!(table.ends_with(&format!("{faults} faults, {tests} patterns: {tests} detected\n")), "{table}");
    let compact = printed(&[&[word("compact")], &given[..], &[word("-o"), &path("few"), word("--marks"), &path("marks")]].concat());
    let audit = printed(&[&[word("audit")], &given[..], &[path("marks").as_path()]].concat());
    assert!(audit.starts_with("sound: "), "{audit}");
    let few = printed(&[word("dictionary"), &circuit, &path("faults"), &path("few")]);
    let kept = directory.read("few").lines().count();
    assert!(kept < tests && few.ends_with(&format!("{faults} faults, {kept} patterns: {tests} detected\n")), "{compact}{few}");
}
