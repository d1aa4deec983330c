//! The command line itself: help, versions, and words that are not understood.
mod harness;

use cases::Directory;
use harness::{after, example, into_broken, printed, root, run, stopped, ullimaqsu, Said, COMMAND};
use std::ffi::OsStr;
use std::os::unix::ffi::OsStrExt;
use std::os::unix::fs::symlink;
use std::process::Command;

const COMMANDS: [&str; 13] = [
    "check",
    "faults",
    "search",
    "dictionary",
    "compact",
    "audit",
    "suspects",
    "clauses",
    "values",
    "control",
    "narrow",
    "bench",
    "unfold",
];

/// All commands have a row, and help for each is the same however it is asked for.
#[test]
fn help() {
    let all = printed(&["--help"]);
    for words in [&[][..], &["-h"], &["help"]] {
        assert_eq!(printed(words), all);
    }
    let rows: Vec<&str> =
        all.lines().filter_map(|line| line.strip_prefix("  ")?.split(' ').next()).filter(|word| !word.is_empty()).collect();
    assert_eq!(rows, COMMANDS);
    for name in COMMANDS {
        let help = printed(&["help", name]);
        assert!(help.starts_with(&format!("ullimaqsu {name} ")), "{help}");
        assert!(help.contains(&format!("\nExample: ullimaqsu {name} ")), "{help}");
        for words in [&["--help", name][..], &["-h", name], &[name, "--help"], &[name, "-h"], &[name, "a", "b", "c", "d", "--help"]] {
            assert_eq!(printed(words), help, "{words:?}");
        }
        // after `--` it is a word like any other
        assert_ne!(ullimaqsu(&[name, "--", "--help"]).1, help);
    }
}

/// What is explained fits a terminal; what is typed may be longer.
#[test]
fn help_is_narrow() {
    for words in [&["help"][..]].into_iter().map(<[_]>::to_vec).chain(COMMANDS.map(|name| vec!["help", name])) {
        let long = |line: &&str| line.len() > 80 && !line.starts_with("ullimaqsu ") && !line.starts_with("Example: ");
        assert_eq!(printed(&words).lines().filter(long).collect::<Vec<_>>(), [""; 0]);
    }
}

/// The example of each command can be tried, one after the other, where the repository's examples are.
#[test]
fn examples() {
    let directory = Directory::new("tried");
    symlink(root().join("examples"), directory.path("examples")).expect("a link");
    for name in COMMANDS {
        let help = printed(&["help", name]);
        let example = help.lines().find_map(|line| line.strip_prefix("Example: ullimaqsu ")).expect("an example");
        // bench writes beside its file if nothing else is said, and nothing is written there
        let example = if name == "bench" { "bench examples/bench/c17.bench c17.rec" } else { example };
        let (status, printed, said) = run(Command::new(COMMAND).args(example.split(' ')).current_dir(&directory.0));
        assert_eq!((status, said.as_str()), (Some(0), ""), "{example}: {printed}");
    }
}

#[test]
fn version() {
    let lines = printed(&["--version"]);
    assert_eq!(lines, printed(&["-V"]));
    let lines: Vec<&str> = lines.lines().collect();
    assert_eq!((lines.len(), lines[0]), (2, "ullimaqsu 0.1.0"));
    assert!(lines[1].starts_with("linked with "), "{lines:?}");
}

#[test]
fn unknown_words() {
    let unknown = |says: &str| stopped(&format!("{says}; see ullimaqsu --help"));
    assert_eq!(ullimaqsu(&["serch", "c17"]), unknown("there is no command `serch`; the nearest name is `search`"));
    assert_eq!(ullimaqsu(&["Check"]), unknown("there is no command `Check`; the nearest name is `check`"));
    assert_eq!(ullimaqsu(&["fault"]), unknown("there is no command `fault`; the nearest name is `faults`"));
    assert_eq!(ullimaqsu(&["simulate"]), unknown("there is no command `simulate`"));
    assert_eq!(ullimaqsu(&[""]), unknown("there is no command ``"));
    assert_eq!(ullimaqsu(&[OsStr::from_bytes(b"\xff\n")]), unknown("there is no command `\u{fffd}?`"));
    assert_eq!(ullimaqsu(&["help", "serch"]), unknown("there is no command `serch`; the nearest name is `search`"));
    assert_eq!(ullimaqsu(&["help", "search", "more"]), unknown("`more` is one word too many after help"));
    assert_eq!(ullimaqsu(&["--version", "more"]), unknown("`more` is one word too many after --version"));
    assert_eq!(ullimaqsu(&["--verbose"]), unknown("there is no command `--verbose`"));
}

fn misused(name: &str, says: &str) -> Said {
    stopped(&format!("{name} {says}; see ullimaqsu {name} --help"))
}

#[test]
fn misused_commands() {
    assert_eq!(ullimaqsu(&["check"]), misused("check", "wants a circuit"));
    assert_eq!(ullimaqsu(&["check", "a", "b"]), misused("check", "wants a circuit"));
    assert_eq!(ullimaqsu(&["faults"]), misused("faults", "wants a circuit"));
    assert_eq!(ullimaqsu(&["faults", "a", "--pin"]), misused("faults", "has no option `--pin`; the nearest name is `--pins`"));
    assert_eq!(ullimaqsu(&["faults", "a", "-x"]), misused("faults", "has no option `-x`"));
    assert_eq!(ullimaqsu(&["faults", "a", "-o"]), misused("faults", "wants FILE after -o"));
    assert_eq!(ullimaqsu(&["compact", "a", "b"]), misused("compact", "wants a circuit, a file of faults and one of patterns"));
    let audit = "wants a circuit, a file of faults, one of patterns and one of marks";
    assert_eq!(ullimaqsu(&["audit", "a", "b", "c"]), misused("audit", audit));
    assert_eq!(ullimaqsu(&["audit", "a", "b", "c", "d", "--json", "--csv"]), misused("audit", "prints --csv or --json, not both"));
    let suspects = "wants a circuit, a file of faults and one of patterns, and if need be one of reports";
    assert_eq!(ullimaqsu(&["suspects", "a", "b"]), misused("suspects", suspects));
    assert_eq!(ullimaqsu(&["suspects", "a", "b", "c", "d", "e"]), misused("suspects", suspects));
}

/// An option is no value of another, and a value is given once. A flag may be repeated.
#[test]
fn values_of_options() {
    let directory = Directory::new("values of options");
    directory.write("c17", std::fs::read(example("c17")).expect("c17"));
    let here = |words: &[&str]| run(Command::new(COMMAND).args(words).current_dir(&directory.0));
    for word in ["--pins", "--collapse", "-o", "--"] {
        let line = format!("wants FILE after -o, and here is `{word}`");
        assert_eq!(here(&["faults", "c17", "-o", word]), misused("faults", &line));
    }
    assert_eq!(here(&["search", "c17", "--budget", "--all"]), misused("search", "wants N after --budget, and here is `--all`"));
    let twice = |option: &str| format!("takes {option} once, and here it is given twice");
    assert_eq!(here(&["faults", "c17", "-o", "one", "-o", "two"]), misused("faults", &twice("-o")));
    assert_eq!(here(&["search", "c17", "--budget", "1", "--all", "--budget", "1"]), misused("search", &twice("--budget")));
    assert_eq!(directory.names(), ["c17"]);
    assert_eq!(here(&["faults", "c17", "--pins", "-o", "./--pins", "--pins"]), (Some(0), String::new(), String::new()));
    assert_eq!((directory.read("--pins").lines().count(), directory.names()), (46, vec!["--pins".to_string(), "c17".to_string()]));
}

/// Of a long word the beginning is said.
#[test]
fn long_words() {
    let word = format!("--{}", "ä".repeat(100));
    let line = format!("has no option `--{}..`", "ä".repeat(38));
    assert_eq!(ullimaqsu(&["faults", "a", &word]), misused("faults", &line));
}

/// A name that begins with a dash is given after `--`; a lone dash is a name.
#[test]
fn names_with_dashes() {
    let directory = Directory::new("dashes");
    directory.write("-c17", std::fs::read(example("c17")).expect("c17"));
    directory.write("-", std::fs::read(example("c17")).expect("c17"));
    let check = |words: &[&str]| run(Command::new(COMMAND).arg("check").args(words).current_dir(&directory.0));
    let counts = (Some(0), "lines 11, inputs 5, outputs 2\n".to_string(), String::new());
    assert_eq!(check(&["--", "-c17"]), counts);
    assert_eq!(check(&["-"]), counts);
    assert_eq!(check(&["-c17"]), stopped("check has no option `-c17`; see ullimaqsu check --help"));
}

/// Nobody reads, or nobody can be told: the status stays.
#[test]
fn streams() {
    assert_eq!(into_broken(&["--help"]), (Some(141), String::new(), String::new()));
    let (status, printed, _) = run(&mut after("exec 2>&-", &["check", "no such file"]));
    assert_eq!((status, printed.as_str()), (Some(2), ""));
    let (status, ..) = run(&mut after("exec 2>/dev/full", &["check", "no such file"]));
    assert_eq!(status, Some(2));
}
