//! The documents have what the command says.
mod harness;

use harness::{fed, printed, root, Directory};
use std::collections::BTreeSet;
use std::fs;

/// The commands, as `--help` lists them: the words that begin a row.
fn commands() -> Vec<String> {
    let help = printed(&["--help"]);
    let rows = help.lines().filter_map(|line| line.strip_prefix("  ")).filter(|row| !row.starts_with(' '));
    rows.map(|row| row.split(' ').next().expect("a word").to_string()).collect()
}

/// A text as a block of a document.
fn block(text: &str) -> String {
    text.lines().map(|line| if line.is_empty() { "\n".to_string() } else { format!("    {line}\n") }).collect()
}

#[test]
fn every_command_has_its_section() {
    let document = fs::read_to_string(root().join("docs/COMMANDS.md")).expect("a document");
    let readme = fs::read_to_string(root().join("README.md")).expect("a document");
    let commands = commands();
    assert!(commands.len() >= 10, "{commands:?}");
    for command in commands {
        assert!(document.contains(&format!("\n## {command}\n")), "docs/COMMANDS.md has no section {command}");
        let help = printed(&["help", &command]);
        assert!(document.contains(&block(&help)), "docs/COMMANDS.md lacks what `ullimaqsu help {command}` says:\n{}", block(&help));
        assert!(readme.contains(&format!("\n| `{command}` |")), "README.md has no row {command}");
    }
}

/// Each command over the example with flip-flops, `dictionary` with steps and without.
const OVER_FLIP_FLOPS: [&str; 14] = [
    "check TEXT",
    "faults TEXT",
    "search TEXT --all",
    "dictionary TEXT FAULTS PATTERNS",
    "dictionary --steps 4 TEXT FAULTS PATTERNS",
    "compact TEXT FAULTS PATTERNS",
    "audit TEXT FAULTS PATTERNS PATTERNS",
    "suspects TEXT FAULTS PATTERNS",
    "clauses TEXT G5/0",
    "values TEXT 0000000",
    "control TEXT",
    "narrow TEXT",
    "bench TEXT OUT",
    "unfold TEXT 4",
];

/// A text on one line, without the signs of a document around names.
fn plain(text: &str) -> String {
    text.replace("](#unfold)", "").replace(['`', '['], "").split_whitespace().collect::<Vec<_>>().join(" ")
}

/// Those that read flip-flops are named by the others, by README, docs/COMMANDS.md and the help.
#[test]
fn the_commands_that_read_flip_flops_are_named() {
    let named: BTreeSet<&str> = OVER_FLIP_FLOPS.iter().map(|line| line.split(' ').next().expect("a word")).collect();
    assert_eq!(named, commands().iter().map(String::as_str).collect());

    let directory = Directory::new("flip-flops");
    let file = |name: &str| root().join("examples/s27").join(name).display().to_string();
    let files = [("TEXT", file("s27.bench")), ("FAULTS", file("s27.flt")), ("PATTERNS", file("s27.pat"))];
    let out = directory.path("out").display().to_string();
    let word = |word: &str| match files.iter().find(|(name, _)| *name == word) {
        Some((_, file)) => file.clone(),
        None => word.replace("OUT", &out),
    };
    let (mut read, mut told) = (BTreeSet::new(), BTreeSet::new());
    for line in OVER_FLIP_FLOPS {
        let (status, _, said) = fed(&line.split(' ').map(word).collect::<Vec<_>>(), []);
        if status == Some(0) {
            let name: Vec<&str> = line.split(' ').take(if line.contains("--steps") { 2 } else { 1 }).collect();
            read.insert(name.join(" "));
        } else {
            let (_, list) = said.trim_end().split_once("; flip-flops are read by ").expect("who reads them");
            told.insert(list.strip_suffix(" alone").expect("and no other").to_string());
        }
    }
    let [list] = &told.into_iter().collect::<Vec<_>>()[..] else { panic!("one list") };
    assert_eq!(list.replace(" and ", ", ").split(", ").map(String::from).collect::<BTreeSet<_>>(), read);

    let document = |name: &str| plain(&fs::read_to_string(root().join(name)).expect("a document"));
    assert!(document("README.md").contains(&format!("{list} take texts with flip-flops")), "README.md: {list}");
    assert!(document("docs/COMMANDS.md").contains(&format!("for {list} also with flip-flops")), "docs/COMMANDS.md: {list}");
    assert!(plain(&printed(&["--help"])).contains(&format!("Q = DFF(D), is read by {list}.")), "--help: {list}");
}
