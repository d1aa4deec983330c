//! `ullimaqsu dictionary` of a directory against the second program, byte for byte, and what it says of what is wrong.
#[path = "../../tests/harness/directories.rs"]
mod directories;
mod harness;
#[path = "harness/other_user.rs"]
mod other_user;

use cases::{drawn, Random, Tally};
use directories::{boundaries, damaged, directory_of, sound};
use harness::{into_broken, into_full, printed, root, stopped, ullimaqsu, Directory, Said};
use second::Files;
use std::fs::{self, Permissions};
use std::os::unix::fs::{symlink, PermissionsExt};
use std::path::Path;

fn dictionary(directory: &Path) -> Said {
    ullimaqsu(&[Path::new("dictionary"), directory])
}

/// Prints what the second program prints; a refusal has status 1, and as many lines on standard error as it must.
fn compare(name: &str, cases: impl IntoIterator<Item = Files>) -> Tally {
    let mut tally = Tally::default();
    for files in cases {
        let directory = directory_of(name, &files);
        let (status, printed, said) = dictionary(&directory.0);
        let right = second::program(&files);
        assert_eq!(printed, right, "{files:?}");
        let refusal = right
            .strip_prefix("refused ")
            .map_or(0, |rest| rest.split(' ').next().and_then(|number| number.parse().ok()).expect("a number"));
        let absent = [&files.circuit, &files.faults, &files.patterns].iter().filter(|file| file.is_none()).count();
        let lines = if refusal > 0 { 1 + absent } else { 0 };
        assert_eq!((status, said.lines().count()), (Some(i32::from(refusal > 0)), lines), "{said}");
        assert!(said.lines().all(|line| line.starts_with("ullimaqsu: ")), "{said}");
        tally.count(refusal);
    }
    tally
}

#[test]
fn sound_directories() {
    assert_eq!(compare("sound", drawn(1, 120, sound)).seen(), [0]);
}

#[test]
fn damaged_directories() {
    assert_eq!(compare("damaged", drawn(2, 250, damaged)).seen(), [0, 1, 2, 4, 5, 6, 7, 8, 9]);
}

#[test]
fn sizes() {
    assert_eq!(compare("sizes", boundaries(&mut Random::new(3))).seen(), [0, 1, 4, 6, 8]);
}

#[test]
fn examples() {
    for name in ["a", "c17", "selector"] {
        let directory = root().join("examples").join(name);
        let output = fs::read_to_string(directory.join("output")).expect("output");
        assert_eq!(printed(&[Path::new("dictionary"), &directory]), output);
    }
}

/// The words of a refusal, the file that it is about, and the files that are absent.
#[test]
fn words() {
    let c17 = root().join("examples/c17");
    let file = |name: &str| Some(fs::read(c17.join(name)).expect("c17"));
    let whole = || Files { circuit: file("circuit.rec"), faults: file("faults.rec"), patterns: file("patterns.rec") };
    let with = |mut files: Files, name: &str, at: usize, byte: u8| {
        let part = match name {
            "circuit" => &mut files.circuit,
            "faults" => &mut files.faults,
            _ => &mut files.patterns,
        };
        part.as_mut().expect("a file")[at] = byte;
        files
    };
    let no_faults = "the faults are not a multiple of 8 bytes, empty, or above 256 records (search and clauses for one fault: not 8 bytes)";
    let no_circuit = "the circuit is not a multiple of 8 bytes, empty, or above 2,048 records";
    let cases = [
        (Files::default(), "1 0", vec![("circuit.rec: ", no_circuit)]),
        (Files { circuit: whole().circuit, ..Files::default() }, "6 0", vec![("faults.rec: ", no_faults)]),
        (with(whole(), "circuit", 41, 2), "2 41", vec![("circuit.rec: ", "line 5, output (byte 41): 2 is neither 0 nor 1")]),
        (with(whole(), "faults", 8, 77), "7 1", vec![("faults.rec: ", "a fault record breaks its layout or names no line (record 1)")]),
        (with(whole(), "patterns", 6, 9), "9 6", vec![("patterns.rec: ", "a pattern byte is above 2 (byte 6)")]),
    ];
    for (files, refusal, lines) in cases {
        let directory = directory_of("words", &files);
        let path = |name: &str| directory.path(name).display().to_string();
        let says = lines.iter().map(|(name, says)| format!("ullimaqsu: {}{says}\n", path(name)));
        let parts = [("circuit.rec", &files.circuit), ("faults.rec", &files.faults), ("patterns.rec", &files.patterns)];
        let absent =
            parts.iter().filter(|(_, file)| file.is_none()).map(|(name, _)| format!("ullimaqsu: there is no file {}\n", path(name)));
        assert_eq!(dictionary(&directory.0), (Some(1), format!("refused {refusal}\n"), says.chain(absent).collect()));
    }
}

/// Nothing is made of a file that can't be read to its end: a directory, a device, and one whose reading fails.
#[test]
fn unread() {
    let directory = Directory::new("unread parts");
    directory.write("circuit.rec", fs::read(root().join("examples/c17/circuit.rec")).expect("c17"));
    let patterns = directory.path("patterns.rec");
    let about = |says: &str| stopped(&format!("{} {says}", patterns.display()));
    fs::create_dir(&patterns).expect("a directory");
    assert_eq!(dictionary(&directory.0), about("is a directory"));
    fs::remove_dir(&patterns).expect("the directory");
    let links = [
        ("/dev/zero", "is no regular file"),
        ("/proc/self/mem", "can't be read: Input/output error"),
        // to itself
        ("patterns.rec", "can't be read: Too many levels of symbolic links"),
    ];
    for (target, why) in links {
        symlink(target, &patterns).expect("a link");
        assert_eq!(dictionary(&directory.0), about(why));
        fs::remove_file(&patterns).expect("the link");
    }
}

/// Words that are no directory.
#[test]
fn no_directory() {
    let directory = Directory::new("no directory");
    let absent = directory.path("absent");
    assert_eq!(dictionary(&absent), stopped(&format!("there is no directory {}", absent.display())));
    let file = directory.write("circuit.rec", "");
    let wants =
        "dictionary wants a circuit, a file of faults and one of patterns, or a directory of circuit.rec, faults.rec and patterns.rec";
    let is_file = stopped(&format!("{wants}, and {} is a file; see ullimaqsu dictionary --help", file.display()));
    assert_eq!(dictionary(&file), is_file);
    assert_eq!(ullimaqsu(&[Path::new("dictionary"), &file, Path::new("--csv")]), is_file);
    let below = file.join("below");
    assert_eq!(dictionary(&below), stopped(&format!("{} can't be read: Not a directory", below.display())));
    let round = directory.path("round");
    symlink(&round, &round).expect("a link");
    assert_eq!(dictionary(&round), stopped(&format!("{} can't be read: Too many levels of symbolic links", round.display())));
    let form = "dictionary prints a directory in no other form; see ullimaqsu dictionary --help";
    assert_eq!(ullimaqsu(&[Path::new("dictionary"), &directory.0, Path::new("--csv")]), stopped(form));
}

/// A file that can't be reached is not absent.
#[test]
fn locked() {
    let files = Files { circuit: Some(vec![]), ..Files::default() };
    let directory = directory_of("locked", &files);
    let denied = |path: &Path| stopped(&format!("{} can't be read: Permission denied", path.display()));
    let circuit = directory.path("circuit.rec");
    let lock = |path: &Path, mode: u32| fs::set_permissions(path, Permissions::from_mode(mode)).expect("a mode");
    let said = || other_user::ullimaqsu(&[Path::new("dictionary"), &directory.0]);
    lock(&circuit, 0o000);
    said().into_iter().for_each(|said| assert_eq!(said, denied(&circuit)));
    // its own files can't be reached, nor what would be absent
    lock(&directory.0, 0o600);
    said().into_iter().for_each(|said| assert_eq!(said, denied(&circuit)));
    lock(&directory.0, 0o700);
}

#[test]
fn unheard() {
    let c17 = root().join("examples/c17");
    let words = [Path::new("dictionary"), &c17];
    assert_eq!(into_broken(&words), (Some(141), String::new(), String::new()));
    let (status, printed, said) = into_full(&words);
    assert_eq!((status, printed.as_str(), said.lines().count()), (Some(2), "", 1));
}
