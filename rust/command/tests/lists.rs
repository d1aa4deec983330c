//! Files of faults, of patterns and of marks: what is wrong in them, and where.
mod harness;

use cases::{circuits, Directory, Random};
use harness::{example, printed, refused, selectors, stopped, ullimaqsu, Said};
use std::fs::File;
use std::path::Path;
use std::time::Instant;

/// A directory with faults and patterns of c17 that nothing is wrong with.
struct Lists {
    directory: Directory,
}

impl Lists {
    fn new(name: &str) -> Lists {
        let directory = Directory::new(name);
        directory.write("faults", "22/0\n23/1\n");
        directory.write("patterns", "00000\n10101\n");
        directory.write("kept", "KK\n");
        Lists { directory }
    }

    /// What the audit, which reads all of them, says with these bytes in place of one.
    fn with(&self, name: &str, bytes: impl AsRef<[u8]>) -> Said {
        let path = self.directory.write(&format!("other {name}"), bytes);
        self.with_path(name, &path)
    }

    fn with_path(&self, name: &str, path: &Path) -> Said {
        let of = |part: &str| if part == name { path.to_path_buf() } else { self.directory.path(part) };
        ullimaqsu(&[Path::new("audit"), &example("c17"), &of("faults"), &of("patterns"), &of("kept")])
    }

    /// What it says of something at fault in that file.
    fn about(&self, name: &str, says: &str) -> Said {
        refused(&format!("{}{says}", self.directory.path(&format!("other {name}")).display()))
    }
}

#[test]
fn faults() {
    let lists = Lists::new("lists of faults");
    let cases = [
        ("22/0\n\n  99/0\n", ": line 3, column 3: there is no line `99`; the nearest name is `19`"),
        ("22/0\r\n\t109/0 # no such line\r\n", ": line 2, column 2: there is no line `109`; the nearest names are `10` and `19`"),
        ("22/0 23/0", ": line 1, column 6: a line has one fault, and here follows `23/0`"),
        (
            "# 22/0\n22 / 0\n",
            ": line 2, column 1: `22` is no fault: it is written NAME/0 or NAME/1, at a pin NAME.1/0 or NAME.2/0, and at a selector's select NAME.3/0",
        ),
        ("22/X", ": line 1, column 1: `22/X` is no fault: after `/` there must be 0 or 1, what the line is stuck at"),
        ("22/0\n1.1/0", ": line 2, column 1: `1` has no pin `1`: it is INPUT with no pins"),
        ("22/0\n22.3/0", ": line 2, column 1: `22` has no pin `3`: it is NAND with pins 1 and 2"),
        ("", " has no fault"),
        ("\n # nothing\r\n", " has no fault"),
        ("\u{e9}/0", ": line 1, column 1: there is no line `\u{e9}`"),
    ];
    for (text, says) in cases {
        assert_eq!(lists.with("faults", text), lists.about("faults", says), "{text:?}");
    }
    // bytes that are no text are shown as one line of text
    assert_eq!(lists.with("faults", b"\xff\x1b/0"), lists.about("faults", ": line 1, column 1: there is no line `\u{fffd}?`"));
}

/// Of a long word the beginning is said, and no name is offered for one that is longer than all of them: at once, however long it is.
#[test]
fn long_words() {
    let lists = Lists::new("long words");
    let longest = "abcdefghijklmnop";
    let few = lists.directory.write("few", format!("INPUT({longest})\nOUTPUT({longest})\n"));
    let many = lists.directory.write("many", circuits::circuit(&mut Random::new(1), 2048, 64));
    let no_line = |circuit: &Path, name: &str, says: &str| {
        let list = lists.directory.write("list", format!("{name}/0\n"));
        let said = ullimaqsu(&[Path::new("search"), circuit, Path::new("--faults"), &list]);
        assert_eq!(said, refused(&format!("{}: line 1, column 1: there is no line {says}", list.display())));
    };
    no_line(&few, &format!("{longest}qrs"), &format!("`{longest}qrs`; the nearest name is `{longest}`"));
    no_line(&few, &format!("{longest}qrst"), &format!("`{longest}qrst`"));
    no_line(&few, &"ä".repeat(40), &format!("`{}`", "ä".repeat(40)));
    no_line(&few, &"ä".repeat(41), &format!("`{}..`", "ä".repeat(40)));
    let began = Instant::now();
    no_line(&many, &"1".repeat(2_000_000), &format!("`{}..`", "1".repeat(40)));
    assert!(began.elapsed().as_secs_f64() < 5.0, "{:?}", began.elapsed());
}

/// What is said of a record of this number.
fn refused_record(number: usize, says: &str) -> String {
    format!(": refusal 7: a fault record breaks its layout or names no line (record {number}): {says}")
}

/// Of a record the first thing that is wrong is told, whatever follows.
#[test]
fn records_of_faults() {
    let lists = Lists::new("records of faults");
    let fine = [9, 0, 0, 0, 0, 0, 0, 0];
    let last = "its bytes 4 to 7 are not all 0";
    let cases = [
        (0, 11, "its line number is 11, and the last is 10"),
        (1, 1, "its line number is 265, and the last is 10"),
        (2, 3, "`22` has no pin `3`: it is NAND with pins 1 and 2"),
        (3, 2, "its stuck value is 2, which is neither 0 nor 1"),
        (4, 1, last),
        (5, 1, last),
        (6, 1, last),
        (7, 255, last),
    ];
    for (at, byte, says) in cases {
        let mut wrong = fine;
        wrong[at] = byte;
        let says = lists.about("faults", &refused_record(1, says));
        assert_eq!(lists.with("faults", [fine, wrong].concat()), says, "byte {at}");
        wrong[(at + 1).max(2)..].fill(255);
        assert_eq!(lists.with("faults", [fine, wrong, [255; 8]].concat()), says, "byte {at} and all that follow");
    }
    let no_pins = refused_record(0, "`7` has no pin `1`: it is INPUT with no pins");
    assert_eq!(lists.with("faults", [4, 0, 1, 0, 0, 0, 0, 0]), lists.about("faults", &no_pins));
    let says = ": records of faults have 8 bytes each, and 9 bytes are no multiple of that";
    assert_eq!(lists.with("faults", [&fine[..], &[0]].concat()), lists.about("faults", says));
}

/// The third pin is that of a selector alone, in words as in records.
#[test]
fn selects() {
    let directory = Directory::new("selects");
    let circuit = selectors("circuit");
    let words = |list: &Path| [Path::new("search"), &circuit, Path::new("--csv"), Path::new("--faults"), list].map(Path::to_path_buf);
    let list = directory.write("list", "8.3/1\n6.3/0 # a select\n");
    let records = directory.write("records", [[8, 0, 3, 1, 0, 0, 0, 0], [6, 0, 3, 0, 0, 0, 0, 0]].concat());
    let found = printed(&words(&list));
    let outcomes: Vec<&str> = found.lines().map(|row| row.split(",test,").next().expect("a fault")).collect();
    assert_eq!(outcomes[1..], ["8.3/1", "6.3/0"]);
    assert_eq!(printed(&words(&records)), found);

    for (word, says) in [
        ("6.4/0", "`6` has no pin `4`: it is SELECTOR with pins 1 to 3"),
        ("6.0/0", "`6` has no pin `0`: it is SELECTOR with pins 1 to 3"),
        ("6.03/0", "`6` has no pin `03`: it is SELECTOR with pins 1 to 3"),
        ("5.3/0", "`5` has no pin `3`: it is INPUT with no pins"),
    ] {
        let list = directory.write("list", format!("8/0\n{word}\n"));
        assert_eq!(ullimaqsu(&words(&list)), refused(&format!("{}: line 2, column 1: {says}", list.display())));
    }
    for (line, site, says) in [
        (8, 4, "`8` has no pin `4`: it is SELECTOR with pins 1 to 3"),
        (8, 255, "`8` has no pin `255`: it is SELECTOR with pins 1 to 3"),
        (5, 3, "`5` has no pin `3`: it is INPUT with no pins"),
    ] {
        let records = directory.write("records", [line, 0, site, 0, 0, 0, 0, 0]);
        assert_eq!(ullimaqsu(&words(&records)), refused(&format!("{}{}", records.display(), refused_record(0, says))));
    }
}

#[test]
fn patterns() {
    let lists = Lists::new("lists of patterns");
    let cases = [
        ("00000\n0 1X2x\n", ": line 2, column 5: `2` is none of 0, 1 and X"),
        ("00000\n000000\n", ": line 2, column 6: this pattern has 6 values, and the circuit has 5 inputs"),
        ("0 0 0 0 0 0 0", ": line 1, column 11: this pattern has 7 values, and the circuit has 5 inputs"),
        ("\r\n 0x0 \r\n", ": line 2, column 5: this pattern has 3 values, and the circuit has 5 inputs"),
        ("1", ": line 1, column 2: this pattern has 1 value, and the circuit has 5 inputs"),
        ("0000#0", ": line 1, column 5: this pattern has 4 values, and the circuit has 5 inputs"),
        ("00000,", ": line 1, column 6: `,` is none of 0, 1 and X"),
        ("00\u{2028}", ": line 1, column 3: `\u{2028}` is none of 0, 1 and X"),
        ("\n\n#\n", " has no pattern"),
    ];
    for (text, says) in cases {
        assert_eq!(lists.with("patterns", text), lists.about("patterns", says), "{text:?}");
    }
    let says = ": refusal 9: a pattern byte is above 2 (byte 7)";
    assert_eq!(lists.with("patterns", [0, 1, 2, 0, 1, 0, 0, 3, 0, 0]), lists.about("patterns", says));
    let says = ": the circuit has 5 inputs, and 6 bytes are no multiple of that";
    assert_eq!(lists.with("patterns", [0; 6]), lists.about("patterns", says));
}

#[test]
fn marks() {
    let lists = Lists::new("lists of marks");
    let cases = [
        ("K\n", " has 1 mark for 2 patterns"),
        ("# K K", " has no mark"),
        ("K D # K\nd", " has 3 marks for 2 patterns"),
        ("K\r\n  X", ": line 2, column 3: `X` is neither K nor D"),
        ("11", ": line 1, column 1: `1` is neither K nor D"),
    ];
    for (text, says) in cases {
        assert_eq!(lists.with("kept", text), lists.about("kept", says), "{text:?}");
    }
    assert_eq!(lists.with("kept", [1, 0, 1]), lists.about("kept", " has 3 marks for 2 patterns"));
}

/// What can't be read, and what nobody needs to read to its end.
#[test]
fn unread() {
    let lists = Lists::new("unread lists");
    for name in ["faults", "patterns", "kept"] {
        let absent = lists.directory.path("absent");
        assert_eq!(lists.with_path(name, &absent), stopped(&format!("there is no file {}", absent.display())));
        let directory = &lists.directory.0;
        assert_eq!(lists.with_path(name, directory), stopped(&format!("{} is a directory", directory.display())));
        let unreadable = Path::new("/proc/self/mem");
        assert_eq!(lists.with_path(name, unreadable), stopped("/proc/self/mem can't be read: Input/output error"));
        let long = lists.directory.path("long");
        File::create(&long).and_then(|file| file.set_len((16 << 20) + 1)).expect("a file of nothing");
        assert_eq!(lists.with_path(name, &long), stopped(&format!("{} has more than 16 MiB", long.display())));
        assert_eq!(lists.with_path(name, Path::new("/dev/zero")), stopped("/dev/zero has more than 16 MiB"));
    }
}
