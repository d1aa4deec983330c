//! `ullimaqsu dictionary --steps` against the second program, which clocks and never unfolds.
use crate::drawn::Drawn;
use crate::harness::json::Json;
use crate::harness::named::{letters, pattern_lines, Named};
use crate::harness::{printed, refused, root, stopped, ullimaqsu, Directory, Said};
use crate::refused::RECORDS;
use cases::{drawn as draw, Random};
use second::clocked::Clocked;
use second::{Entry, Fault, Pattern};
use std::fs;
use std::path::Path;

/// What is given besides the text.
struct Given {
    faults: Vec<Fault>,
    patterns: Vec<Pattern>,
}

impl Given {
    fn new(random: &mut Random, named: &Named, clocked: &Clocked, [faults, patterns]: [usize; 2]) -> Given {
        let all = named.faults(true);
        let faults = (0..faults).map(|_| all[random.below(all.len())]).collect();
        let known = random.pick(&[1, 2, 8]);
        let mut value = || if random.once_in(1 + known) { None } else { Some(random.once_in(2)) };
        let patterns = (0..patterns).map(|_| (0..clocked.inputs()).map(|_| value()).collect()).collect();
        Given { faults, patterns }
    }

    /// The letters of each fault, one for each pattern, by this rule.
    fn rows(&self, entry: impl Fn(Fault, &Pattern) -> Entry) -> Vec<String> {
        let letter = |entry: Entry| match entry {
            Entry::Fail => 'F',
            Entry::Pass => 'P',
            Entry::Unknown => 'U',
        };
        self.faults.iter().map(|&fault| self.patterns.iter().map(|pattern| letter(entry(fault, pattern))).collect()).collect()
    }

    fn right(&self, clocked: &Clocked) -> Vec<String> {
        self.rows(|fault, pattern| clocked.entry_of(&clocked.run(pattern, None), &clocked.run(pattern, Some(fault))))
    }

    /// With each fault in these steps alone.
    fn in_steps(&self, clocked: &Clocked, has: impl Fn(usize) -> bool) -> Vec<String> {
        let clock = |before: &second::clocked::Run, state: second::clocked::State| before.last().map(|values| values[state.data]);
        let run = |pattern: &Pattern, fault: Option<Fault>| {
            clocked.run_by(second::circuit::Gate::value, clock, pattern, |step| fault.filter(|_| has(step)))
        };
        self.rows(|fault, pattern| clocked.entry_of(&run(pattern, None), &run(pattern, Some(fault))))
    }

    /// Without the data lines of the last step.
    fn without_data(&self, clocked: &Clocked) -> Vec<String> {
        let outputs = Clocked { states: vec![], ..clocked.clone() };
        self.rows(|fault, pattern| outputs.entry_of(&clocked.run(pattern, None), &clocked.run(pattern, Some(fault))))
    }
}

/// What is printed in a form.
fn dictionary(directory: &Directory, drawn: &Drawn, given: &Given, form: &[&str]) -> String {
    let files = [
        directory.write("text.bench", &drawn.text),
        directory.write("faults", drawn.named.fault_lines(&given.faults)),
        directory.write("patterns", pattern_lines(&given.patterns)),
    ];
    let steps = drawn.steps.to_string();
    let words =
        [Path::new("dictionary")].into_iter().chain(files.iter().map(|path| path.as_path())).chain(["--steps", &steps].map(Path::new));
    printed(&words.chain(form.iter().map(Path::new)).collect::<Vec<_>>())
}

/// The letters of a table, and its last line.
fn table(printed: &str, faults: &[String]) -> (Vec<String>, String) {
    let lines: Vec<&str> = printed.lines().collect();
    let (last, rows) = lines.split_last().expect("lines");
    let rows = rows[rows.len() - faults.len()..].iter().zip(faults);
    let letters = rows.map(|(row, fault)| row.strip_prefix(fault.as_str()).expect("the fault").trim_start().to_string());
    (letters.collect(), last.to_string())
}

#[test]
fn drawn_dictionaries() {
    let (directory, random) = (Directory::new("dictionary"), &mut Random::new(1));
    let (mut seen, mut wrong) = ([0; 3], [0; 4]);
    for drawn in draw(2, 150, Drawn::new) {
        let (clocked, counts) = (drawn.clocked(), [1 + random.below(10), 1 + random.below(10)]);
        let given = Given::new(random, &drawn.named, &clocked, counts);
        let (names, right): (Vec<String>, _) = (given.faults.iter().map(|&fault| drawn.named.word(fault)).collect(), given.right(&clocked));
        let detected = right.iter().filter(|row| row.contains('F')).count();
        let many = |count: usize, of: &str| format!("{count} {of}{}", if count == 1 { "" } else { "s" });
        let (faults, patterns, steps) = (many(names.len(), "fault"), many(given.patterns.len(), "pattern"), many(clocked.steps, "step"));
        let last = format!("{faults}, {patterns} over {steps}: {detected} detected");
        assert_eq!(table(&dictionary(&directory, &drawn, &given, &[]), &names), (right.clone(), last));

        let json = Json::read(&dictionary(&directory, &drawn, &given, &["--json"]));
        assert_eq!((json.at("steps"), json.at("faults").texts()), (&Json::Number(drawn.steps), names.iter().map(String::as_str).collect()));
        assert_eq!(json.at("patterns").texts(), given.patterns.iter().map(letters).collect::<Vec<_>>());
        assert_eq!(json.at("entries").texts(), right);
        let csv: Vec<String> =
            dictionary(&directory, &drawn, &given, &["--csv"]).lines().skip(1).map(|line| line.replace(',', "")).collect();
        assert_eq!(csv, names.iter().zip(&right).map(|(name, row)| format!("{name}{row}")).collect::<Vec<_>>());

        (0..3).for_each(|k| seen[k] += right.concat().matches(['P', 'F', 'U'][k]).count());
        let last = clocked.steps - 1;
        let others = [
            given.in_steps(&clocked, |step| step == 0),
            given.in_steps(&clocked, |step| step == last),
            given.in_steps(&clocked, |step| step > 0 || last == 0),
            given.without_data(&clocked),
        ];
        (0..4).for_each(|k| wrong[k] += usize::from(others[k] != right));
    }
    println!("dictionary --steps: {seen:?}; other rules would be seen in {wrong:?} of 150");
    assert!(seen.iter().all(|&times| times > 20) && wrong.iter().all(|&times| times > 5), "{seen:?} {wrong:?}");
}

/// More faults and patterns than a call of the library takes.
#[test]
fn many_faults_and_patterns() {
    let (directory, random) = (Directory::new("many"), &mut Random::new(3));
    let drawn = draw(4, 100, Drawn::new).find(|drawn| drawn.flip_flops() > 1 && drawn.steps == 3).expect("one with three steps");
    let clocked = drawn.clocked();
    for counts in [[257, 1], [1, 257], [300, 300]] {
        let given = Given::new(random, &drawn.named, &clocked, counts);
        let names: Vec<String> = given.faults.iter().map(|&fault| drawn.named.word(fault)).collect();
        assert_eq!(table(&dictionary(&directory, &drawn, &given, &[]), &names).0, given.right(&clocked));
    }
}

/// The bit that counts, by hand. From X on all its outputs are X, and no tester compares them.
#[test]
fn a_counter() {
    let directory = Directory::new("by hand");
    let text = directory.write("counter.bench", "INPUT(up)\nOUTPUT(q)\nq = DFF(d)\nd = XOR(up, q)\n");
    let faults = directory.write("faults", "up/0\nq/0\nq/1\nd/0\nd.2/1\n");
    let patterns = directory.write("patterns", "10 0 1\n11 0 1 # it starts at 1\n1X 0 1\n00 0 0\n");
    let right = "\
fault 0123
up/0  FFPP
q/0   FFPP
q/1   FFPF
d/0   FFPP
d.2/1 FFPF
5 faults, 4 patterns over 3 steps: 5 detected
";
    let words = [Path::new("dictionary"), &text, &faults, &patterns, Path::new("--steps"), Path::new("3")];
    assert_eq!(printed(&words), right);
}

/// The example has every line stuck at 0 and at 1, its patterns detect all of these, and its output is what is printed and what the second program
/// finds.
#[test]
fn s27() {
    let (folder, drawn) = (root().join("examples/s27"), Drawn::s27(4));
    let [text, faults, patterns, output] = ["s27.bench", "s27.flt", "s27.pat", "output"].map(|name| folder.join(name));
    let read = |path: &Path| fs::read_to_string(path).expect("an example");
    let words = [Path::new("dictionary"), &text, &faults, &patterns, Path::new("--steps"), Path::new("4")];
    assert_eq!(printed(&words), read(&output));
    assert!(read(&output).ends_with("34 faults, 6 patterns over 4 steps: 34 detected\n"));

    let value = |letter: char| "01X".contains(letter).then(|| (letter != 'X').then_some(letter == '1'));
    let lines = read(&patterns);
    let patterns = lines.lines().map(|line| line.split('#').next().expect("a line").chars().filter_map(value).collect());
    let patterns = patterns.filter(|pattern: &Pattern| !pattern.is_empty()).collect();
    let given = Given { faults: drawn.named.faults(false), patterns };
    assert_eq!(read(&faults), drawn.named.fault_lines(&given.faults));
    let names: Vec<String> = given.faults.iter().map(|&fault| drawn.named.word(fault)).collect();
    let rows = table(&read(&output), &names).0;
    assert_eq!(rows, given.right(&drawn.clocked()));
    // as examples/README.md says
    assert!(rows.iter().all(|row| row[..2].contains('F')), "the first two detect every fault");
    assert_eq!(given.patterns.iter().filter(|pattern| pattern[4..7] == [None; 3]).count(), 3);
}

/// What is wrong in lists is told as without steps, by the names of the clocked circuit and the inputs of the unfolded one.
#[test]
fn what_is_wrong() {
    let directory = Directory::new("lists");
    let text = directory.write("text.bench", "INPUT(up)\nOUTPUT(q)\nq = DFF(d)\nd = XOR(up, q)\n");
    let said = |faults: &[u8], patterns: &[u8], steps: &str| -> Said {
        let (faults, patterns) = (directory.write("faults", faults), directory.write("patterns", patterns));
        ullimaqsu(&[Path::new("dictionary"), &text, &faults, &patterns, Path::new("--steps"), Path::new(steps)])
    };
    let wrong = |name: &str, says: &str| refused(&format!("{}: {says}", directory.path(name).display()));
    assert_eq!(said(b"q@2/0", b"0000", "3"), wrong("faults", "line 1, column 1: there is no line `q@2`"));
    assert_eq!(said(b"q.1/0", b"0000", "3"), wrong("faults", "line 1, column 1: `q` has no pin `1`: it is INPUT with no pins"));
    let three = "line 1, column 4: this pattern has 3 values, and the unfolded circuit has 4 inputs";
    assert_eq!(said(b"q/0", b"000", "3"), wrong("patterns", three));
    let five = "line 2, column 7: this pattern has 5 values, and the unfolded circuit has 4 inputs";
    assert_eq!(said(b"q/0", b"0000\n00 0 00", "3"), wrong("patterns", five));
    assert_eq!(said(b"q/0", &[0, 1, 2], "3"), wrong("patterns", "the unfolded circuit has 4 inputs, and 3 bytes are no multiple of that"));
    assert_eq!(said(b"q/0", b"0000", "9"), wrong("text.bench", "a circuit is unfolded over 1 to 8 steps, and 9 are asked for"));
    let misused = |says: &str| stopped(&format!("dictionary {says}; see ullimaqsu dictionary --help"));
    for steps in ["three", "+3"] {
        assert_eq!(said(b"q/0", b"0000", steps), misused(&format!("wants a number of steps, 1 to 8, and `{steps}` is none")));
    }
    assert_eq!(ullimaqsu(&["dictionary", "a", "b", "c", "--steps"]), misused("wants K after --steps"));
    assert_eq!(ullimaqsu(&["dictionary", "a", "b", "c", "--steps", "--csv"]), misused("wants K after --steps, and here is `--csv`"));
    let twice = misused("takes --steps once, and here it is given twice");
    assert_eq!(ullimaqsu(&["dictionary", "a", "b", "c", "--steps", "1", "--steps", "1"]), twice);
    // records have no flip-flops
    let records = directory.write("text.bench", [0, 1, 0, 0, 0, 0, 0, 0]);
    assert_eq!(said(b"0/0", b"0", "1"), refused(&format!("{}: {RECORDS}", records.display())));
}
