//! `ullimaqsu search --heads` against a search over the head lines that `harness/heads.rs` finds: every line that is printed, in every form.
mod harness;

use cases::circuits::{self, record, AND, INPUT, NOT};
use cases::{drawn, texts, Directory, Random};
use harness::heads::{bushy, Heads};
use harness::json::Json;
use harness::named::Named;
use harness::searched::{counted, csv, is_table, json};
use harness::{example, into_broken, into_full, printed, refused, selectors, stopped, ullimaqsu, COMMAND};
use second::search::{search_circuit, Look, Outcome, Search};
use second::Fault;
use std::fs;
use std::io::{BufRead, BufReader};
use std::path::Path;
use std::process::{Command, Stdio};

/// The faults of a circuit and what is found for each, over head lines and over inputs.
struct Case<'a> {
    named: &'a Named,
    faults: Vec<Fault>,
    heads: Heads<'a>,
    over_heads: Vec<Search>,
    over_inputs: Vec<Search>,
}

/// What head lines brought.
#[derive(Clone, Copy, Default, Debug)]
struct Brought {
    served: usize,
    nodes: u64,
    nodes_over_inputs: u64,
    given_up_over_inputs: usize,
    won: usize,
    lost: usize,
}

fn is_verdict(search: &Search) -> bool {
    search.outcome != Outcome::GivenUp
}

impl Case<'_> {
    fn new(named: &Named, faults: Vec<Fault>, budget: u64) -> Case<'_> {
        let heads = Heads::of(&named.circuit);
        let over_heads = faults.iter().map(|&fault| heads.search(fault, budget)).collect();
        let over_inputs = faults.iter().map(|&fault| search_circuit(&named.circuit, fault, budget)).collect();
        Case { named, faults, heads, over_heads, over_inputs }
    }

    fn brought(&self) -> Brought {
        let mut brought = Brought::default();
        for ((&fault, heads), inputs) in self.faults.iter().zip(&self.over_heads).zip(&self.over_inputs) {
            if self.heads.serve(fault) {
                brought.served += 1;
                brought.nodes += heads.nodes;
                brought.nodes_over_inputs += inputs.nodes;
                brought.given_up_over_inputs += usize::from(!is_verdict(inputs));
                brought.won += usize::from(is_verdict(heads) && !is_verdict(inputs));
                brought.lost += usize::from(!is_verdict(heads) && is_verdict(inputs));
            }
        }
        brought
    }

    /// The lines at the end of a table.
    fn lines(&self, compared: bool) -> Vec<String> {
        let Brought { served, nodes, nodes_over_inputs, given_up_over_inputs, won, lost } = self.brought();
        let (heads, inputs) = (counted(self.heads.lines.len(), "head line"), counted(self.named.inputs().len(), "input"));
        let (faults, left) = (counted(served, "fault"), self.faults.len() - served);
        let nodes = counted(nodes as usize, "node");
        let first = format!("{heads} for {inputs}: {faults} searched over head lines in {nodes}, {left} over inputs");
        let (nodes, verdicts) = (counted(nodes_over_inputs as usize, "node"), counted(won, "verdict"));
        let both =
            format!("the same {faults} over inputs: {nodes}, {given_up_over_inputs} given up; head lines bring {verdicts} and lose {lost}");
        if compared {
            vec![first, both]
        } else {
            vec![first]
        }
    }

    fn json(&self, compared: bool) -> Json {
        let Brought { served, nodes, nodes_over_inputs, given_up_over_inputs, won, lost } = self.brought();
        let Json::Object(mut pairs) = json(self.named, &self.faults, &self.over_heads) else { panic!("an object") };
        let names = self.heads.lines.iter().map(|&line| Json::Text(self.named.names[line].clone()));
        pairs.insert(1, ("heads".to_string(), Json::List(names.collect())));
        let mut numbers = vec![("faults over head lines", served as u64), ("nodes over head lines", nodes)];
        if compared {
            numbers.extend([("nodes over inputs", nodes_over_inputs), ("given up over inputs", given_up_over_inputs as u64)]);
            numbers.extend([("verdicts won", won as u64), ("verdicts lost", lost as u64)]);
        }
        pairs.extend(numbers.into_iter().map(|(name, number)| (name.to_string(), Json::Number(number))));
        Json::Object(pairs)
    }

    /// Both searches agree where both have a verdict, and a test fails its fault.
    fn agrees(&self) {
        for ((&fault, heads), inputs) in self.faults.iter().zip(&self.over_heads).zip(&self.over_inputs) {
            assert!(heads.outcome == inputs.outcome || !is_verdict(heads) || !is_verdict(inputs));
            if heads.outcome == Outcome::Test {
                assert_eq!(self.named.circuit.look(heads.last.as_ref().expect("a test"), fault), Look::Fails);
            }
        }
    }
}

/// All forms of all faults of a circuit.
fn compare(path: &Path, named: &Named, budget: u64) -> Brought {
    let case = Case::new(named, named.faults(true), budget);
    case.agrees();
    let budget = budget.to_string();
    for options in [&["--heads"][..], &["--heads", "--compare"]] {
        let search = |more: &[&str]| {
            let words = ["search", path.to_str().expect("text"), "--all", "--budget", &budget];
            printed(&[&words[..], options, more].concat())
        };
        let compared = options.len() > 1;
        is_table(&search(&[]), named, &case.faults, &case.over_heads, &case.lines(compared));
        assert_eq!(search(&["--csv"]), csv(named, &case.faults, &case.over_heads));
        assert_eq!(Json::read(&search(&["--json"])), case.json(compared));
    }
    case.brought()
}

/// The last three lines, with which a table ends where the searches are compared.
fn last_lines(table: &str) -> Vec<&str> {
    let lines: Vec<&str> = table.lines().collect();
    lines[lines.len() - 3..].to_vec()
}

/// Where every head line is an input, nothing changes; among these circuits is the adder of 16 bits.
#[test]
fn examples() {
    for (name, budget) in [("c17", 1_000_000), ("decoder4", 1_000_000), ("multiplier4", 300), ("adder16", 40)] {
        let brought = compare(&example(name), &Named::of_file(&example(name)), budget);
        let path = example(name).display().to_string();
        let over_inputs = ["search", &path, "--all", "--csv", "--budget", &budget.to_string()].map(String::from);
        let over_heads = [&over_inputs[..], &["--heads".to_string()]].concat();
        assert_eq!(printed(&over_heads), printed(&over_inputs), "{name}");
        assert_eq!((brought.nodes, brought.won, brought.lost), (brought.nodes_over_inputs, 0, 0), "{name}");
    }
    let brought = compare(&example("parity16"), &Named::of_file(&example("parity16")), 100);
    assert!(brought.nodes < brought.nodes_over_inputs);
    let path = selectors("circuit");
    compare(&path, &Named::of_file(&path), 1_000_000);
}

#[test]
fn random_circuits() {
    let directory = Directory::new("search heads");
    let [mut served, mut all, mut won, mut lost] = [0; 4];
    let mut take = |path: &Path, named: &Named, budget: u64| {
        let brought = compare(path, named, budget);
        served += brought.served;
        all += named.faults(true).len();
        won += brought.won;
        lost += brought.lost;
    };
    let few = |text: &Vec<u8>| Named::of_text(text).inputs().len() < 8;
    let texts = drawn(1, 60, |random: &mut Random| bushy(random, 9)).chain(drawn(2, 30, texts::small).filter(few));
    for (k, text) in texts.enumerate() {
        take(&directory.write("text", &text), &Named::of_text(&text), [3, 6, 12, u64::MAX][k % 4]);
    }
    for (k, records) in drawn(3, 40, circuits::few_inputs).enumerate() {
        take(&directory.write("records", &records), &Named::of_records(&records), [0, 5, 1000][k % 3]);
    }
    assert!(served > 1000 && all - served > 1000 && won > 100, "{served} of {all}, {won} won and {lost} lost");
}

/// Head lines may come in another order than the inputs behind them, and a verdict later: here input 0 decides, which is behind the second head
/// line.
#[test]
fn lost_verdicts() {
    let directory = Directory::new("lost verdicts");
    let input = record(INPUT, false, 0, 0);
    let circuit = [input, input, record(NOT, false, 0, 0), record(NOT, true, 2, 0), record(AND, true, 2, 1)].concat();
    let path = directory.write("order.rec", &circuit);
    let said = printed(&["search", path.to_str().expect("text"), "3/1", "--heads", "--compare", "--budget", "3"]);
    let totals = "1 fault: 0 tests, 0 redundant, 1 given up";
    let heads = "2 head lines for 2 inputs: 1 fault searched over head lines in 3 nodes, 0 over inputs";
    let inputs = "the same 1 fault over inputs: 2 nodes, 0 given up; head lines bring 0 verdicts and lose 1";
    assert_eq!(last_lines(&said), [totals, heads, inputs]);
    assert_eq!(compare(&path, &Named::of_file(&path), 3).lost, 5);
}

/// Three trees of 64 inputs: the faults above them take a few nodes, where the search over inputs gives up.
#[test]
fn wide_trees() {
    let path = example("trees");
    let named = Named::of_file(&path);
    let Brought { served, won, lost, .. } = compare(&path, &named, 300);
    assert_eq!((served, lost), (40, 0));
    assert!(won > 15, "{won}");
    let search = |more: &[&str]| {
        let words = ["search", path.to_str().expect("text"), "first/0", "bridge/0", "not_all/1"];
        printed(&[&words[..], more].concat())
    };
    // what stands before the values of the inputs
    let outcomes = |csv: String| csv.lines().map(|line| line.splitn(4, ',').take(3).collect::<Vec<_>>().join(" ")).collect::<Vec<_>>();
    let given_up = ["fault outcome nodes", "first/0 given up 100000", "bridge/0 given up 100000", "not_all/1 given up 100000"];
    assert_eq!(outcomes(search(&["--csv"])), given_up);
    let found = search(&["--csv", "--heads"]);
    assert_eq!(outcomes(found.clone()), ["fault outcome nodes", "first/0 test 12", "bridge/0 redundant 11", "not_all/1 test 12"]);
    // all a are 1, one b is 1 and the others are X, all c are 0
    let test = ["1"; 16].into_iter().chain(["1"]).chain(["X"; 15]).chain(["0"; 32]).collect::<Vec<_>>().join(",");
    assert_eq!(found.lines().nth(1), Some(format!("first/0,test,12,{test}").as_str()));
    let said = search(&["--heads", "--compare", "--budget", "12"]);
    let totals = "3 faults: 2 tests, 1 redundant, 0 given up";
    let heads = "3 head lines for 64 inputs: 3 faults searched over head lines in 35 nodes, 0 over inputs";
    let inputs = "the same 3 faults over inputs: 36 nodes, 3 given up; head lines bring 3 verdicts and lose 0";
    assert_eq!(last_lines(&said), [totals, heads, inputs]);
}

/// A circuit without head lines: every fault is searched for over inputs, and nothing is compared.
#[test]
fn no_head_lines() {
    let directory = Directory::new("no heads");
    let path = directory.write("a.rec", circuits::example_a());
    let said = printed(&["search", path.to_str().expect("text"), "4/1", "--heads", "--compare"]);
    let totals = "1 fault: 1 test, 0 redundant, 0 given up";
    let heads = "0 head lines for 3 inputs: 0 faults searched over head lines in 0 nodes, 1 over inputs";
    let inputs = "the same 0 faults over inputs: 0 nodes, 0 given up; head lines bring 0 verdicts and lose 0";
    assert_eq!(last_lines(&said), [totals, heads, inputs]);
    compare(&path, &Named::of_file(&path), 1000);
}

/// Faults as words and as a file give the same; and each test, used as a pattern, fails its fault.
#[test]
fn tests_as_patterns() {
    let directory = Directory::new("tests over heads");
    let circuit = example("trees").display().to_string();
    let [list, out] = ["list", "tests"].map(|name| directory.path(name).display().to_string());
    let named = Named::of_file(&example("trees"));
    let heads = Heads::of(&named.circuit);
    let served: Vec<Fault> = named.faults(true).into_iter().filter(|&fault| heads.serve(fault)).collect();
    directory.write("list", named.fault_lines(&served));
    let table = printed(&["search", &circuit, "--heads", "--faults", &list, "-o", &out]);
    assert!(table.contains("\n40 faults: 36 tests, 4 redundant, 0 given up\n"), "{table}");
    let faults = directory.read("list");
    let words: Vec<&str> = ["search", &circuit, "--heads"].into_iter().chain(faults.lines()).collect();
    assert_eq!(printed(&words), table);

    let tests = directory.read("tests");
    let tested: Vec<&str> = tests.lines().map(|line| line.split_once(" # ").expect("a comment").1).collect();
    directory.write("list", tested.join("\n"));
    let dictionary = Json::read(&printed(&["dictionary", &circuit, &list, &out, "--json"]));
    let entries = dictionary.at("entries").texts();
    assert!(entries.len() == 36 && entries.iter().enumerate().all(|(k, row)| row.as_bytes()[k] == b'F'));
}

#[test]
fn what_is_wrong() {
    let c17 = example("c17");
    let search = |words: &[&str]| ullimaqsu(&[&["search", c17.to_str().expect("text"), "--heads"], words].concat());
    // head lines are no faults: there must be something to search for
    let wants = stopped("search wants a circuit and then faults, or --all, or --faults FILE; see ullimaqsu search --help");
    for words in [&[][..], &["--compare"], &["--budget", "3"], &["--json"], &["10/0", "--all"], &["--all", "--faults", "list"]] {
        assert_eq!(search(words), wants, "{words:?}");
    }
    assert_eq!(ullimaqsu(&["search", "--heads"]), wants);
    let alone = stopped("search wants --heads where --compare is given; see ullimaqsu search --help");
    assert_eq!(ullimaqsu(&["search", c17.to_str().expect("text"), "--all", "--compare"]), alone);
    let near = stopped("search has no option `--head`; the nearest name is `--heads`; see ullimaqsu search --help");
    assert_eq!(ullimaqsu(&["search", "c17", "--all", "--head"]), near);
    assert_eq!(search(&["--all", "--csv", "--json"]), stopped("search prints --csv or --json, not both; see ullimaqsu search --help"));
    assert_eq!(search(&["--faults", "no such list"]), stopped("there is no file no such list"));
    assert_eq!(search(&["22/0", "109/0"]), refused("there is no line `109`; the nearest names are `10` and `19`"));
    let budget = "search wants a number of nodes after --budget, and `x` is none; see ullimaqsu search --help";
    assert_eq!(search(&["--all", "--budget", "x"]), stopped(budget));
}

/// Nothing is lost where something can't be read, written or printed.
#[test]
fn nothing_is_lost() {
    let directory = Directory::new("lost heads");
    let circuit = directory.write("c17.bench", fs::read(example("c17")).expect("c17"));
    directory.write("old", "tests of old");
    let words = |to: &Path| {
        let words = ["search", circuit.to_str().expect("text"), "--all", "--heads", "--compare", "-o", to.to_str().expect("text")];
        words.map(String::from)
    };
    for name in ["old", "new"] {
        let words = words(&directory.path(name));
        assert_eq!(into_broken(&words), (Some(141), String::new(), String::new()));
        assert_eq!(into_full(&words), stopped("standard output could not be written: No space left on device"));
    }
    assert_eq!(ullimaqsu(&words(&circuit)), stopped(&format!("{} is one of the files that are read", circuit.display())));
    let missing = directory.path("missing/tests");
    assert_eq!(ullimaqsu(&words(&missing)), stopped(&format!("the directory of {} is missing or can't be entered", missing.display())));
    assert_eq!((directory.read("old").as_str(), directory.names()), ("tests of old", vec!["c17.bench".to_string(), "old".to_string()]));
    printed(&words(&directory.path("old")));
    assert_eq!(directory.read("old").lines().count(), 46);
}

/// What is found comes while the search goes on: the second fault is one of a tree, and takes the search over inputs half a minute at least.
#[test]
fn lines_come_at_once() {
    let words = ["--heads", "--csv", "--budget", "100000000", "first/0", "a2/0"];
    let mut search =
        Command::new(COMMAND).arg("search").arg(example("trees")).args(words).stdout(Stdio::piped()).spawn().expect("it starts");
    let lines = BufReader::new(search.stdout.take().expect("piped")).lines();
    let found: Vec<String> = lines.take(2).map(|line| line.expect("a line")).collect();
    let ended = search.try_wait().expect("it can be asked");
    search.kill().expect("it can be ended");
    search.wait().expect("it ends");
    assert!(found[1].starts_with("first/0,test,12,"), "{found:?}");
    assert_eq!(ended, None);
}

/// A large circuit, with a piece of its faults.
#[test]
fn the_largest() {
    let directory = Directory::new("largest search over heads");
    let text = texts::largest(&mut Random::new(5), 2048, 64);
    let (path, named) = (directory.write("largest.bench", &text), Named::of_text(&text));
    let faults: Vec<Fault> = named.faults(true).into_iter().step_by(17).take(300).collect();
    let list = directory.write("list", named.fault_lines(&faults));
    let [path, list] = [&path, &list].map(|path| path.to_str().expect("text"));
    let case = Case::new(&named, faults, 3);
    assert_eq!(
        printed(&["search", path, "--faults", list, "--budget", "3", "--csv", "--heads"]),
        csv(&named, &case.faults, &case.over_heads)
    );
}
