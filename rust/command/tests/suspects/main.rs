//! `ullimaqsu suspects`: sessions by hand, and what the printed dictionary says of each fault.
mod half;
#[path = "../harness/mod.rs"]
mod harness;
mod lines;
mod printed;

use cases::Random;
use half::{Half, BEGIN, FAILED_0};
use harness::case::Case;
use harness::json::Json;
use harness::{fed, into_broken, into_full, refused, said, started, stopped, ullimaqsu};
use printed::{compare, Printed, Reports};
use std::io::{BufRead, BufReader, Write};
use std::path::Path;

#[test]
fn by_hand() {
    let half = Half::new("by hand");
    assert_eq!(half.printed(""), BEGIN);
    let rest = "\
pattern 1 failed, 2 faults remain: b/1 carry/1
try pattern 2 (01): 1 remains if it fails, 1 if it passes
pattern 2 passed, 1 fault remains: b/1
nothing is left to tell apart
pattern 2 passed, 1 fault remains: b/1
nothing is left to tell apart
";
    let reports = "0 fail\n1 fail\n2 pass\n2 pass\n";
    assert_eq!(half.printed(reports), [BEGIN, FAILED_0, rest].concat());
    // a file says the same, of a name of any sort
    let file = half.directory.write("the\nreports", reports);
    let (status, printed, said) = ullimaqsu(&half.words(&[file.to_str().expect("text")]));
    assert_eq!((status, printed, said), (Some(0), [BEGIN, FAILED_0, rest].concat(), String::new()));
}

/// A dropped pattern may be reported too. Where an entry is unknown, either report lets the fault stand.
#[test]
fn unknown() {
    let half = Half::new("unknown");
    // of 0X the sum is X and masked, and of a/1 the carry is X
    let failed = "\
pattern 5 failed, 2 faults remain: a/1 carry/1
try pattern 0 (10): 1 remains if it fails, 1 if it passes
";
    assert_eq!(half.printed("5 fail\n"), [BEGIN, failed].concat());
    let passed = "\
pattern 5 passed, 7 faults remain: a/0 a/1 b/0 b/1 sum/0 sum/1 carry/0
try pattern 0 (10): 3 remain if it fails, 4 if it passes
";
    assert_eq!(half.printed("5 pass\n"), [BEGIN, passed].concat());
    let both = "pattern 5 passed, 1 fault remains: a/1\nnothing is left to tell apart\n";
    assert_eq!(half.printed("5 fail\n5 pass\n"), [BEGIN, failed, both].concat());

    // two that no pattern tells apart: each is the same line
    half.directory.write("faults", "sum/0\nsum/0\ncarry/0\n");
    let alike = "\
3 faults remain: sum/0 sum/0 carry/0
try pattern 0 (10): 2 remain if it fails, 1 if it passes
pattern 2 failed, 2 faults remain: sum/0 sum/0
no pattern tells these apart
";
    assert_eq!(half.printed("2 fail"), alike);
}

/// Compaction drops a pattern that tells a detected fault from one that is not. It is tried where no kept one will do.
#[test]
fn a_dropped_one() {
    // y/1 is unknown and passes, o/1 fails both
    let gate = Half::gate("a dropped one", "y/1\no/1\n", "X0\n00\n");
    let begin = "\
2 faults remain: y/1 o/1
no kept pattern tells these apart; try pattern 1 (00): 1 remains if it fails, 1
  if it passes
";
    let failed = "pattern 1 failed, 1 fault remains: o/1\nnothing is left to tell apart\n";
    assert_eq!(gate.printed("1 fail\n"), [begin, failed].concat());
    let (_, json, _) = fed(&gate.words(&["--json"]), "");
    let json = Json::read(&json);
    assert_eq!((json.at("next"), json.at("values")), (&Json::Number(1), &Json::Text("00".to_string())));
    // a kept one goes first, though the dropped one would leave two either way; 11 fails x/0 alone
    let gate = Half::gate("a kept one first", "y/1\no/1\no/1\nx/0\n", "X0\n00\n11\n");
    let kept_first = "\
4 faults remain: y/1 o/1 o/1 x/0
try pattern 0 (X0): 3 remain if it fails, 2 if it passes
pattern 2 passed, 3 faults remain: y/1 o/1 o/1
no kept pattern tells these apart; try pattern 1 (00): 2 remain if it fails, 1
  if it passes
";
    assert_eq!(gate.printed("2 pass\n"), kept_first);
}

/// None remains, for one reason or another, and the session goes on.
#[test]
fn none_left() {
    let half = Half::new("none left");
    let none = "\
no fault of the list fits all reports: some contradict each other, or the fault
  is not in the list, or there are several
";
    let answer = |report: &str| format!("pattern {report}, 0 faults remain\n{none}");
    let goes_on = [BEGIN, FAILED_0, &answer("0 passed"), &answer("1 passed")].concat();
    assert_eq!(half.printed("0 fail\n0 pass\n1 pass\n"), goes_on);
    // no single fault fails all three
    assert!(half.printed("0 fail\n1 fail\n4 fail\n").ends_with(&answer("4 failed")));

    // where all have passed there may be none at all
    let nothing = "\
no fault of the list passes all of these: the part has no fault, or one that is
  not in the list, or several that hide each other
";
    let printed = half.printed("0 p\n1 p\n2 p\n4 p\n");
    assert!(printed.ends_with(&format!("pattern 4 passed, 0 faults remain\n{nothing}")), "{printed}");
    assert!(half.printed("0 p\n1 p\n2 p\n4 p\n0 f").ends_with(&answer("0 failed")));
}

/// A fault that no pattern detects remains in a good part too: that one is left, or some, does not mean that the part has it.
#[test]
fn all_passed() {
    let gate = Half::gate("all passed", "x/0\no/1\n", "X0\n00\n");
    let begin = "\
2 faults remain: x/0 o/1
try pattern 0 (X0): 1 remains if it fails, 1 if it passes
";
    let good =
        |pattern: usize| format!("pattern {pattern} passed, 1 fault remains: x/0\nno pattern has failed: the part may have no fault\n");
    assert_eq!(gate.printed("0 pass\n1 pass\n"), [begin, &good(0), &good(1)].concat());
    let failed = "pattern 0 failed, 1 fault remains: o/1\nnothing is left to tell apart\n";
    assert_eq!(gate.printed("0 fail\n"), [begin, failed].concat());

    // what is left are two, and of each the gate passes 00
    let gate = Half::gate("two passed", "x/0\ny/0\n", "00\n");
    let begin = "2 faults remain: x/0 y/0\nno pattern tells these apart\n";
    let passed = "\
pattern 0 passed, 2 faults remain: x/0 y/0
no pattern tells these apart, and none has failed: the part may have no fault
";
    assert_eq!(gate.printed("0 pass\n"), [begin, passed].concat());

    // before the first report nothing is known of the part, and once one has failed it has a fault
    let gate = Half::gate("one alone", "o/1\n", "X0\n11\n");
    let begin = "1 fault remains: o/1\nnothing is left to tell apart\n";
    let passed = "pattern 1 passed, 1 fault remains: o/1\nno pattern has failed: the part may have no fault\n";
    let failed = format!("pattern 0 failed, {begin}pattern 1 passed, {begin}");
    assert_eq!(gate.printed("1 pass\n0 fail\n1 pass\n"), [begin, passed, &failed].concat());
}

#[test]
fn in_other_words() {
    let half = Half::new("other words");
    let right = half.printed("0 fail\n1 fail\n2 pass\n");
    let others = [
        "0 failed\n1 FAIL\n2 passed",
        "0 F\n1 f\n2 P\n",
        "\r\n# a tester's list\n \t0\tfail \r\n\r\n00001   Failed# 3 fail\n#\n2 p #\n \n",
    ];
    others.iter().for_each(|other| assert_eq!(half.printed(other), right, "{other:?}"));
}

/// Nobody reads what is printed, or there is no room for it.
#[test]
fn unheard() {
    let half = Half::new("unheard");
    let words = half.words(&["/dev/null"]);
    assert_eq!(into_broken(&words), (Some(141), String::new(), String::new()));
    assert_eq!(into_full(&words), stopped("standard output could not be written: No space left on device"));
    // whoever reads goes between two reports
    let mut process = started(&half.words(&["--json"]));
    let mut line = String::new();
    BufReader::new(process.stdout.take().expect("piped")).read_line(&mut line).expect("a line");
    // a process that a test beside starts may hold the other end for a moment
    let mut reports = process.stdin.take().expect("piped");
    while reports.write_all(b"0 fail\n").is_ok() {}
    let (status, _, told) = said(process.wait_with_output().expect("it ends"));
    assert_eq!((Json::read(&line).at("remaining"), status, told.as_str()), (&Json::Number(8), Some(141), ""));
}

/// More than the library takes is refused by name.
#[test]
fn limits() {
    let random = &mut Random::new(1);
    for (counts, name, has) in [([257, 3], "faults", "257 faults"), ([3, 300], "patterns", "300 patterns")] {
        let case = Case::c17("limits of suspects", random, counts);
        let line = format!("{} has {has}, and suspects takes at most 256", case.directory.path(name).display());
        assert_eq!(case.run("suspects", &[]), refused(&line));
    }
    let case = Case::c17("most suspects", random, [256, 256]);
    compare(&Printed::of(&case), &case, &[(255, true), (0, false), (255, false)]);
}

#[test]
fn as_the_dictionary_says() {
    let random = &mut Random::new(2);
    let (mut none, mut several, mut good) = (0, 0, 0);
    for number in 0..120 {
        let case = match number % 3 {
            0 => Case::c17("suspects of c17", random, [30, 12]),
            _ => Case::drawn("drawn suspects", random),
        };
        let printed = Printed::of(&case);
        // as a circuit with one of the faults would fail and pass, or one without a fault, or as it comes
        let fault = random.below(printed.names.len());
        let failed = |pattern: usize, random: &mut Random| match (number % 4, printed.rows[fault][pattern].as_str()) {
            (0 | 2, "F") => true,
            (0 | 2, "P") | (1, _) => false,
            _ => random.once_in(2),
        };
        let report = |random: &mut Random| {
            let pattern = random.below(printed.patterns.len());
            (pattern, failed(pattern, random))
        };
        let reports: Vec<(usize, bool)> = (0..random.below(8)).map(|_| report(random)).collect();
        let remaining = printed.remaining(&reports);
        assert!(number % 2 == 1 || remaining.contains(&fault));
        none += usize::from(remaining.is_empty());
        several += usize::from(remaining.len() > 1);
        good += usize::from(number % 4 == 1 && !reports.is_empty() && !remaining.is_empty() && printed.next(&reports).is_none());
        compare(&printed, &case, &reports);
    }
    assert!(none > 5 && several > 5 && good > 5, "{none} of none, {several} of several, {good} that may be good");
}

/// A fault is looked for as a repairer does, who reads an answer before the next report: the reports by which it is found. It is among those that are
/// left, and by then no pattern tells these apart. A dropped pattern is tried only if no kept one tells apart what remains.
fn looked_for(case: &Case, printed: &Printed, fault: usize) -> Vec<(usize, bool)> {
    let mut process = started(&case.words("suspects", &[Path::new("--json")]));
    let mut writes = process.stdin.take().expect("piped");
    let mut answers = BufReader::new(process.stdout.take().expect("piped"));
    let mut answer = || {
        let mut line = String::new();
        answers.read_line(&mut line).expect("an answer");
        Json::read(&line)
    };
    let (mut last, mut reports) = (answer(), vec![]);
    let tells_apart = |pattern: usize, reports: &Reports| printed.tells_apart(pattern, &printed.remaining(reports));
    while let Json::Number(next) = last.at("next") {
        let next = *next as usize;
        assert!(tells_apart(next, &reports), "{next} after {reports:?}");
        let kept_one = printed.kept.iter().any(|&kept| tells_apart(kept, &reports));
        assert_eq!(printed.kept.contains(&next), kept_one, "{next} after {reports:?}");
        // an unknown entry may come either way, and here it passes
        let failed = printed.rows[fault][next] == "F";
        writeln!(writes, "{next} {}", if failed { "fail" } else { "pass" }).expect("it reads");
        reports.push((next, failed));
        last = answer();
    }
    assert!(last.at("faults").texts().contains(&printed.names[fault].as_str()), "{last:?}");
    assert!(!(0..printed.patterns.len()).any(|pattern| tells_apart(pattern, &reports)), "after {reports:?}");
    drop(writes);
    assert_eq!(process.wait().expect("it ends").code(), Some(0));
    reports
}

#[test]
fn one_after_the_other() {
    let random = &mut Random::new(3);
    let (mut longest, mut dropped) = (0, 0);
    for _ in 0..16 {
        let case = Case::c17("one after the other", random, [24, 16]);
        let printed = Printed::of(&case);
        for fault in 0..printed.names.len() {
            let reports = looked_for(&case, &printed, fault);
            longest = longest.max(reports.len());
            if reports.iter().any(|(pattern, _)| !printed.kept.contains(pattern)) {
                dropped += 1;
                compare(&printed, &case, &reports);
            }
        }
    }
    assert!(longest > 3 && dropped > 3, "{longest} reports, {dropped} times with a dropped pattern");
}
