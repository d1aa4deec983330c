//! Lines that are no report, and what can't be read.
use crate::half::{Half, BEGIN, FAILED_0};
use crate::harness::{after, run, said, started, stopped, ullimaqsu};
use std::fs;
use std::io::{BufRead, BufReader};
use std::process::Command;

/// A line that is not understood is told and changes nothing.
#[test]
fn wrong_lines() {
    let half = Half::new("wrong lines");
    let long = "1".repeat(60);
    let no_number = "is no number of a pattern: a report is written 3 fail or 3 pass";
    let cases = [
        ("6 fail", 1, "there is no pattern `6`: the last is 5".to_string()),
        (" 18446744073709551616 pass", 2, "there is no pattern `18446744073709551616`: the last is 5".to_string()),
        (&format!("{long} fail"), 1, format!("there is no pattern `{}..`: the last is 5", &long[..40])),
        ("fail 3", 1, format!("`fail` {no_number}")),
        ("+1 fail", 1, format!("`+1` {no_number}")),
        ("-1 fail", 1, format!("`-1` {no_number}")),
        ("1,fail", 1, format!("`1,fail` {no_number}")),
        ("\u{663} fail", 1, format!("`\u{663}` {no_number}")),
        (" 3 \t# fail", 3, "after `3` there must be fail or pass".to_string()),
        ("3 maybe", 3, "`maybe` is neither fail nor pass".to_string()),
        ("3 fail pass", 8, "a line has one report, and here follows `pass`".to_string()),
        ("3 \u{1b}[K", 3, "`?[K` is neither fail nor pass".to_string()),
    ];
    let right = [BEGIN, FAILED_0].concat();
    for (line, column, says) in &cases {
        let told = half.told(format!("{line}\n0 fail\n\n{line}"));
        let lines = [1, 4].map(|number| format!("ullimaqsu: line {number}, column {column}: {says}\n"));
        assert_eq!(told, (Some(2), right.clone(), lines.concat()), "{line}");
    }
    // of a file its name is said
    let file = half.directory.write("reports", b"0 fail\n3 \xff\n");
    let (status, printed, said) = ullimaqsu(&half.words(&[file.to_str().expect("text")]));
    let line = format!("ullimaqsu: {}: line 2, column 3: `\u{fffd}` is neither fail nor pass\n", file.display());
    assert_eq!((status, printed, said), (Some(2), right, line));
}

/// What can't be read, before anything is printed or in the midst of it.
#[test]
fn unread() {
    let half = Half::new("unread reports");
    let with = |path: &str| ullimaqsu(&half.words(&[path]));
    let absent = half.directory.path("absent").display().to_string();
    assert_eq!(with(&absent), stopped(&format!("there is no file {absent}")));
    let directory = half.directory.0.display().to_string();
    assert_eq!(with(&directory), stopped(&format!("{directory} is a directory")));
    let after_begin = |line: &str| (Some(2), BEGIN.to_string(), format!("ullimaqsu: {line}\n"));
    assert_eq!(with("/proc/self/mem"), after_begin("/proc/self/mem can't be read: Input/output error"));
    assert_eq!(with("/dev/zero"), after_begin("/dev/zero: line 1 has more than 64 KiB"));
    // a comment may be long, and a line has an end
    let long = |len: usize| format!("\n0 fail #{}", "#".repeat(len - 8));
    assert_eq!(half.printed(&long(1 << 16)), [BEGIN, FAILED_0].concat());
    assert_eq!(half.told(long((1 << 16) + 1)), after_begin("line 2 has more than 64 KiB"));
    let standard = run(&mut after(&format!("exec <'{directory}'"), &half.words(&[])));
    assert_eq!(standard, after_begin("standard input can't be read: Is a directory"));
}

/// Where one stands is printed before anybody writes to a pipe with a name.
#[test]
fn pipe_with_a_name() {
    let half = Half::new("pipe with a name");
    let pipe = half.directory.path("pipe");
    assert!(Command::new("mkfifo").arg(&pipe).status().expect("mkfifo").success());
    let mut process = started(&half.words(&[pipe.to_str().expect("text")]));
    let mut lines = BufReader::new(process.stdout.take().expect("piped")).lines().map(|line| line.expect("a line") + "\n");
    assert_eq!(lines.by_ref().take(2).collect::<String>(), BEGIN);
    fs::write(&pipe, "0 fail\n").expect("it is read");
    assert_eq!(lines.collect::<String>(), FAILED_0);
    assert_eq!(said(process.wait_with_output().expect("it ends")), (Some(0), String::new(), String::new()));
}
