//! `ullimaqsu bench` and what stands where it writes: nothing is lost, whatever OUT is, whatever fails and whoever interrupts.
mod harness;
#[path = "harness/pipes.rs"]
mod pipes;

use harness::{after, into_broken, into_full, root, run, said, selectors, ullimaqsu, Directory, Said, COMMAND};
use pipes::full_pipe;
use std::fs::{self, File, OpenOptions, Permissions};
use std::io::{ErrorKind, Read, Write};
use std::os::unix::fs::{chown, symlink, FileTypeExt, MetadataExt, OpenOptionsExt, PermissionsExt};
use std::os::unix::net::UnixListener;
use std::os::unix::process::ExitStatusExt;
use std::path::{Path, PathBuf};
use std::process::{Child, Command, ExitStatus, Stdio};
use std::time::Duration;
use std::{iter, thread};

const OLD: &[u8] = b"records of old";
const COUNTS: &str = "lines 11, inputs 5, outputs 2\n";

fn c17() -> Vec<u8> {
    fs::read(root().join("examples/bench/c17.bench")).expect("c17")
}

/// The words of a command that reads a text.
fn words<'a>(paths: &[&'a Path]) -> Vec<&'a Path> {
    iter::once(Path::new("bench")).chain(paths.iter().copied()).collect()
}

fn bench(paths: &[&Path]) -> Said {
    ullimaqsu(&words(paths))
}

fn has_records(path: &Path) -> bool {
    fs::read(path).expect("records") == fs::read(root().join("examples/c17/circuit.rec")).expect("c17")
}

/// Nothing is printed, and one line names what it is about.
fn stopped(said: Said, about: &str) {
    let (status, printed, line) = said;
    assert_eq!((status, printed.as_str(), line.lines().count()), (Some(2), "", 1), "{about}: {line}");
    assert!(line.starts_with("ullimaqsu: ") && line.contains(about), "{about}: {line}");
}

fn make(tool: &str, words: &[&str], path: &Path) -> bool {
    Command::new(tool).arg(path).args(words).stderr(Stdio::null()).status().expect("it starts").success()
}

#[test]
fn commands() {
    let directory = Directory::new("a command");
    let file = directory.write("c 17.bench", c17());

    // beside the file, over what stands there
    let beside = directory.write("circuit.rec", OLD);
    assert_eq!(bench(&[&file]), (Some(0), COUNTS.to_string(), String::new()));
    assert!(has_records(&beside));
    // or elsewhere
    let other = directory.0.join("other");
    assert_eq!(bench(&[&file, &other]), (Some(0), COUNTS.to_string(), String::new()));
    assert!(has_records(&other));

    // a refusal loses nothing
    let wrong = directory.write("wrong.bench", b"INPUT(a)\noutput(a)\n");
    let words = "line 2, column 7 (byte 15): after `output` there must be `=`, and here is `(`; only INPUT and OUTPUT, in capitals, are followed by `(`";
    assert_eq!(bench(&[&wrong]), (Some(1), "refused 14 15\n".to_string(), format!("ullimaqsu: {}: {words}\n", wrong.display())));
    assert!(has_records(&beside));
    assert_eq!(bench(&[&wrong, &directory.0.join("none")]).0, Some(1));

    // a directory that is not there gets no file of its name, nor does a file become one
    for missing in ["missing/", "missing/.", "missing/..", "other/", "other/."].map(|name| directory.0.join(name)) {
        stopped(bench(&[&file, &missing]), &format!("there is no directory {}", missing.display()));
    }
    stopped(bench(&[&file, Path::new("")]), "the name of the file to be written is empty");
    assert!(has_records(&other));

    // nothing is run: too few words, too many
    stopped(bench(&[]), "--help");
    stopped(bench(&[&file, &other, &other]), "--help");
    assert_eq!(directory.names(), ["c 17.bench", "circuit.rec", "other", "wrong.bench"]);
}

/// Of records nothing is made, and they stay; so do those whose first line is a gate, be it a selector.
#[test]
fn records_are_no_text() {
    let directory = Directory::new("records for a text");
    let records = fs::read(selectors("circuit")).expect("records");
    for (kind, place) in [(0, 0), (8, 0), (9, 1)] {
        let records = [&[kind], &records[1..]].concat();
        let (file, out) = (directory.write("circuit.rec", &records), directory.write("out", OLD));
        let says = format!("ullimaqsu: {}: these are records, and not a text in the bench notation\n", file.display());
        assert_eq!(bench(&[&file, &out]), (Some(1), format!("refused 14 {place}\n"), says.clone()));
        assert_eq!(ullimaqsu(&[Path::new("narrow"), &file, Path::new("-o"), &out]), (Some(1), String::new(), says));
        assert_eq!([&file, &out].map(|path| fs::read(path).expect("a file")), [records, OLD.to_vec()]);
        assert_eq!(directory.names(), ["circuit.rec", "out"]);
    }
}

/// Records with selectors are made of no text: beside one they stay, behind a link too, unless they are named.
#[test]
fn selectors_beside_a_text() {
    let directory = Directory::new("selectors beside a text");
    let (file, with_selectors) = (directory.write("text.bench", c17()), fs::read(selectors("circuit")).expect("records"));
    let beside = directory.write("circuit.rec", &with_selectors);
    let stays = || {
        stopped(bench(&[&file]), &format!("{} has selectors, which no text has: say where the records go", beside.display()));
        assert_eq!(fs::read(&beside).expect("records"), with_selectors);
    };
    stays();
    let elsewhere = directory.0.join("elsewhere");
    fs::rename(&beside, &elsewhere).and_then(|()| symlink("elsewhere", &beside)).expect("a link");
    stays();
    assert_eq!(bench(&[&file, &beside]), (Some(0), COUNTS.to_string(), String::new()));
    assert!(has_records(&elsewhere));

    // others are replaced: without selectors, one that a text has made among them, and those that are not accepted
    let without = ["examples/a/circuit.rec", "examples/c17/circuit.rec"].map(|path| fs::read(root().join(path)).expect("records"));
    let not_accepted = [&with_selectors[1..], &[&with_selectors[..], &[0; 8 * 2048]].concat(), &[9; 8]].map(<[u8]>::to_vec);
    for records in without.into_iter().chain(not_accepted) {
        fs::write(&beside, &records).expect("records");
        assert_eq!(bench(&[&file]), (Some(0), COUNTS.to_string(), String::new()), "{records:?}");
        assert!(has_records(&beside));
    }
    assert_eq!(directory.names(), ["circuit.rec", "elsewhere", "text.bench"]);
}

/// What can't be read is named, and nothing is written.
#[test]
fn texts_that_cannot_be_read() {
    let directory = Directory::new("no text");
    let out = directory.write("out", OLD);
    // what stands there is a regular file, and nobody can read its beginning
    let unreadable = Path::new("/proc/self/mem");
    for file in [&directory.0.join("absent"), &directory.0.join("out/absent"), &directory.0, unreadable] {
        stopped(bench(&[file, &out]), &file.display().to_string());
    }
    assert_eq!((fs::read(&out).expect("a file"), directory.names()), (OLD.to_vec(), vec!["out".to_string()]));
}

/// A text may come through a pipe. Where it is no regular file there is no place beside it.
#[test]
fn texts_from_pipes() {
    let directory = Directory::new("a pipe");
    let (out, device) = (directory.0.join("out"), directory.0.join("device"));
    let mut command = after(":", &words(&[Path::new("/dev/stdin"), &out]));
    let mut process = command.stdin(Stdio::piped()).stdout(Stdio::piped()).stderr(Stdio::piped()).spawn().expect("it starts");
    process.stdin.take().expect("piped").write_all(&c17()).expect("it reads");
    assert_eq!(said(process.wait_with_output().expect("it ends")), (Some(0), COUNTS.to_string(), String::new()));
    assert!(has_records(&out));
    symlink("/dev/null", &device).expect("a link");
    stopped(bench(&[&device]), &format!("{} is no regular file", device.display()));
    assert_eq!(directory.names(), ["device", "out"]);
}

/// A device of its own where that can be made; where it can't, nobody here can lose this one.
fn device(directory: &Directory) -> PathBuf {
    let own = directory.0.join("device");
    if make("mknod", &["c", "1", "3"], &own) {
        own
    } else {
        "/dev/null".into()
    }
}

/// What is no regular file stays what it is, and so do links to it and links to nothing.
#[test]
fn other_things_than_files() {
    let directory = Directory::new("things");
    let file = directory.write("text.bench", c17());
    let path = |name: &str| directory.0.join(name);
    let (pipe, socket, device) = (path("pipe"), path("socket"), device(&directory));
    assert!(make("mkfifo", &[], &pipe));
    let _listening = UnixListener::bind(&socket).expect("a socket");
    fs::create_dir(path("directory")).expect("a directory");
    let links = [
        ("to device", device.as_path()),
        ("to pipe", &pipe),
        ("to directory", &path("directory")),
        ("to nothing", Path::new("nothing")),
        ("to itself", Path::new("to itself")),
    ];
    for (name, to) in links {
        symlink(to, path(name)).expect("a link");
    }
    let kinds = |path: &Path| {
        let kind = fs::symlink_metadata(path).expect("it stays").file_type();
        (kind.is_fifo(), kind.is_socket(), kind.is_char_device(), kind.is_dir(), kind.is_symlink())
    };
    let before = directory.names();
    let things = [pipe.clone(), socket.clone(), device.clone(), path("directory")].into_iter().chain(links.map(|(name, _)| path(name)));
    for out in things {
        let kind = kinds(&out);
        let what = match out.metadata() {
            Err(_) => "is a link to nothing",
            Ok(of) if of.is_dir() => "is a directory",
            Ok(_) => "is no regular file",
        };
        stopped(bench(&[&file, &out]), &format!("{} {what}", out.display()));
        assert_eq!(kinds(&out), kind, "{out:?}");
    }
    assert_eq!((kinds(&pipe).0, kinds(&socket).1, kinds(&device).2), (true, true, true));
    assert_eq!(directory.names(), before);
    assert_eq!(fs::read_dir(path("directory")).expect("a directory").count(), 0);
}

/// Links are followed to the file, through other links and into other directories, and stay links.
#[test]
fn links_to_files() {
    let directory = Directory::new("links");
    let file = directory.write("text.bench", c17());
    fs::create_dir(directory.0.join("below")).expect("a directory");
    let real = directory.write("below/real.rec", OLD);
    let (near, far) = (directory.0.join("near"), directory.0.join("below/far"));
    symlink("below/far", &near).expect("a link");
    symlink("real.rec", &far).expect("a link");
    assert_eq!(bench(&[&file, &near]), (Some(0), COUNTS.to_string(), String::new()));
    assert!(has_records(&real));
    assert_eq!((fs::read_link(&near).expect("a link"), fs::read_link(&far).expect("a link")), ("below/far".into(), "real.rec".into()));
    assert_eq!(directory.names(), ["below", "near", "text.bench"]);
}

/// The text itself is not written over, by whatever name.
#[test]
fn the_text_itself() {
    let directory = Directory::new("itself");
    let file = directory.write("circuit.rec", c17());
    let (link, second) = (directory.0.join("link"), directory.0.join("second"));
    symlink("circuit.rec", &link).expect("a link");
    fs::hard_link(&file, &second).expect("a second name");
    let pairs: [&[&Path]; 5] = [&[&file], &[&file, &file], &[&file, &link], &[&link, &file], &[&file, &second]];
    for paths in pairs {
        stopped(bench(paths), "is one of the files that are read");
    }
    assert_eq!(fs::read(&file).expect("a text"), c17());
    assert_eq!(directory.names(), ["circuit.rec", "link", "second"]);
}

/// Nothing can be made there, not even by root.
#[test]
fn directories_that_take_nothing() {
    let directory = Directory::new("nowhere");
    let file = directory.write("text.bench", c17());
    for out in [&directory.0.join("absent/out"), &directory.0.join("text.bench/out"), Path::new("/proc/ullimaqsu")] {
        stopped(bench(&[&file, out]), &out.display().to_string());
    }
    assert_eq!(directory.names(), ["text.bench"]);
}

fn mode(path: &Path) -> u32 {
    fs::metadata(path).expect("a file").permissions().mode() & 0o7777
}

/// What is write-protected stays, for root too; what is replaced keeps its mode, and what is new has the mode that the umask leaves.
#[test]
fn modes() {
    let directory = Directory::new("modes");
    let file = directory.write("text.bench", c17());
    let out = directory.write("out", OLD);
    for protected in [0o444, 0o464, 0o0] {
        fs::set_permissions(&out, Permissions::from_mode(protected)).expect("a mode");
        stopped(bench(&[&file, &out]), &out.display().to_string());
        assert_eq!(mode(&out), protected);
    }
    for open in [0o604, 0o660] {
        fs::write(&out, OLD).or_else(|_| fs::remove_file(&out).and_then(|()| fs::write(&out, OLD))).expect("a file");
        fs::set_permissions(&out, Permissions::from_mode(open)).expect("a mode");
        assert_eq!(bench(&[&file, &out]).0, Some(0));
        assert_eq!((has_records(&out), mode(&out)), (true, open));
    }
    for (umask, left) in [("077", 0o600), ("027", 0o640), ("000", 0o666)] {
        let new = directory.0.join(umask);
        assert_eq!(run(&mut after(&format!("umask {umask}"), &words(&[&file, &new]))).0, Some(0));
        assert_eq!((has_records(&new), mode(&new)), (true, left));
    }
    assert_eq!(directory.names(), ["000", "027", "077", "out", "text.bench"]);
}

/// What is replaced keeps its owner where the caller may give files away, as root may.
#[test]
fn owners() {
    let directory = Directory::new("owners");
    let (file, out) = (directory.write("text.bench", c17()), directory.write("out", OLD));
    let owner = || fs::metadata(&out).map(|of| (of.uid(), of.gid())).expect("a file");
    let given = chown(&out, Some(12_345), Some(23_456)).is_ok();
    fs::set_permissions(&out, Permissions::from_mode(0o4664)).expect("a mode");
    let before = owner();
    assert_eq!(bench(&[&file, &out]).0, Some(0));
    assert_eq!((has_records(&out), mode(&out), owner()), (true, 0o4664, before));
    if !given {
        println!("NOT compared: owners other than the caller, who is not root");
    }
}

/// Names are names, whatever they begin or end with, and messages stay on one line.
#[test]
fn odd_names() {
    let directory = Directory::new("odd\n");
    let here = |names: &[&str]| run(Command::new(COMMAND).args(["bench", "--"]).args(names).current_dir(&directory.0));
    for name in ["-f", "--", "-", "!", "(", " a b ", "a\nb", "end\n", "\\n", "*", "ä"] {
        directory.write(name, c17());
        let out = format!("{name}.{name}");
        assert_eq!(here(&[name, &out]), (Some(0), COUNTS.to_string(), String::new()), "{name:?}");
        assert!(has_records(&directory.0.join(&out)), "{name:?}");
        stopped(here(&[name, name]), "is one of the files that are read");
        fs::write(directory.0.join(name), b"input(a)").expect("a text");
        let (status, printed, line) = here(&[name, &out]);
        assert_eq!((status, printed.as_str(), line.lines().count()), (Some(1), "refused 14 5\n", 1), "{name:?}: {line}");
        assert!(has_records(&directory.0.join(&out)), "{name:?}");
    }
    // the directory's own name ends in a line feed
    let file = directory.write("text", c17());
    assert_eq!(bench(&[&file]).0, Some(0));
    assert!(has_records(&directory.0.join("circuit.rec")));
}

/// A report that can't be printed, and a disk with no room: what stood there stands there. Where nobody reads the report nothing is said.
#[test]
fn what_can_not_be_printed_or_written() {
    let directory = Directory::new("full");
    let (file, out) = (directory.write("text.bench", c17()), directory.write("out", OLD));
    let wrong = directory.write("wrong.bench", b"input(a)\n");
    for text in [&file, &wrong] {
        stopped(into_full(&words(&[text, &out])), "standard output could not be written");
        assert_eq!(into_broken(&words(&[text, &out])), (Some(141), String::new(), String::new()));
    }
    // the signal is one that a caller may ignore; then the write fails
    for out in [&out, &directory.0.join("new")] {
        stopped(run(&mut after("trap '' XFSZ; ulimit -f 0", &words(&[&file, out]))), &format!("{} could not be written", out.display()));
    }
    assert_eq!(fs::read(&out).expect("a file"), OLD);
    assert_eq!(directory.names(), ["out", "text.bench", "wrong.bench"]);
}

/// Whoever closes standard output wants no report. All else is done as ever: no file takes the place of what is closed, and is printed into.
#[test]
fn closed_streams() {
    let directory = Directory::new("closed");
    let (file, out) = (directory.write("text.bench", c17()), directory.write("out", OLD));
    let wrong = directory.write("wrong.bench", b"input(a)\n");
    let (status, _, line) = run(&mut after("exec >&-", &words(&[&wrong, &out])));
    assert_eq!((status, line.lines().count()), (Some(1), 1), "{line}");
    for closed in ["exec 2>&-", "exec >&- 2>&-", "exec <&- >&- 2>&-"] {
        assert_eq!(run(&mut after(closed, &words(&[&wrong, &out]))).0, Some(1), "{closed}");
        assert_eq!(fs::read(&out).expect("a file"), OLD, "{closed}");
    }
    for closed in ["exec <&-", "exec >&-", "exec 2>&-", "exec <&- >&- 2>&-"] {
        fs::write(&out, OLD).expect("a file");
        assert_eq!(run(&mut after(closed, &words(&[&file, &out]))).0, Some(0), "{closed}");
        assert!(has_records(&out), "{closed}");
    }
    assert_eq!(directory.names(), ["out", "text.bench", "wrong.bench"]);
}

/// The writing end of a pipe, once somebody reads; the process that should read must not end before.
fn writing_end(pipe: &Path, reader: &mut Child) -> File {
    const O_NONBLOCK: i32 = 0o4000; // an open that does not wait, on Linux
    loop {
        match OpenOptions::new().write(true).custom_flags(O_NONBLOCK).open(pipe) {
            Ok(end) => return end,
            Err(_) => assert_eq!(reader.try_wait().expect("a process"), None, "it ended and read nothing"),
        }
        thread::sleep(Duration::from_millis(5));
    }
}

/// How a process ends. One that goes on for a minute is stopped, so that the tests end too.
fn end_of(process: &mut Child) -> ExitStatus {
    for _ in 0..6000 {
        match process.try_wait().expect("a process") {
            Some(status) => return status,
            None => thread::sleep(Duration::from_millis(10)),
        }
    }
    process.kill().expect("a process");
    panic!("it goes on");
}

/// While it waits for its text nothing stands there yet that was not there before. A signal ends it, and what stood there stands there.
#[test]
fn signals() {
    for (number, signal) in [(1, "HUP"), (2, "INT"), (3, "QUIT"), (15, "TERM")] {
        let directory = Directory::new(signal);
        let (pipe, out) = (directory.0.join("text"), directory.write("out", OLD));
        assert!(make("mkfifo", &[], &pipe));
        // signals that whoever runs the tests ignores are heard again
        let mut command = Command::new("env");
        command.arg(format!("--default-signal={signal}")).arg(COMMAND).args(words(&[&pipe, &out]));
        let mut process = command.stdout(Stdio::null()).stderr(Stdio::null()).spawn().expect("it starts");
        let mut text = writing_end(&pipe, &mut process);
        text.write_all(b"INPUT(a)").expect("it reads");
        assert_eq!(directory.names(), ["out", "text"], "{signal}");
        let id = process.id().to_string();
        assert!(Command::new("sh").args(["-c", "kill -s \"$1\" \"$2\"", "sh", signal, &id]).status().expect("it starts").success());
        assert_eq!(end_of(&mut process).signal(), Some(number), "{signal}");
        assert_eq!(directory.names(), ["out", "text"], "{signal}");
        assert_eq!(fs::read(&out).expect("a file"), OLD);
        assert_eq!(text.write(b"INPUT(a)").expect_err("nobody reads").kind(), ErrorKind::BrokenPipe);
    }
}

/// The new file, which stands there while its report waits to be read, has a name that nobody could know, and nobody else can read it.
#[test]
fn the_new_file() {
    let directory = Directory::new("new");
    let (file, out) = (directory.write("text.bench", c17()), directory.write("out", OLD));
    let mut numbers = vec![];
    for _ in 0..2 {
        let (mut reads, writes) = full_pipe();
        let mut process = Command::new(COMMAND).args(words(&[&file, &out])).stdout(writes).spawn().expect("it starts");
        let new = loop {
            match directory.names().into_iter().find(|name| name.starts_with('.')) {
                Some(new) if fs::read(directory.0.join(&new)).is_ok_and(|bytes| !bytes.is_empty()) => break new,
                _ => assert_eq!(process.try_wait().expect("a process"), None, "it ended and waited for nobody"),
            }
            assert_eq!(fs::read(&out).expect("a file"), OLD, "nobody has read the report yet");
            thread::sleep(Duration::from_millis(5));
        };
        assert_eq!((mode(&directory.0.join(&new)), fs::read(&out).expect("a file")), (0o600, OLD.to_vec()));
        assert!(has_records(&directory.0.join(&new)));
        let number = new.strip_prefix(".ullimaqsu.").filter(|number| number.len() == 16).expect("16 digits");
        numbers.push(u64::from_str_radix(number, 16).expect("a number"));
        let mut printed = vec![];
        reads.read_to_end(&mut printed).expect("a pipe");
        assert!(printed.ends_with(COUNTS.as_bytes()));
        assert!(end_of(&mut process).success() && has_records(&out));
        fs::write(&out, OLD).expect("a file");
    }
    // what counts, such as the time or the number of a process, has the same upper half twice
    assert_ne!(numbers[0] >> 32, numbers[1] >> 32);
    assert_eq!(directory.names(), ["out", "text.bench"]);
}
