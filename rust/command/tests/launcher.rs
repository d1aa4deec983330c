//! `./ullimaqsu`, the script in the repository: what it builds, and when. Nothing is proved or built here: `rt`, `cargo` and the script that
//! makes the library only note that they were called, and leave what they would make.
mod harness;

use harness::{root, run, Directory, Said};
use std::fs::{self, File, Permissions};
use std::os::unix::fs::{symlink, PermissionsExt};
use std::path::Path;
use std::process::Command;
use std::sync::{Mutex, MutexGuard, PoisonError};
use std::time::{Duration, SystemTime};

/// A file of each sort that something is made of.
const LIBRARY: [&str; 6] =
    ["crates/entries/src/lib.rt", "crates/dictionary/src/lib.rt", "crates.txt", ".ci/archive", ".ci/compile", ".ci/native"];
const PROGRAM: [&str; 7] = [
    "rust/src/lib.rs",
    "rust/build.rs",
    "rust/Cargo.toml",
    "rust/Cargo.lock",
    "rust/command/src/main.rs",
    "rust/command/Cargo.toml",
    "include/ullimaqsu.h",
];

const ARCHIVE: &str = "cd crates/entries && rt lib\n";
const NATIVE: &str = "echo native >>\"$NOTES\"\necho compiler >build/native/compiler\necho library >build/native/libentries.a\n";
const RT: &str = "#!/bin/sh\necho \"rt $*\" >>\"$NOTES\"\nmkdir -p out\necho $$ >out/libentries.a\nexit \"${RT_ENDS:-0}\"\n";
const CARGO: &str = "#!/bin/sh\necho \"cargo $1 $ULLIMAQSU_ARCHIVE\" >>\"$NOTES\"\nmkdir -p rust/target/native/release
printf '#!/bin/sh\\necho \"program $*\"\\n' >rust/target/native/release/ullimaqsu\nchmod +x rust/target/native/release/ullimaqsu\n";

const PROVING: &str = "ullimaqsu: proving and building the program; this happens once and takes some minutes\n";
const BUILDING: &str = "ullimaqsu: building the program; this happens once\n";

/// A repository with nothing in it but names. There is one at a time: a process that another test starts holds a script open that was just
/// written, for a moment, and then nobody can run it.
struct Repository(Directory, #[allow(dead_code)] MutexGuard<'static, ()>);

static ALONE: Mutex<()> = Mutex::new(());

impl Repository {
    fn new(name: &str) -> Repository {
        let alone = ALONE.lock().unwrap_or_else(PoisonError::into_inner);
        let directory = Directory::new(name);
        for file in LIBRARY.iter().chain(&PROGRAM) {
            fs::create_dir_all(directory.path(file).parent().expect("a directory")).expect("a directory");
            directory.write(file, "old");
        }
        directory.write(".ci/archive", ARCHIVE);
        directory.write(".ci/native", NATIVE);
        fs::copy(root().join("ullimaqsu"), directory.path("ullimaqsu")).expect("the script");
        fs::create_dir(directory.path("bin")).expect("a directory");
        for (tool, does) in [("rt", RT), ("cargo", CARGO)] {
            let path = directory.write(&format!("bin/{tool}"), does);
            fs::set_permissions(path, Permissions::from_mode(0o755)).expect("a mode");
        }
        let repository = Repository(directory, alone);
        repository.age();
        repository
    }

    /// All that stands there is an hour old.
    fn age(&self) {
        let hour_ago = SystemTime::now() - Duration::from_secs(3600);
        for file in LIBRARY.iter().chain(&PROGRAM) {
            self.0.path(file).ancestors().take_while(|path| *path != self.0 .0).for_each(|path| touch(path, hour_ago));
        }
    }

    fn command(&self, script: &Path) -> Command {
        let mut command = Command::new(script);
        let path = format!("{}:{}", self.0.path("bin").display(), std::env::var("PATH").expect("a path"));
        command.args(["check", "a b"]).env("PATH", path).env("NOTES", self.0.path("notes"));
        command
    }

    /// What is said, and which tools were called.
    fn asked(&self, command: &mut Command) -> (Said, Vec<String>) {
        self.0.write("notes", "");
        let said = run(command);
        (said, self.0.read("notes").lines().map(str::to_string).collect())
    }

    fn called(&self) -> (Said, Vec<String>) {
        self.asked(&mut self.command(&self.0.path("ullimaqsu")))
    }
}

fn touch(path: &Path, time: SystemTime) {
    File::open(path).and_then(|file| file.set_modified(time)).expect("a time");
}

/// The program has run with its words, after this was said of building it.
fn ran(before: &str) -> Said {
    (Some(0), "program check a b\n".to_string(), before.to_string())
}

const ALL: [&str; 3] = ["rt lib", "native", "cargo build compiler"];

#[test]
fn everything_is_built_once() {
    let repository = Repository::new("built once");
    assert_eq!(repository.called(), (ran(PROVING), ALL.map(String::from).to_vec()));
    assert_eq!(repository.called(), (ran(""), vec![]));
    // and then neither is needed
    fs::remove_dir_all(repository.0.path("bin")).expect("the tools");
    assert_eq!(repository.called(), (ran(""), vec![]));
}

/// The script is found through links, and works from everywhere.
#[test]
fn links() {
    let (repository, elsewhere) = (Repository::new("linked\n"), Directory::new("elsewhere"));
    let (near, far) = (elsewhere.path("near"), elsewhere.path("far"));
    symlink(repository.0.path("ullimaqsu"), &far).expect("a link");
    symlink("far", &near).expect("a link");
    assert_eq!(repository.asked(repository.command(&near).current_dir(&elsewhere.0)).0, ran(PROVING));
    assert_eq!(elsewhere.names(), ["far", "near"]);
    let mut command = Command::new("sh");
    command.args(["-c", "../ullimaqsu check 'a b'"]).current_dir(repository.0.path("rust")).env("NOTES", repository.0.path("notes"));
    assert_eq!(repository.asked(&mut command), (ran(""), vec![]));
}

#[test]
fn what_is_newer() {
    let repository = Repository::new("newer");
    repository.called();
    for file in PROGRAM {
        touch(&repository.0.path(file), SystemTime::now());
        assert_eq!(repository.called(), (ran(BUILDING), vec![ALL[2].to_string()]), "{file}");
        assert_eq!(repository.called(), (ran(""), vec![]), "{file}");
    }
    for file in LIBRARY {
        // touched alone: its bytes are compared, and nothing is proved again
        touch(&repository.0.path(file), SystemTime::now());
        assert_eq!(repository.called(), (ran(""), vec![]), "{file}");
        // changed
        let bytes = repository.0.read(file) + "\n";
        repository.0.write(file, bytes);
        assert_eq!(repository.called(), (ran(PROVING), ALL.map(String::from).to_vec()), "{file}");
        assert_eq!(repository.called(), (ran(""), vec![]), "{file}");
    }
    // a file that is new, and one that is gone
    let new = repository.0.write("crates/dictionary/src/more.rt", "more");
    assert_eq!(repository.called().1, ALL);
    fs::remove_file(new).expect("a file");
    assert_eq!(repository.called().1, ALL);
    // another library was put there by hand, or the same once more
    repository.0.write("build/native/libentries.a", "another library");
    assert_eq!(repository.called().1, ALL);
    repository.0.write("build/native/libentries.a", "library\n");
    assert_eq!(repository.called(), (ran(BUILDING), vec![ALL[2].to_string()]));
    // what was made is gone
    fs::remove_file(repository.0.path("build/native/libentries.a")).expect("a file");
    assert_eq!(repository.called().1, ALL);
    fs::remove_file(repository.0.path("rust/target/native/release/ullimaqsu")).expect("a file");
    assert_eq!(repository.called(), (ran(BUILDING), vec![ALL[2].to_string()]));
}

/// One line says what is missing or where to read on, and the next try begins anew.
#[test]
fn what_fails() {
    let repository = Repository::new("failing");
    let stopped = |said: Said, before: &str, why: &str| assert_eq!(said, (Some(2), String::new(), format!("{before}ullimaqsu: {why}\n")));
    let folder = repository.0 .0.canonicalize().expect("a directory");
    let log = format!("the program was not proved or built; {} says why", folder.join("build/program.log").display());
    let script = repository.0.path("ullimaqsu");
    for _ in 0..2 {
        let (said, called) = repository.asked(repository.command(&script).env("RT_ENDS", "1"));
        stopped(said, PROVING, &log);
        assert_eq!(called, ALL[..1]);
    }
    assert_eq!(repository.called(), (ran(PROVING), ALL.map(String::from).to_vec()));
    // a library that is not proved any more is not used either
    repository.0.write("crates.txt", "new");
    for _ in 0..2 {
        stopped(repository.asked(repository.command(&script).env("RT_ENDS", "1")).0, PROVING, &log);
    }
    let without = |tool: &str| {
        let room = Directory::new("tools");
        for tool in ["sh", "readlink", "find", "head", "sha256sum", "sort", "cat", "mkdir", "touch", "rm", "tr"] {
            let from = String::from_utf8(Command::new("sh").args(["-c", &format!("command -v {tool}")]).output().expect("sh").stdout)
                .expect("text");
            symlink(from.trim(), room.path(tool)).expect("a link");
        }
        for other in ["rt", "cargo"].into_iter().filter(|other| *other != tool) {
            symlink(repository.0.path(&format!("bin/{other}")), room.path(other)).expect("a link");
        }
        run(repository.command(&script).env("PATH", &room.0))
    };
    stopped(without("rt"), "", "the Rattle kit is missing: there is no command rt in PATH");
    stopped(without("cargo"), "", "Rust is missing: there is no command cargo in PATH");
}

/// The commands that are there in the repository alone say what they take, and nothing is built for that or for what they do not understand.
#[test]
fn own_commands() {
    let repository = Repository::new("own");
    let asked = |words: &[&str]| {
        let mut command = Command::new(repository.0.path("ullimaqsu"));
        repository.asked(command.args(words).current_dir(&repository.0 .0).env("NOTES", repository.0.path("notes")))
    };
    let before = repository.0.names();
    for name in ["install", "test", "benchmark"] {
        let helps = [[name, "--help"], [name, "-h"], ["help", name], ["--help", name]].map(|words| asked(&words));
        let ((status, says, error), called) = &helps[0];
        assert_eq!((*status, error.as_str(), called.len()), (Some(0), "", 0), "{name}");
        let shown = [format!("ullimaqsu {name}"), format!("\nExample: ./ullimaqsu {name}")];
        assert!(says.starts_with(&shown[0]) && says.contains(&shown[1]), "{says}");
        assert!(helps.iter().all(|help| help == &helps[0]), "{helps:?}");
    }
    for words in [&["install"][..], &["install", "a", "b"], &["install", "-x"], &["test", "x"], &["benchmark", "x", "y"]] {
        let ((status, says, error), called) = asked(words);
        assert_eq!((status, says.as_str(), error.lines().count(), called.len()), (Some(2), "", 1, 0), "{words:?}: {error}");
        assert!(error.starts_with(&format!("ullimaqsu: {} ", words[0])), "{error}");
    }
    fs::remove_file(repository.0.path("notes")).expect("notes");
    assert_eq!(repository.0.names(), before);
}

/// A closed standard output is told before anything is done.
#[test]
fn closed_streams() {
    let repository = Repository::new("closed");
    repository.called();
    let closed = |before: &str| {
        let mut command = Command::new("sh");
        command.args(["-c", &format!("exec {before}; exec \"$@\""), "sh"]).arg(repository.0.path("ullimaqsu")).args(["check", "a b"]);
        run(command.env("NOTES", repository.0.path("notes")))
    };
    assert_eq!(closed(">&-"), (Some(2), String::new(), "ullimaqsu: standard output is closed\n".to_string()));
    assert_eq!(closed("2>&-"), ran(""));
    assert_eq!(closed("<&-"), ran(""));
}
