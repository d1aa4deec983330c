//! What is written takes its place as a whole, and else nothing does.
use crate::harness::{after, into_broken, into_full, run, selectors, ullimaqsu, Directory, Said};
use std::fs::{self, Permissions};
use std::os::unix::fs::{symlink, PermissionsExt};
use std::path::Path;

const TEXT: &[u8] = b"INPUT(up)\nOUTPUT(q)\nq = DFF(d)\nd = XOR(up, q)\n";
const OLD: &[u8] = b"records of old";
const COUNTS: &str = "lines 6, inputs 3, outputs 3\nsteps 2, lines a step 3, state lines 1\n";

#[test]
fn out() {
    let directory = Directory::new("out");
    let file = directory.write("text.bench", TEXT);
    let [unfold, two] = ["unfold", "2"].map(Path::new);
    // nothing is written where nothing is named
    assert_eq!(ullimaqsu(&[unfold, &file, two]), (Some(0), COUNTS.to_string(), String::new()));
    assert_eq!(directory.names(), ["text.bench"]);

    let out = directory.path("out");
    let writes = |to: &Path| assert_eq!(ullimaqsu(&[unfold, &file, two, to]), (Some(0), COUNTS.to_string(), String::new()));
    writes(&out);
    let records = fs::read(&out).expect("records");
    assert_eq!(ullimaqsu::check(&records).map(|counts| [counts.lines, counts.inputs, counts.outputs]), Ok([6, 3, 3]));
    // over what stands there, with its mode, also behind a link, and over selectors that are named
    fs::write(&out, OLD).and_then(|()| fs::set_permissions(&out, Permissions::from_mode(0o640))).expect("a file");
    symlink("out", directory.path("link")).expect("a link");
    writes(&directory.path("link"));
    assert_eq!((fs::read(&out).expect("records"), out.metadata().expect("a file").permissions().mode() & 0o777), (records.clone(), 0o640));
    fs::copy(selectors("circuit"), &out).expect("selectors");
    writes(&out);
    assert_eq!(fs::read(&out).expect("records"), records);
    assert_eq!(directory.names(), ["link", "out", "text.bench"]);
}

#[test]
fn nothing_is_lost() {
    let directory = Directory::new("lost");
    let file = directory.write("text.bench", TEXT);
    let wrong = directory.write("wrong.bench", b"q = DFF(");
    let out = directory.write("out", OLD);
    let [unfold, two, nine, lines] = ["unfold", "2", "9", "--lines"].map(Path::new);
    let stays = |said: Said, status: i32, about: &str| {
        assert_eq!((said.0, said.1.as_str()), (Some(status), ""), "{}", said.2);
        assert!(said.2.contains(about) && said.2.lines().count() == 1, "{}", said.2);
        assert_eq!((fs::read(&out).expect("a file"), fs::read(&file).expect("a text")), (OLD.to_vec(), TEXT.to_vec()));
    };
    stays(ullimaqsu(&[unfold, &wrong, two, &out]), 1, "there must be a name");
    stays(ullimaqsu(&[unfold, &file, nine, &out]), 1, "1 to 8 steps");
    stays(ullimaqsu(&[unfold, &file, two, &out, two]), 2, "--help");
    stays(ullimaqsu(&[unfold, &file, Path::new("x"), &out]), 2, "`x` is none");
    stays(ullimaqsu(&[unfold, &directory.path("absent"), two, &out]), 2, "there is no file");
    stays(ullimaqsu(&[unfold, &directory.0, two, &out]), 2, "is a directory");
    stays(ullimaqsu(&[unfold, &file, two, &file]), 2, "is one of the files that are read");
    stays(ullimaqsu(&[unfold, &file, two, &directory.0]), 2, "is a directory");
    stays(ullimaqsu(&[unfold, &file, two, &directory.path("absent/out")]), 2, "is missing or can't be entered");
    stays(ullimaqsu(&[unfold, &file, two, Path::new("")]), 2, "is empty");
    stays(ullimaqsu(&[unfold, &file, two, Path::new("/dev/null")]), 2, "is no regular file");
    stays(run(&mut after("trap '' XFSZ; ulimit -f 0", &[unfold, &file, two, &out])), 2, "could not be written");
    stays(into_full(&[unfold, &file, two, &out]), 2, "standard output could not be written");
    stays(into_full(&[unfold, &file, two, &out, lines]), 2, "standard output could not be written");
    assert_eq!(into_broken(&[unfold, &file, two, &out]), (Some(141), String::new(), String::new()));
    fs::set_permissions(&out, Permissions::from_mode(0o400)).expect("a mode");
    stays(ullimaqsu(&[unfold, &file, two, &out]), 2, "is write-protected");
    assert_eq!(directory.names(), ["out", "text.bench", "wrong.bench"]);
}

/// A text may come through a pipe.
#[test]
fn from_a_pipe() {
    let said = crate::harness::fed(&["unfold", "/dev/stdin", "2"], TEXT);
    assert_eq!(said, (Some(0), COUNTS.to_string(), String::new()));
}
