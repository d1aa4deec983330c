//! `./ullimaqsu` and what it says.
use cases::directory::root;
pub use cases::said::run;
use cases::said::Said;
use std::ffi::OsStr;
use std::path::PathBuf;
use std::process::Command;
use std::sync::Once;

/// The command line. What it runs is built where something is newer, once and before anything is compared, since it says so.
pub fn script() -> PathBuf {
    static BUILT: Once = Once::new();
    let script = root().join("ullimaqsu");
    BUILT.call_once(|| assert_eq!(run(Command::new(&script).arg("dictionary").arg(root().join("examples/a"))).0, Some(0)));
    script
}

pub fn ullimaqsu<W: AsRef<OsStr>>(words: &[W]) -> Said {
    run(Command::new(script()).args(words))
}
