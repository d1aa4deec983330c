//! Sessions at a half adder, which can be followed by hand.
use crate::harness::{fed, Directory, Said};
use std::path::PathBuf;

/// A half adder with its faults, four patterns that are kept, and two that are dropped: 3 and 5.
pub struct Half {
    pub directory: Directory,
}

impl Half {
    pub fn new(name: &str) -> Half {
        let directory = Directory::new(name);
        directory.write("circuit", "INPUT(a)\nINPUT(b)\nOUTPUT(sum)\nOUTPUT(carry)\nsum = XOR(a, b)\ncarry = AND(a, b)\n");
        directory.write("faults", "a/0\na/1\nb/0\nb/1\nsum/0\nsum/1\ncarry/0\ncarry/1\n");
        directory.write("patterns", "10\n00\n01\n00\n11\n0X\n");
        Half { directory }
    }

    /// An AND gate in its place, with these faults and patterns.
    pub fn gate(name: &str, faults: &str, patterns: &str) -> Half {
        let directory = Directory::new(name);
        directory.write("circuit", "INPUT(x)\nINPUT(y)\nOUTPUT(o)\no = AND(x, y)\n");
        directory.write("faults", faults);
        directory.write("patterns", patterns);
        Half { directory }
    }

    pub fn words(&self, more: &[&str]) -> Vec<PathBuf> {
        let files = ["circuit", "faults", "patterns"].map(|name| self.directory.path(name));
        [PathBuf::from("suspects")].into_iter().chain(files).chain(more.iter().map(PathBuf::from)).collect()
    }

    /// What is said to these reports.
    pub fn told(&self, reports: impl AsRef<[u8]>) -> Said {
        fed(&self.words(&[]), reports)
    }

    /// What is printed where nothing is wrong.
    pub fn printed(&self, reports: &str) -> String {
        let (status, printed, said) = self.told(reports);
        assert_eq!((status, said.as_str()), (Some(0), ""), "{reports}");
        printed
    }
}

/// Before the first report.
pub const BEGIN: &str = "\
8 faults remain: a/0 a/1 b/0 b/1 sum/0 sum/1 carry/0 carry/1
try pattern 0 (10): 4 remain if it fails, 4 if it passes
";

pub const FAILED_0: &str = "\
pattern 0 failed, 4 faults remain: a/0 b/1 sum/0 carry/1
try pattern 1 (00): 2 remain if it fails, 2 if it passes
";
