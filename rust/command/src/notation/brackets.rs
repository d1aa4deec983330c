//! What stands between brackets.
use super::Spelling;
use crate::kind::Kind;

#[derive(Clone, Copy, PartialEq, Eq)]
pub enum Brackets {
    /// Of INPUT and OUTPUT.
    Name,
    OneSource,
    TwoSources,
    /// Two or more.
    Sources,
}

use Brackets::*;

impl Brackets {
    pub fn of(kind: Kind, spelling: Spelling) -> Brackets {
        match (kind.pins(), spelling) {
            (1, _) => OneSource,
            (_, Spelling::Strict | Spelling::Clocked) => TwoSources,
            (_, Spelling::Wide) => Sources,
        }
    }

    /// Whether a comma may follow, after so many names.
    pub fn go_on(self, count: usize) -> bool {
        match self {
            Name | OneSource => false,
            TwoSources => count < 2,
            Sources => true,
        }
    }

    /// Whether they may be closed, after so many names.
    pub fn close(self, count: usize) -> bool {
        match self {
            Name | OneSource => true,
            TwoSources | Sources => count >= 2,
        }
    }

    /// What must follow after so many names.
    pub fn then(self, count: usize) -> &'static str {
        match (self.go_on(count), self.close(count)) {
            (true, true) => "`,` or `)`",
            (true, false) => "`,`",
            _ => "`)`",
        }
    }

    /// What the last of so many names is called.
    pub fn called(self, count: usize) -> String {
        match (self, count) {
            (Name, _) => "the name in".to_string(),
            (OneSource, _) => "the only source of".to_string(),
            (TwoSources, 1) => "the first of the two sources of".to_string(),
            (TwoSources, _) => "the second of the two sources of".to_string(),
            (Sources, 1) => "the first of the two or more sources of".to_string(),
            (Sources, _) => format!("source {count} of"),
        }
    }
}
