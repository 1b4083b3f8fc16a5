//! What came of a command: its exit code, and its word in JSON.

use std::process::ExitCode;

/// What came of a command.
#[derive(Clone, Copy, Debug, PartialEq, Eq)]
pub enum Outcome {
    /// It is done; of a plan, there is nothing to split.
    Done,
    /// Nothing was split, since nothing is too large.
    NothingToSplit,
    /// Something would be split.
    WouldBeCut,
    /// Something was split.
    Split,
    /// A table or a store is refused.
    Refused,
    /// The words cannot be followed.
    BadUsage,
    /// A file cannot be read or written, or is none that is known.
    BadFile,
    /// What must read alike does not.
    Differs,
}

impl Outcome {
    /// The exit code.
    pub fn exit_code(self) -> ExitCode {
        ExitCode::from(self.number())
    }

    /// Its number.
    pub const fn number(self) -> u8 {
        match self {
            Self::Done | Self::NothingToSplit | Self::Split => 0,
            Self::Refused => 1,
            Self::BadUsage => 2,
            Self::BadFile => 3,
            Self::WouldBeCut => 4,
            Self::Differs => 5,
        }
    }

    /// Its word.
    pub const fn word(self) -> &'static str {
        match self {
            Self::Done => "done",
            Self::NothingToSplit => "nothing to split",
            Self::WouldBeCut => "would be cut",
            Self::Split => "split",
            Self::Refused => "refused",
            Self::BadUsage => "bad usage",
            Self::BadFile => "bad file",
            Self::Differs => "reads otherwise",
        }
    }

    /// What came of a plan.
    pub const fn of_plan(any_refused: bool, any_cut: bool) -> Self {
        match (any_refused, any_cut) {
            (true, _) => Self::Refused,
            (false, true) => Self::WouldBeCut,
            (false, false) => Self::NothingToSplit,
        }
    }
}
