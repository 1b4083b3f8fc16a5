//! The names of the commands.

use crate::command::{failure::Failure, text::shown_word};
use std::ffi::OsStr;

/// The options that may be there more than once.
pub const REPEATED: [&str; 1] = ["--root"];

/// A command.
#[derive(Clone, Copy, Debug, PartialEq, Eq)]
pub enum Name {
    /// `sample`
    Sample,
    /// `plan`
    Plan,
    /// `split`
    Split,
    /// `compact`
    Compact,
    /// `pair`
    Pair,
    /// `mark`
    Mark,
    /// `dump`
    Dump,
    /// `font`
    Font,
    /// `help`
    Help,
}

impl Name {
    const ALL: [Self; 9] = [
        Self::Sample,
        Self::Plan,
        Self::Split,
        Self::Compact,
        Self::Pair,
        Self::Mark,
        Self::Dump,
        Self::Font,
        Self::Help,
    ];

    /// As it is written.
    pub const fn word(self) -> &'static str {
        match self {
            Self::Sample => "sample",
            Self::Plan => "plan",
            Self::Split => "split",
            Self::Compact => "compact",
            Self::Pair => "pair",
            Self::Mark => "mark",
            Self::Dump => "dump",
            Self::Font => "font",
            Self::Help => "help",
        }
    }

    /// The options that it takes, each by its long name, and whether a value follows.
    pub const fn options(self) -> &'static [(&'static str, bool)] {
        match self {
            Self::Sample => &[("--edition", true), ("--output", true), ("--ascii", false)],
            Self::Plan => &[
                ("--edition", true),
                ("--marks", false),
                ("--all", false),
                ("--ascii", false),
                ("--json", false),
                ("--quiet", false),
            ],
            Self::Split => &[
                ("--edition", true),
                ("--output", true),
                ("--in-place", false),
                ("--check", false),
                ("--compact", false),
                ("--marks", false),
                ("--all", false),
                ("--ascii", false),
                ("--json", false),
                ("--quiet", false),
            ],
            Self::Compact => &[
                ("--root", true),
                ("--output", true),
                ("--in-place", false),
                ("--all", false),
                ("--json", false),
                ("--quiet", false),
            ],
            Self::Pair | Self::Mark => &[("--json", false), ("--quiet", false)],
            Self::Dump => &[
                ("--marks", false),
                ("--all", false),
                ("--json", false),
                ("--quiet", false),
            ],
            Self::Font => &[
                ("--edition", true),
                ("--output", true),
                ("--json", false),
                ("--quiet", false),
            ],
            Self::Help => &[],
        }
    }

    /// The command of a word.
    pub fn of(word: &OsStr) -> Result<Self, Failure> {
        let named = |name: &Self| word == name.word();
        Self::ALL.into_iter().find(named).ok_or_else(|| {
            let word = shown_word(word);
            let near = Self::ALL
                .into_iter()
                .find(|name| is_near(&word, name.word()));
            let hint = near.map(|name| format!("did you mean \"{}\"? ", name.word()));
            Failure::Words(format!(
                "there is no command \"{word}\": {}\"splitter help\" lists them all",
                hint.unwrap_or_default()
            ))
        })
    }
}

/// Whether a word is another with one letter added, left out or changed, or two swapped.
fn is_near(word: &str, name: &str) -> bool {
    let [mut word, mut name]: [Vec<char>; 2] = [word, name].map(|word| word.chars().collect());
    let same = |(a, b): &(&char, &char)| a.eq_ignore_ascii_case(b);
    let start = word.iter().zip(&name).take_while(same).count();
    word.drain(..start);
    name.drain(..start);
    let end = word.iter().rev().zip(name.iter().rev());
    let end = end.take_while(same).count();
    word.truncate(word.len() - end);
    name.truncate(name.len() - end);
    match (&word[..], &name[..]) {
        ([], [] | [_]) | ([_], [] | [_]) => true,
        ([a, b], [c, d]) => (a, b) == (d, c),
        _ => false,
    }
}

#[cfg(test)]
mod tests {
    use super::is_near;

    #[test]
    fn words_nearby() {
        for word in [
            "plan", "pla", "plann", "lan", "plam", "paln", "PLAN", "plna",
        ] {
            assert!(is_near(word, "plan"), "{word}");
        }
        for word in ["", "pl", "plaanns", "nalp", "font"] {
            assert!(!is_near(word, "plan"), "{word}");
        }
    }
}
