//! Why a command ends without what it was asked for.

use super::{json::Json, outcome::Outcome, text::shown, told};
use splitter::{Explanation, Refusal};
use std::{
    fmt::Display,
    io::{self, Write},
    path::{Path, PathBuf},
    process::ExitCode,
};

/// Why a command ends without what it was asked for.
#[derive(Debug)]
pub enum Failure {
    /// The words cannot be followed; a sentence says what to do.
    Words(String),
    /// A table is refused, a root, or a store.
    Refused(Box<Refused>),
    /// Some tables of several are refused, which were shown: how many, and what to do.
    SomeRefused(Vec<String>),
    /// A file that cannot be read or written, or is none that is known, as a sentence.
    File(String),
    /// What must read alike does not.
    Differs(String),
    /// Standard output takes no more.
    Output(io::Error),
}

/// What is refused, and why.
#[derive(Debug)]
pub struct Refused {
    /// The file.
    file: Option<PathBuf>,
    what: What,
    refusal: Refusal,
    explanation: Explanation,
}

/// What is refused.
#[derive(Clone, Copy, Debug)]
pub enum What {
    /// The whole store.
    Store,
    /// A table, by its number.
    Table(u32),
    /// A root, by its number.
    Root(u32),
}

impl From<u32> for What {
    fn from(table: u32) -> Self {
        Self::Table(table)
    }
}

impl Failure {
    /// A refusal of a table, of a root or of a store.
    pub fn refused(what: impl Into<What>, refusal: Refusal, explanation: Explanation) -> Self {
        Self::Refused(Box::new(Refused {
            file: None,
            what: what.into(),
            refusal,
            explanation,
        }))
    }

    /// The same, of a file.
    pub fn at(mut self, path: &Path) -> Self {
        if let Self::Refused(refused) = &mut self {
            refused.file = Some(path.into());
        }
        self
    }

    /// What happened, in a word.
    pub const fn outcome(&self) -> Outcome {
        match self {
            Self::Words(_) => Outcome::BadUsage,
            Self::Refused(_) | Self::SomeRefused(_) => Outcome::Refused,
            Self::File(_) | Self::Output(_) => Outcome::BadFile,
            Self::Differs(_) => Outcome::Differs,
        }
    }

    /// What happened, in sentences.
    pub fn sentences(&self) -> Vec<String> {
        match self {
            Self::Refused(refused) => refused.sentences(),
            Self::SomeRefused(sentences) => sentences.clone(),
            Self::Words(sentence) | Self::File(sentence) | Self::Differs(sentence) => {
                vec![sentence.clone()]
            }
            Self::Output(error) => vec![format!("standard output cannot be written: {error}")],
        }
    }

    /// What is told of it as JSON, beside its sentences.
    pub fn told(&self) -> Json {
        match self {
            Self::Refused(refused) => told::refused(refused.refusal, &refused.explanation),
            _ => Json::Null,
        }
    }

    /// Says so on standard error, and gives the exit code.
    pub fn tell(&self) -> ExitCode {
        for sentence in self.sentences() {
            // Standard error may be closed: there is nobody to tell then.
            let _ = writeln!(io::stderr(), "splitter: {sentence}");
        }
        self.outcome().exit_code()
    }
}

impl Refused {
    fn sentences(&self) -> Vec<String> {
        let refused = refusal_in_words(self.what, self.refusal, &self.explanation);
        let refused = match &self.file {
            Some(file) => format!("{}: {refused}", shown(file)),
            None => refused,
        };
        vec![refused, advice(self.refusal)]
    }
}

/// A refusal, with its number and its name, and what is at fault.
pub fn refusal_in_words(
    what: impl Into<What>,
    refusal: Refusal,
    explanation: &Explanation,
) -> String {
    let what = match what.into() {
        What::Store => "its store".into(),
        What::Table(table) => format!("table {table}"),
        What::Root(root) => format!("root {root}"),
    };
    let why: &dyn Display = match explanation.refusal() == Some(refusal) {
        true => explanation,
        false => &refusal,
    };
    format!(
        "{what} is refused by {} ({refusal:?}): {why}",
        refusal.number()
    )
}

/// What a refusal means, and what to do.
pub fn advice(refusal: Refusal) -> String {
    format!("{refusal:?}: {refusal}")
}
