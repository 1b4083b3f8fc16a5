//! The command run as it is, and what came of it.

#![allow(dead_code, unused_macros)]

use splitter::{
    store_file::{StoreFile, Table},
    Refusal, Store,
};
use std::{
    ffi::OsStr,
    fs,
    path::{Path, PathBuf},
    process::{Command, Output},
};

/// A directory of a test's own, which goes with it.
pub struct Directory(pub PathBuf);

impl Directory {
    pub fn new(name: &str) -> Self {
        let path = Path::new(env!("CARGO_TARGET_TMPDIR")).join(name);
        let _ = fs::remove_dir_all(&path);
        fs::create_dir_all(&path).unwrap();
        Self(path)
    }

    pub fn file(&self, name: &str) -> PathBuf {
        self.0.join(name)
    }

    /// Writes a store file about some tables for pairs.
    pub fn store(&self, name: &str, store: Store, tables: &[u32]) -> PathBuf {
        self.store_of(name, store, pairs(tables))
    }

    /// Writes a store file about some tables.
    pub fn store_of(&self, name: &str, store: Store, tables: Vec<Table>) -> PathBuf {
        let path = self.file(name);
        let file = StoreFile::new(store, tables).unwrap();
        fs::write(&path, file.to_bytes()).unwrap();
        path
    }

    /// What was printed, with the files as they are named within.
    pub fn named_short(&self, text: &str) -> String {
        text.replace(&format!("{}/", self.0.display()), "")
    }

    pub fn names(&self) -> Vec<String> {
        let entries = fs::read_dir(&self.0).unwrap();
        let names = entries.map(|entry| entry.unwrap().file_name());
        let mut names: Vec<_> = names.map(|name| name.into_string().unwrap()).collect();
        names.sort();
        names
    }
}

impl Drop for Directory {
    fn drop(&mut self) {
        let _ = fs::remove_dir_all(&self.0);
    }
}

/// Tables for pairs.
pub fn pairs(numbers: &[u32]) -> Vec<Table> {
    numbers.iter().map(|&number| Table::pairs(number)).collect()
}

pub fn read_store(path: &Path) -> StoreFile {
    StoreFile::from_bytes(&fs::read(path).unwrap()).unwrap()
}

pub fn command(words: &[&OsStr]) -> Command {
    let mut command = Command::new(env!("CARGO_BIN_EXE_splitter"));
    command.args(words).env("LC_ALL", "C");
    command
}

/// What came of a run.
#[derive(Debug, PartialEq, Eq)]
pub struct Ran {
    pub code: Option<i32>,
    pub out: String,
    pub err: String,
}

impl Ran {
    pub fn of(mut command: Command) -> Self {
        let Output {
            status,
            stdout,
            stderr,
        } = command.output().unwrap();
        Self {
            code: status.code(),
            out: String::from_utf8(stdout).unwrap(),
            err: String::from_utf8(stderr).unwrap(),
        }
    }
}

/// Runs the command with words that may be paths.
macro_rules! run {
    ($($word:expr),*) => {
        $crate::run::Ran::of($crate::run::command(&[$(std::ffi::OsStr::new(&$word)),*]))
    };
}

/// It did what it was asked for, and said nothing on standard error.
#[track_caller]
pub fn done(ran: Ran) -> String {
    assert_eq!((ran.code, &ran.err[..]), (Some(0), ""));
    ran.out
}

/// It said that something would be cut.
#[track_caller]
pub fn would_cut(ran: Ran) -> String {
    assert_eq!((ran.code, &ran.err[..]), (Some(4), ""));
    ran.out
}

pub const REFUSED: i32 = 1;
pub const BAD_USAGE: i32 = 2;
pub const BAD_FILE: i32 = 3;

/// It ended with this code and one sentence, in which these words are.
#[track_caller]
pub fn failed(ran: Ran, code: i32, words: &str) {
    let err = ran.err.clone();
    failed_with(ran, code, &[words]);
    assert_eq!(err.lines().count(), 1, "{err}");
}

/// It ended with this code and sentences, in which these words are.
#[track_caller]
pub fn failed_with(ran: Ran, code: i32, words: &[&str]) {
    assert_eq!(ran.code, Some(code), "{ran:?}");
    assert!(ran.err.lines().all(|line| line.starts_with("splitter: ")));
    for words in words {
        assert!(ran.err.contains(words), "{}", ran.err);
    }
}

/// A refusal: what is at fault, and what to do.
#[track_caller]
pub fn refused(ran: Ran, refusal: Refusal, fault: &str) {
    assert_eq!(ran.err.lines().count(), 2, "{}", ran.err);
    let number = format!("refused by {} ({refusal:?}): {fault}\n", refusal.number());
    let advice = format!("splitter: {refusal:?}: {refusal}\n");
    failed_with(ran, REFUSED, &[&number, &advice]);
}

pub fn fits_the_terminal(text: &str) {
    for line in text.lines() {
        assert!(line.chars().count() <= 80, "{line}");
    }
}
