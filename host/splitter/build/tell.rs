//! What the build says: how far it is, and why it fails.

use std::{
    fmt::Display,
    fs::{self, File, OpenOptions},
    io::Write,
    os::unix::{fs::FileTypeExt, process::parent_id},
    process::exit,
};

/// Where the build says how far it is.
///
/// Cargo keeps to itself what a build script writes. So this is written to cargo's own standard error,
/// where that is a terminal or a pipe; elsewhere to that of the script, which `cargo build -vv` shows.
pub struct Teller {
    of_cargo: Option<File>,
    /// What cargo draws at the foot of a terminal gives way to a line, and is drawn again.
    start: &'static str,
}

impl Teller {
    pub fn new() -> Self {
        let path = format!("/proc/{}/fd/2", parent_id());
        let kind = fs::metadata(&path).map(|it| it.file_type());
        let is_terminal = kind.as_ref().is_ok_and(FileTypeExt::is_char_device);
        let is_pipe = kind.as_ref().is_ok_and(FileTypeExt::is_fifo);
        let open = || OpenOptions::new().write(true).open(&path).ok();
        Self {
            of_cargo: (is_terminal || is_pipe).then(open).flatten(),
            start: if is_terminal { "\r\x1b[K" } else { "" },
        }
    }

    /// Says a line, in cargo's columns.
    pub fn say(&mut self, verb: &str, what: &str) {
        let line = format!("{verb:>12} {what}");
        match &mut self.of_cargo {
            Some(file) => drop(writeln!(file, "{}{line}", self.start)),
            None => eprintln!("{line}"),
        }
    }
}

/// A result, or the end of the build.
pub fn done<T, E: Display>(result: Result<T, E>, what: &str) -> T {
    result.unwrap_or_else(|error| fail(&format!("{what}: {error}")))
}

/// Ends the build.
pub fn fail(reason: &str) -> ! {
    eprintln!("splitter: {reason}");
    exit(1)
}
