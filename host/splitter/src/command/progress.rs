//! How far long work is, where somebody looks on.

use std::{
    io::{self, IsTerminal, Write},
    time::{Duration, Instant},
};

/// Work that is done soon is not spoken of.
const PAUSE: Duration = Duration::from_millis(200);

/// How far some work is, on standard error, if that is a terminal.
pub struct Progress {
    what: &'static str,
    is_terminal: bool,
    next: Instant,
    shown: bool,
}

impl Progress {
    /// Starts some work.
    pub fn new(what: &'static str) -> Self {
        Self {
            what,
            is_terminal: io::stderr().is_terminal(),
            next: Instant::now() + PAUSE,
            shown: false,
        }
    }

    /// So much is done of so much.
    pub fn at(&mut self, done: u64, of: u64) {
        if self.is_terminal && Instant::now() >= self.next {
            let percent = 100 * done / of.max(1);
            self.show(&format!("\r{}: {percent} %\x1b[K", self.what));
            self.next = Instant::now() + PAUSE;
            self.shown = true;
        }
    }

    fn show(&self, text: &str) {
        let mut stderr = io::stderr();
        let _ = stderr.write_all(text.as_bytes());
        let _ = stderr.flush();
    }
}

impl Drop for Progress {
    /// Takes away what was shown.
    fn drop(&mut self) {
        if self.shown {
            self.show("\r\x1b[K");
        }
    }
}
