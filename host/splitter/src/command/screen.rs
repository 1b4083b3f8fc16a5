//! Standard output, and how it may look.

use super::{failure::Failure, json::Json};
use std::{
    env,
    io::{self, BufWriter, IsTerminal, StdoutLock, Write},
};

/// Standard output. A reader that went away has seen what it wanted, and the work goes on.
pub struct Screen {
    out: BufWriter<StdoutLock<'static>>,
    is_closed: bool,
    form: Form,
    /// What is said once the work is done.
    held: Option<String>,
    /// Whether the JSON was written.
    has_json: bool,
    /// How it may look.
    pub style: Style,
}

/// What is written to standard output.
#[derive(Clone, Copy, Debug, Default, PartialEq, Eq)]
pub enum Form {
    /// Text, for people.
    #[default]
    Text,
    /// JSON, for programs.
    Json,
    /// Nothing.
    Quiet,
}

/// How output may look.
#[derive(Clone, Copy, Debug, Default, PartialEq, Eq)]
pub struct Style {
    /// Whether it may hold more than ASCII.
    pub unicode: bool,
    /// Whether it may be coloured.
    pub colour: bool,
}

impl Screen {
    /// Standard output, as it may look here.
    pub fn new(form: Form) -> Self {
        Self {
            out: BufWriter::new(io::stdout().lock()),
            is_closed: false,
            form,
            held: None,
            has_json: false,
            style: Style::of_environment(),
        }
    }

    /// Writes text as it is.
    pub fn text(&mut self, text: &str) -> Result<(), Failure> {
        match (self.form, &mut self.held) {
            (Form::Text, None) => self.bytes(text.as_bytes()),
            (Form::Text, Some(held)) => {
                held.push_str(text);
                Ok(())
            }
            (Form::Json | Form::Quiet, _) => Ok(()),
        }
    }

    /// Writes JSON, once, where that is asked for.
    pub fn json(&mut self, value: &Json) -> Result<(), Failure> {
        match self.form == Form::Json && !self.has_json {
            true => {
                self.has_json = true;
                self.bytes(format!("{value}\n").as_bytes())
            }
            false => Ok(()),
        }
    }

    /// Writes bytes, whatever else is asked for.
    pub fn bytes(&mut self, bytes: &[u8]) -> Result<(), Failure> {
        match self.is_closed {
            true => Ok(()),
            false => {
                let written = self.out.write_all(bytes);
                self.settle(written)
            }
        }
    }

    /// Keeps text to itself until it is released.
    pub fn hold(&mut self) {
        self.held = Some(String::new());
    }

    /// Writes what it has kept.
    pub fn release(&mut self) -> Result<(), Failure> {
        let held = self.held.take();
        self.text(&held.unwrap_or_default())
    }

    /// Writes a line.
    pub fn line(&mut self, line: &str) -> Result<(), Failure> {
        self.text(line.trim_end())?;
        self.text("\n")
    }

    /// Writes lines.
    pub fn lines<'a>(
        &mut self,
        lines: impl IntoIterator<Item = &'a String>,
    ) -> Result<(), Failure> {
        lines.into_iter().try_for_each(|line| self.line(line))
    }

    /// Writes a line that stands out.
    pub fn heading(&mut self, line: &str) -> Result<(), Failure> {
        let line = self.style.paint("1", line);
        self.line(&line)
    }

    /// Shows what was written so far.
    pub fn flush(&mut self) -> Result<(), Failure> {
        match self.is_closed {
            true => Ok(()),
            false => {
                let flushed = self.out.flush();
                self.settle(flushed)
            }
        }
    }

    fn settle(&mut self, result: io::Result<()>) -> Result<(), Failure> {
        match result {
            Err(error) if error.kind() == io::ErrorKind::BrokenPipe => {
                self.is_closed = true;
                Ok(())
            }
            result => result.map_err(Failure::Output),
        }
    }
}

impl Style {
    /// What the locale, `NO_COLOR`, `TERM` and a terminal allow.
    fn of_environment() -> Self {
        let is_set = |name: &str| env::var_os(name).filter(|value| !value.is_empty());
        let locale = ["LC_ALL", "LC_CTYPE", "LANG"].into_iter().find_map(is_set);
        let locale = locale.unwrap_or_default().to_string_lossy().to_lowercase();
        let dumb = is_set("TERM").is_none_or(|term| term == "dumb");
        Self {
            unicode: locale.ends_with("utf-8") || locale.ends_with("utf8"),
            colour: io::stdout().is_terminal() && is_set("NO_COLOR").is_none() && !dumb,
        }
    }

    /// Text in a colour or weight, by its number.
    pub fn paint(self, code: &str, text: &str) -> String {
        match self.colour && !text.is_empty() {
            true => format!("\x1b[{code}m{text}\x1b[0m"),
            false => text.into(),
        }
    }
}
