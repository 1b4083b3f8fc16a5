//! What the words ask for.

mod name;
mod words;

pub use name::Name;

use super::{failure::Failure, files::is_standard, screen::Form, text::shown_word};
use splitter::Edition;
use std::{
    ffi::{OsStr, OsString},
    path::{Path, PathBuf},
};
use words::Words;

/// What the words ask for.
#[derive(Debug, PartialEq, Eq)]
pub enum Request {
    /// Split the samples and show what comes of it.
    Sample(Sample),
    /// Show where tables would be cut.
    Plan(Plan),
    /// Split tables.
    Split(Split),
    /// Drop what is not needed.
    Compact(Compact),
    /// Read a pair.
    Pair(Pair),
    /// Read an attachment.
    Mark(Mark),
    /// Show what is in a store.
    Dump(Dump),
    /// Look into a font.
    Font(Font),
    /// Say how the command is used, or one of its commands.
    Help(Option<Name>),
    /// Say which version this is.
    Version,
}

/// What `sample` is asked for.
#[derive(Debug, PartialEq, Eq)]
pub struct Sample {
    /// The sample; without one, all of them.
    pub which: Option<Which>,
    /// By which edition it is cut.
    pub edition: Edition,
    /// Where the samples are written, in place of being split.
    pub directory: Option<PathBuf>,
    /// Whether bars are drawn in ASCII.
    pub ascii: bool,
}

/// A sample.
#[derive(Clone, Copy, Debug, PartialEq, Eq)]
pub enum Which {
    /// Pairs, format 1.
    Sets,
    /// Pairs, format 2.
    Rows,
    /// Marks on bases.
    Marks,
    /// Pairs, format 1, in a lookup.
    Lookups,
}

/// What `plan` is asked for.
#[derive(Debug, PartialEq, Eq)]
pub struct Plan {
    /// The store file.
    pub file: PathBuf,
    /// The table; without one, those that the file lists.
    pub table: Option<u32>,
    /// By which edition they are cut.
    pub edition: Edition,
    /// Whether tables are mark-to-base, whatever the file says.
    pub marks: bool,
    /// Whether long lists are shown whole.
    pub all: bool,
    /// Whether bars are drawn in ASCII.
    pub ascii: bool,
    /// What is written to standard output.
    pub form: Form,
}

/// What `split` is asked for.
#[derive(Debug, PartialEq, Eq)]
pub struct Split {
    /// The store file, what of it, and how it is shown.
    pub plan: Plan,
    /// The file that is written. It is the store file itself only where that was asked for.
    pub output: Output,
    /// Whether all pairs or attachments are read before and after.
    pub check: bool,
    /// Whether what the tables do not lead to is dropped afterwards.
    pub compact: bool,
}

/// What `compact` is asked for.
#[derive(Debug, PartialEq, Eq)]
pub struct Compact {
    /// The store file.
    pub file: PathBuf,
    /// The roots, beside the tables that the file lists.
    pub roots: Vec<u32>,
    /// The file that is written. It is the store file itself only where that was asked for.
    pub output: Output,
    /// Whether long lists are shown whole.
    pub all: bool,
    /// What is written to standard output.
    pub form: Form,
}

/// Where a store goes.
#[derive(Debug, PartialEq, Eq)]
pub enum Output {
    /// To another file, or to standard output.
    File(PathBuf),
    /// To the file that it came from.
    InPlace,
}

/// What `pair` is asked for.
#[derive(Debug, PartialEq, Eq)]
pub struct Pair {
    /// The store file.
    pub file: PathBuf,
    /// The table; without one, those that the file lists, in order.
    pub table: Option<u32>,
    /// The first glyph and the second.
    pub glyphs: [u16; 2],
    /// What is written to standard output.
    pub form: Form,
}

/// What `mark` is asked for.
#[derive(Debug, PartialEq, Eq)]
pub struct Mark {
    /// The store file.
    pub file: PathBuf,
    /// The table; without one, those that the file lists, in order.
    pub table: Option<u32>,
    /// The mark's glyph.
    pub mark: u16,
    /// The base's glyph.
    pub base: u16,
    /// What is written to standard output.
    pub form: Form,
}

/// What `dump` is asked for.
#[derive(Debug, PartialEq, Eq)]
pub struct Dump {
    /// The store file.
    pub file: PathBuf,
    /// The object; without one, all of them.
    pub object: Option<u32>,
    /// Whether tables are mark-to-base, whatever the file says.
    pub marks: bool,
    /// Whether long lists are shown whole.
    pub all: bool,
    /// What is written to standard output.
    pub form: Form,
}

/// What `font` is asked for.
#[derive(Debug, PartialEq, Eq)]
pub struct Font {
    /// The font file.
    pub file: PathBuf,
    /// By which edition its tables would be cut.
    pub edition: Edition,
    /// Where its tables are written as store files.
    pub directory: Option<PathBuf>,
    /// What is written to standard output.
    pub form: Form,
}

impl Output {
    /// What is left for standard output where this was asked for. A store that goes there has it for itself.
    fn leaves(&self, form: Form) -> Form {
        match self {
            Self::File(file) if is_standard(file) => Form::Quiet,
            _ => form,
        }
    }
}

impl Request {
    /// What is written to standard output.
    pub fn form(&self) -> Form {
        match self {
            Self::Split(request) => request.output.leaves(request.plan.form),
            Self::Compact(request) => request.output.leaves(request.form),
            Self::Plan(request) => request.form,
            Self::Pair(request) => request.form,
            Self::Mark(request) => request.form,
            Self::Dump(request) => request.form,
            Self::Font(request) => request.form,
            Self::Sample(_) | Self::Help(_) | Self::Version => Form::Text,
        }
    }

    /// The file that it reads.
    pub fn file(&self) -> Option<&Path> {
        match self {
            Self::Plan(request) => Some(&request.file),
            Self::Split(request) => Some(&request.plan.file),
            Self::Compact(request) => Some(&request.file),
            Self::Pair(request) => Some(&request.file),
            Self::Mark(request) => Some(&request.file),
            Self::Dump(request) => Some(&request.file),
            Self::Font(request) => Some(&request.file),
            Self::Sample(_) | Self::Help(_) | Self::Version => None,
        }
    }

    /// The command's name.
    pub const fn name(&self) -> Option<Name> {
        match self {
            Self::Sample(_) => Some(Name::Sample),
            Self::Plan(_) => Some(Name::Plan),
            Self::Split(_) => Some(Name::Split),
            Self::Compact(_) => Some(Name::Compact),
            Self::Pair(_) => Some(Name::Pair),
            Self::Mark(_) => Some(Name::Mark),
            Self::Dump(_) => Some(Name::Dump),
            Self::Font(_) => Some(Name::Font),
            Self::Help(_) | Self::Version => None,
        }
    }
}

/// What the words ask for. No words ask for the sample.
pub fn read(words: impl IntoIterator<Item = OsString>) -> Result<Request, Failure> {
    let mut words = words.into_iter();
    let Some(first) = words.next() else {
        return read_command(Name::Sample, words);
    };
    match first.to_str() {
        Some("-h" | "--help") => Ok(Request::Help(None)),
        Some("-V" | "--version") => Ok(Request::Version),
        _ => read_command(Name::of(&first)?, words),
    }
}

fn read_command(name: Name, words: impl Iterator<Item = OsString>) -> Result<Request, Failure> {
    let mut words = Words::sort(name, words)?;
    if words.has("--help") {
        return Ok(Request::Help(Some(name)));
    }
    let request = match name {
        Name::Sample => Request::Sample(sample(&mut words)?),
        Name::Plan => Request::Plan(plan(&mut words)?),
        Name::Split => Request::Split(split(&mut words)?),
        Name::Compact => Request::Compact(compact(&mut words)?),
        Name::Pair => Request::Pair(pair(&mut words)?),
        Name::Mark => Request::Mark(mark(&mut words)?),
        Name::Dump => Request::Dump(dump(&mut words)?),
        Name::Font => Request::Font(Font {
            file: words.operand("FILE")?.into(),
            edition: words.edition()?,
            directory: words.value("--output").map(PathBuf::from),
            form: words.form()?,
        }),
        Name::Help => Request::Help(topic(&mut words)?),
    };
    words.end()?;
    Ok(request)
}

fn sample(words: &mut Words) -> Result<Sample, Failure> {
    Ok(Sample {
        which: words
            .optional()
            .map(|word| which(words, &word))
            .transpose()?,
        edition: words.edition()?,
        directory: words.value("--output").map(PathBuf::from),
        ascii: words.has("--ascii"),
    })
}

fn which(words: &Words, word: &OsStr) -> Result<Which, Failure> {
    match word.to_str() {
        Some("sets") => Ok(Which::Sets),
        Some("rows") => Ok(Which::Rows),
        Some("marks") => Ok(Which::Marks),
        Some("lookups") => Ok(Which::Lookups),
        _ => {
            let word = shown_word(word);
            let has = "has sets, rows, marks and lookups";
            Err(words.failure(&format!("{has}, and no \"{word}\"")))
        }
    }
}

fn plan(words: &mut Words) -> Result<Plan, Failure> {
    Ok(Plan {
        file: words.operand("FILE")?.into(),
        table: words.optional_number("TABLE")?,
        edition: words.edition()?,
        marks: words.has("--marks"),
        all: words.has("--all"),
        ascii: words.has("--ascii"),
        form: words.form()?,
    })
}

fn split(words: &mut Words) -> Result<Split, Failure> {
    let plan = plan(words)?;
    Ok(Split {
        output: output(words, &plan.file, plan.form)?,
        plan,
        check: words.has("--check"),
        compact: words.has("--compact"),
    })
}

fn compact(words: &mut Words) -> Result<Compact, Failure> {
    let (file, form) = (PathBuf::from(words.operand("FILE")?), words.form()?);
    Ok(Compact {
        roots: words.numbers("--root", "ROOT")?,
        output: output(words, &file, form)?,
        all: words.has("--all"),
        file,
        form,
    })
}

fn output(words: &mut Words, file: &Path, form: Form) -> Result<Output, Failure> {
    match (words.value("--output"), words.has("--in-place")) {
        (Some(file), false) if is_standard(file.as_ref()) && form == Form::Json => {
            Err(words.failure("writes the store or JSON to standard output, not both"))
        }
        (Some(file), false) => Ok(Output::File(file.into())),
        (None, true) if is_standard(file) => {
            Err(words.failure("cannot write over standard input: add -o FILE"))
        }
        (None, true) => Ok(Output::InPlace),
        (None, false) => Err(words.failure("wants to know where to write: add -o FILE")),
        (Some(_), true) => Err(words.failure("takes -o FILE or --in-place, not both")),
    }
}

/// The table that is read from, if there are more words than the two glyphs.
fn table_read(words: &mut Words) -> Result<Option<u32>, Failure> {
    match words.count() {
        0..=2 => Ok(None),
        _ => words.number("TABLE").map(Some),
    }
}

fn pair(words: &mut Words) -> Result<Pair, Failure> {
    Ok(Pair {
        file: words.operand("FILE")?.into(),
        table: table_read(words)?,
        glyphs: [words.number("G1")?, words.number("G2")?],
        form: words.form()?,
    })
}

fn mark(words: &mut Words) -> Result<Mark, Failure> {
    Ok(Mark {
        file: words.operand("FILE")?.into(),
        table: table_read(words)?,
        mark: words.number("MARK")?,
        base: words.number("BASE")?,
        form: words.form()?,
    })
}

fn dump(words: &mut Words) -> Result<Dump, Failure> {
    Ok(Dump {
        file: words.operand("FILE")?.into(),
        object: words.optional_number("OBJECT")?,
        marks: words.has("--marks"),
        all: words.has("--all"),
        form: words.form()?,
    })
}

fn topic(words: &mut Words) -> Result<Option<Name>, Failure> {
    words.optional().map(|word| Name::of(&word)).transpose()
}

#[cfg(test)]
mod tests;
