//! Files that are read, and files that are written whole or not at all.

mod whole;

pub use whole::write;

use super::{
    arguments::Output,
    failure::{Failure, What},
    screen::Screen,
    text::{counted, shown},
};
use splitter::{
    explain,
    font::FontTables,
    store_file::{FileError, RawFile, StoreFile},
    Refusal,
};
use std::{
    fs::{self, File},
    io::{self, Read},
    path::Path,
};

/// No store file is longer: its store would be past the maxima.
const LONGEST_STORE: u64 = 1 << 25;

/// No longer font is read.
const LONGEST_FONT: u64 = 1 << 30;

const A_FONT: &str =
    "it is a font and not a store file: \"splitter font\" looks into it, and with \
                      -o DIR writes its tables as store files";

/// Reads a store file whose store is sound.
pub fn read_store(path: &Path) -> Result<StoreFile, Failure> {
    let file = read_raw(path)?;
    if !file.view().is_sound() {
        let why = explain(file.view(), 0);
        return Err(Failure::refused(What::Store, Refusal::Unsound, why).at(path));
    }
    file.into_file().map_err(|error| about(path, error))
}

/// Reads a store file, whether or not its store is sound.
pub fn read_raw(path: &Path) -> Result<RawFile, Failure> {
    let bytes = read(path, LONGEST_STORE)?;
    RawFile::from_bytes(&bytes).map_err(|error| match error {
        FileError::NotAStoreFile if FontTables::read(&bytes).is_ok() => about(path, A_FONT),
        error => about(path, error),
    })
}

/// Reads the bytes of a font.
pub fn read_font(path: &Path) -> Result<Vec<u8>, Failure> {
    read(path, LONGEST_FONT)
}

/// Whether a name is that of standard input or output.
pub fn is_standard(path: &Path) -> bool {
    path == Path::new("-")
}

/// Where to write: over the file that is read only where that was asked for.
pub fn output<'a>(input: &'a Path, output: &'a Output) -> Result<&'a Path, Failure> {
    let output = match output {
        Output::InPlace => return Ok(input),
        Output::File(output) => output,
    };
    match (fs::canonicalize(input), fs::canonicalize(output)) {
        (Ok(input), Ok(same)) if input == same => Err(Failure::Words(format!(
            "{} is the file that is read: give another behind -o, or say --in-place to write over it",
            shown(output)
        ))),
        _ => Ok(output),
    }
}

/// Writes a store file whole or not at all; `-` is standard output. What was held back is said then. Gives the
/// bytes of the file.
pub fn write_store(path: &Path, file: &StoreFile, screen: &mut Screen) -> Result<usize, Failure> {
    let bytes = file.to_bytes();
    match is_standard(path) {
        true => screen.bytes(&bytes),
        false => write(path, &bytes),
    }?;
    screen.release()?;
    screen.line("")?;
    let written = counted(bytes.len(), "byte");
    screen.line(&format!("Wrote {} ({written}).", shown(path)))?;
    Ok(bytes.len())
}

fn read(path: &Path, longest: u64) -> Result<Vec<u8>, Failure> {
    let read = match is_standard(path) {
        true => read_at_most(io::stdin().lock(), None, longest),
        false => File::open(path).and_then(|file| {
            let size = file.metadata().ok().filter(|it| it.is_file());
            read_at_most(file, size.map(|it| it.len()), longest)
        }),
    };
    match read.map_err(|error| about(path, reason(&error)))? {
        Some(bytes) => Ok(bytes),
        None => Err(about(
            path,
            format!("it is longer than {longest} bytes, and such files are not read"),
        )),
    }
}

/// All bytes of a file, unless there are too many. One whose size is known is not read then.
fn read_at_most(file: impl Read, size: Option<u64>, longest: u64) -> io::Result<Option<Vec<u8>>> {
    if size.is_some_and(|size| size > longest) {
        return Ok(None);
    }
    let mut bytes = Vec::with_capacity(size.unwrap_or(0) as usize);
    file.take(longest + 1).read_to_end(&mut bytes)?;
    Ok((bytes.len() as u64 <= longest).then_some(bytes))
}

/// A failure that has to do with a file.
pub fn about(path: &Path, sentence: impl std::fmt::Display) -> Failure {
    Failure::File(format!("{}: {sentence}", shown(path)))
}

/// What went wrong, in words.
fn reason(error: &io::Error) -> String {
    match error.kind() {
        io::ErrorKind::NotFound => "there is no such file or directory".into(),
        io::ErrorKind::PermissionDenied => "it may not be opened or written by you".into(),
        io::ErrorKind::IsADirectory => "it is a directory, and a file is wanted".into(),
        _ => error.to_string(),
    }
}
