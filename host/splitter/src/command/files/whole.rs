//! Files that are written whole or not at all.

use super::{about, reason};
use crate::command::failure::Failure;
use std::{
    ffi::OsString,
    fs::{self, OpenOptions},
    io::{self, Write},
    path::{Path, PathBuf},
    process,
};

/// Writes a file: under another name beside it first, which then takes its place.
///
/// Where that fails, what was there before is still there, and nothing else is.
pub fn write(path: &Path, bytes: &[u8]) -> Result<(), Failure> {
    // What a link leads to is written, and the link stays.
    let target = fs::canonicalize(path).unwrap_or_else(|_| path.to_path_buf());
    if fs::metadata(&target).is_ok_and(|metadata| !metadata.is_file()) {
        return Err(about(
            path,
            "it is there, and it is no file to be written over",
        ));
    }
    let Some(beside) = name_beside(&target) else {
        return Err(about(path, "it is no name for a file"));
    };
    let written = write_new(&beside, &target, bytes).and_then(|()| fs::rename(&beside, &target));
    written.map_err(|error| {
        if error.kind() != io::ErrorKind::AlreadyExists {
            let _ = fs::remove_file(&beside);
        }
        about(path, format!("it cannot be written: {}", reason(&error)))
    })
}

/// A name in the same directory, of this process alone.
fn name_beside(path: &Path) -> Option<PathBuf> {
    let mut name = OsString::from(".");
    name.push(path.file_name()?);
    name.push(format!(".{}", process::id()));
    Some(path.with_file_name(name))
}

/// Writes a file that is not there yet, for whom the old one was.
fn write_new(path: &Path, old: &Path, bytes: &[u8]) -> io::Result<()> {
    let mut file = OpenOptions::new().write(true).create_new(true).open(path)?;
    if let Ok(metadata) = fs::metadata(old) {
        file.set_permissions(metadata.permissions())?;
    }
    file.write_all(bytes)?;
    file.sync_all()
}

#[cfg(test)]
mod tests {
    use super::*;
    use std::env;

    /// A directory of a test's own, which goes with it.
    struct Directory(PathBuf);

    impl Directory {
        fn new(name: &str) -> Self {
            let path = env::temp_dir().join(format!("splitter-{name}-{}", process::id()));
            fs::create_dir_all(&path).unwrap();
            Self(path)
        }

        fn names(&self) -> Vec<OsString> {
            let entries = fs::read_dir(&self.0).unwrap();
            let mut names: Vec<_> = entries.map(|entry| entry.unwrap().file_name()).collect();
            names.sort();
            names
        }
    }

    impl Drop for Directory {
        fn drop(&mut self) {
            let _ = fs::remove_dir_all(&self.0);
        }
    }

    #[test]
    fn new_and_over() {
        let directory = Directory::new("new");
        let path = directory.0.join("file");
        for bytes in [&b"one"[..], b"", b"and two"] {
            write(&path, bytes).unwrap();
            assert_eq!(fs::read(&path).unwrap(), bytes);
            assert_eq!(directory.names(), ["file"]);
        }
    }

    /// A directory stays what it is, and so does what a link leads from.
    #[test]
    fn not_files() {
        let directory = Directory::new("not");
        fs::create_dir(directory.0.join("inner")).unwrap();
        for name in ["inner", "missing/file", ".."] {
            assert!(write(&directory.0.join(name), b"x").is_err(), "{name}");
        }
        assert!(write(Path::new("/dev/null"), b"x").is_err());
        assert_eq!(directory.names(), ["inner"]);
    }

    #[cfg(unix)]
    #[test]
    fn links_stay() {
        let directory = Directory::new("link");
        let [file, link] = ["file", "link"].map(|name| directory.0.join(name));
        write(&file, b"old").unwrap();
        std::os::unix::fs::symlink("file", &link).unwrap();
        write(&link, b"new").unwrap();
        assert!(fs::symlink_metadata(&link).unwrap().is_symlink());
        assert_eq!(fs::read(&file).unwrap(), b"new");
        assert_eq!(directory.names(), ["file", "link"]);
    }
}
