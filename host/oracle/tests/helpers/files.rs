//! The files of a directory.

use std::{
    fs, io,
    path::{Path, PathBuf},
};

/// All files in a directory and in those below it, by their paths.
pub fn files_under(directory: &Path) -> io::Result<Vec<PathBuf>> {
    let mut files = Vec::new();
    for entry in fs::read_dir(directory)? {
        let path = entry?.path();
        if path.is_dir() {
            files.extend(files_under(&path)?);
        } else {
            files.push(path);
        }
    }
    files.sort();
    Ok(files)
}
