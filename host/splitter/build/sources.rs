//! The sources of what is proved.

use crate::{sha256::hex_digest, tell::done};
use std::{
    collections::{BTreeMap, BTreeSet},
    fs, io,
    path::{Path, PathBuf},
};

/// The folders of a crate that are proved. What `rt` makes of them stands beside them.
const FOLDERS: [&str; 3] = ["src", "specs", "proofs"];

/// A crate and all that it needs: their files, by their paths below the top, and the list that names them.
pub struct Sources {
    crates: BTreeSet<String>,
    files: BTreeMap<PathBuf, Vec<u8>>,
}

impl Sources {
    pub fn read(root: &Path, wanted: &str) -> Self {
        let list = done(fs::read_to_string(root.join("crates.txt")), "crates.txt");
        let crates = crates_of(&list, wanted);
        let mut paths = Vec::new();
        for name in &crates {
            for folder in folders_of(name) {
                done(files_of(root, &folder, &mut paths), "reading the sources");
            }
        }
        let read = |path: PathBuf| {
            let bytes = done(fs::read(root.join(&path)), "reading the sources");
            (path, bytes)
        };
        let mut files: BTreeMap<_, _> = paths.into_iter().map(read).collect();
        // `rt` wants each crate that is listed to be there.
        files.insert("crates.txt".into(), lines_of(&list, &crates).into_bytes());
        Self { crates, files }
    }

    /// How many crates they are.
    pub fn crates(&self) -> usize {
        self.crates.len()
    }

    /// The digest of all of them.
    pub fn digest(&self) -> String {
        let mut all = Vec::new();
        for (path, bytes) in &self.files {
            all.extend(format!("{} {}\n", path.display(), bytes.len()).bytes());
            all.extend(bytes);
        }
        hex_digest(&all)
    }

    pub fn copy_to(&self, folder: &Path) {
        for (path, bytes) in &self.files {
            let path = folder.join(path);
            let parent = path.parent().unwrap_or(folder);
            done(fs::create_dir_all(parent), "copying the sources");
            done(fs::write(&path, bytes), "copying the sources");
        }
    }
}

/// Has cargo look at the sources of all crates: of what `rt` makes beside them nothing is built.
pub fn watch(root: &Path) {
    let list = root.join("crates.txt");
    println!("cargo::rerun-if-changed={}", list.display());
    let list = done(fs::read_to_string(list), "crates.txt");
    let folders = rows(&list).flat_map(|(name, _)| folders_of(name));
    for folder in folders.map(|folder| root.join(folder)) {
        if folder.is_dir() {
            println!("cargo::rerun-if-changed={}", folder.display());
        }
    }
}

fn folders_of(name: &str) -> [PathBuf; 3] {
    FOLDERS.map(|folder| Path::new("crates").join(name).join(folder))
}

/// The files of a folder that may not be there, by their paths below the top.
fn files_of(top: &Path, folder: &Path, files: &mut Vec<PathBuf>) -> io::Result<()> {
    if !top.join(folder).is_dir() {
        return Ok(());
    }
    for entry in fs::read_dir(top.join(folder))? {
        let path = folder.join(entry?.file_name());
        match top.join(&path).is_dir() {
            true => files_of(top, &path, files)?,
            false => files.push(path),
        }
    }
    Ok(())
}

/// A crate and all that it needs.
fn crates_of(list: &str, wanted: &str) -> BTreeSet<String> {
    let mut found = BTreeSet::new();
    let mut next = vec![wanted];
    while let Some(name) = next.pop() {
        if found.insert(name.to_string()) {
            next.extend(needs_of(list, name));
        }
    }
    found
}

/// What a crate needs itself, of the crates that are listed.
fn needs_of<'a>(list: &'a str, name: &str) -> Vec<&'a str> {
    let is_listed = |need: &&str| rows(list).any(|(listed, _)| listed == *need);
    let row = rows(list).find(|(listed, _)| *listed == name);
    let needs = row.map_or("", |(_, row)| row.split_once(':').map_or("", |it| it.1));
    needs.split_whitespace().filter(is_listed).collect()
}

/// The list of some crates alone.
fn lines_of(list: &str, crates: &BTreeSet<String>) -> String {
    let rows = rows(list).filter(|(name, _)| crates.contains(*name));
    rows.map(|(_, row)| format!("{row}\n")).collect()
}

/// The crates that are listed, each with its row: `NAME: DEP DEP ..`, or `NAME staticlib: DEP DEP ..`.
fn rows(list: &str) -> impl Iterator<Item = (&str, &str)> {
    let rows = list.lines().filter_map(|line| line.split('#').next());
    rows.filter_map(|row| {
        let name = row.split([':', ' ']).find(|word| !word.is_empty())?;
        Some((name, row.trim()))
    })
}
