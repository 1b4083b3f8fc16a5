//! Archives that are there already.

use crate::{ARCHIVE, MADE_OF};
use std::{
    fs,
    path::{Path, PathBuf},
};

/// The archive of another profile's build that was made of the same.
pub fn archive(out: &Path, made_of: &str) -> Option<PathBuf> {
    let mut others = other_builds(out).into_iter();
    let other = others.find(|other| is_made(other, made_of))?;
    Some(other.join(ARCHIVE))
}

/// Whether an output folder has an archive that was made of this.
pub fn is_made(out: &Path, made_of: &str) -> bool {
    let kept = fs::read_to_string(out.join(MADE_OF));
    kept.is_ok_and(|kept| kept == made_of) && out.join(ARCHIVE).is_file()
}

/// The output folders of other builds: `PROFILE/build/splitter-HASH/out` of cargo's folder.
fn other_builds(out: &Path) -> Vec<PathBuf> {
    let Some(top) = out.ancestors().nth(4) else {
        return Vec::new();
    };
    let profiles = children(top).into_iter();
    let builds = profiles.flat_map(|profile| children(&profile.join("build")));
    let others = builds.map(|build| build.join("out"));
    others.filter(|other| other != out).collect()
}

fn children(folder: &Path) -> Vec<PathBuf> {
    let entries = fs::read_dir(folder).into_iter().flatten();
    entries
        .filter_map(|entry| Some(entry.ok()?.path()))
        .collect()
}
