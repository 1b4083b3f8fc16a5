//! The commit that is built, for `splitter --version`.

use std::{env, path::Path, process::Command};

/// What goes into the command, below the top. The crates' sources are looked at anyway.
const SOURCES: [&str; 5] = [
    "crates",
    "crates.txt",
    "host/include",
    "host/splitter",
    "host/Cargo.toml",
];

/// Tells the commit to the compiler, and that there are changes to it. Other profiles than release have
/// none, so that a commit alone compiles nothing again.
pub fn tell(root: &Path) {
    if env::var("PROFILE").as_deref() != Ok("release") {
        return;
    }
    let git = |words: &[&str]| {
        let output = Command::new("git").arg("-C").arg(root).args(words).output();
        let output = output.ok().filter(|output| output.status.success())?;
        let said = String::from_utf8(output.stdout).ok()?;
        Some(said.trim().to_string())
    };
    let Some(commit) = git(&["rev-parse", "HEAD"]) else {
        return;
    };
    let watched = ["HEAD", "logs/HEAD"].map(|file| git(&["rev-parse", "--git-path", file]));
    for file in watched.into_iter().flatten() {
        println!("cargo::rerun-if-changed={}", root.join(file).display());
    }
    for path in SOURCES.into_iter().filter(|path| *path != "crates") {
        println!("cargo::rerun-if-changed={}", root.join(path).display());
    }
    let changes = git(&[&["status", "--porcelain", "--"][..], &SOURCES].concat());
    let changed = match changes.is_none_or(|changes| !changes.is_empty()) {
        true => ", with changes",
        false => "",
    };
    println!("cargo::rustc-env=SPLITTER_COMMIT={commit}{changed}");
}
