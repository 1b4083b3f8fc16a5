//! Proves the functions that are exported, and links the archive that has them.
//!
//! What is proved is a copy, which is gone afterwards; what was linked stays in cargo's own output folder.
//! So the repository may be read-only, and nothing that happens to it changes what is proved or linked.
//! Where nothing has changed since, nothing is proved, and where another profile's archive was made of the
//! same sources by the same kit, that one is taken. `rt` itself takes what it has proved elsewhere on this
//! machine, as by the repository's own `rt check`.

mod commit;
mod kit;
mod others;
mod proof;
mod sha256;
mod sources;
mod tell;

use kit::Kit;
use sources::Sources;
use std::{
    env,
    fs::{self, File},
    io::ErrorKind,
    path::{Path, PathBuf},
};
use tell::{done, fail};

/// The crate that exports the functions.
const CRATE: &str = "splitter_c";
const ARCHIVE: &str = "libsplitter.a";

/// In the output folder: which kit made the archive, and of which sources.
const MADE_OF: &str = "made-of";

fn main() {
    let root = root();
    sources::watch(&root);
    println!("cargo::rerun-if-changed={}", root.join(kit::PIN).display());
    ensure_target();
    let out = PathBuf::from(variable("OUT_DIR"));
    let kit = Kit::find();
    kit.hold_to(&root.join(kit::PIN));
    let archive = out.join(ARCHIVE);
    make(&root, &out, &kit, &archive);

    let digest = sha256::hex_digest(&done(fs::read(&archive), "reading the archive"));
    println!("cargo::rustc-env=SPLITTER_KIT={}", kit.identity);
    println!("cargo::rustc-env=SPLITTER_SHA256={digest}");
    commit::tell(&root);
    // For tests in other languages, and for a release.
    println!("cargo::rustc-env=SPLITTER_ARCHIVE={}", archive.display());
    println!("cargo::metadata=archive={}", archive.display());
    println!("cargo::rustc-link-search=native={}", out.display());
    println!("cargo::rustc-link-lib=static=splitter");
}

/// The top of the repository, where `crates.txt` stands.
fn root() -> PathBuf {
    let root = Path::new(&variable("CARGO_MANIFEST_DIR")).join("../..");
    match root.canonicalize() {
        Ok(root) if root.join("crates.txt").is_file() => root,
        _ => fail(&format!("{} has no crates.txt", root.display())),
    }
}

/// Archives are for one machine alone.
fn ensure_target() {
    let target = variable("TARGET");
    if !target.starts_with("x86_64-") || !target.contains("-linux-") {
        fail(&format!(
            "the archive is for x86-64 Linux, and cannot be linked for {target}"
        ));
    }
}

/// Makes the archive, unless there is one of the same sources by the same kit.
fn make(root: &Path, out: &Path, kit: &Kit, archive: &Path) {
    let sources = Sources::read(root, CRATE);
    let made_of = format!("{}\n{}\n", kit.identity, sources.digest());
    if others::is_made(out, &made_of) {
        return;
    }
    remove(&out.join(MADE_OF));
    // Builds of two profiles take turns: the second takes the archive of the first.
    let turn = File::open(root.join("crates.txt"));
    let turn = turn.and_then(|file| file.lock().map(|()| file));
    match others::archive(out, &made_of) {
        Some(other) => drop(done(fs::copy(other, archive), "copying the archive")),
        None => proof::prove(&sources, kit, archive).unwrap_or_else(|reason| fail(&reason)),
    }
    let kept = fs::write(out.join(MADE_OF), &made_of);
    done(kept, "keeping what the archive is made of");
    drop(turn);
}

/// Removes a file, if it is there.
fn remove(path: &Path) {
    if let Err(error) = fs::remove_file(path) {
        if error.kind() != ErrorKind::NotFound {
            fail(&format!("{}: {error}", path.display()));
        }
    }
}

fn variable(name: &str) -> String {
    done(env::var(name), name)
}
