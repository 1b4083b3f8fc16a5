//! Writes a release folder: the archive, and all that a host needs that has no kit.
//!
//! ```text
//! release DIR            writes a release of the commit that is checked out, by the pinned kit
//! release --draft DIR    writes one of whatever is there, which says that it is a draft
//! ```
//!
//! | file | what |
//! |---|---|
//! | `lib/libsplitter.a` | the archive |
//! | `lib/pkgconfig/splitter.pc` | where it is, for pkg-config |
//! | `include/splitter.h` | the header for C and C++ |
//! | `cargo-config.toml` | what a build by cargo is told that links the archive, and has no kit |
//! | `RELEASE` | version, interface, kit and commit |
//! | `LICENSE-MIT`, `LICENSE-APACHE`, `NOTICE` | the licence |
//! | `SHA256SUMS` | the digests of all of these, as `sha256sum -c` reads them |

mod folder;
#[path = "../../splitter/build/sha256.rs"]
mod sha256;

use folder::Release;
use std::{env, path::Path, process::ExitCode};

fn main() -> ExitCode {
    let words: Vec<String> = env::args().skip(1).collect();
    let words: Vec<&str> = words.iter().map(String::as_str).collect();
    let written = match words[..] {
        [directory] if !directory.starts_with('-') => write(directory, false),
        ["--draft", directory] | [directory, "--draft"] => write(directory, true),
        _ => Err("release [--draft] DIR".into()),
    };
    match written {
        Ok(()) => ExitCode::SUCCESS,
        Err(reason) => {
            eprintln!("release: {reason}");
            ExitCode::FAILURE
        }
    }
}

fn write(directory: &str, is_draft: bool) -> Result<(), String> {
    let release = Release::new(is_draft)?;
    let files = release.write(Path::new(directory))?;
    println!("Wrote {files} files to {directory}:");
    print!("{}", release.record());
    Ok(())
}
