//! Says where the archive is that is released: the one that the library links.

use std::env;

fn main() {
    println!("cargo::rerun-if-changed=build.rs");
    // A build that was given its archive says nothing of it.
    if let Ok(archive) = env::var("DEP_SPLITTER_ARCHIVE") {
        println!("cargo::rustc-env=SPLITTER_ARCHIVE={archive}");
    }
}
