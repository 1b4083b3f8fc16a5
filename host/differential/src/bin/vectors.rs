//! Writes the stored answers that the Rattle program `vectors` replays, and what it then writes.

use std::{fs, path::Path};

fn main() {
    let sample = differential::vectors::sample().unwrap_or_else(|reason| panic!("{reason}"));
    let crate_dir = Path::new(env!("CARGO_MANIFEST_DIR")).join("../../crates/vectors");
    for (name, text) in [("stdin", &sample.input), ("stdout", &sample.output)] {
        fs::write(crate_dir.join(name), text).expect("crates/vectors can be written");
    }
    print!("{} bytes\n{}", sample.input.len(), sample.output);
    println!("pairs: {}\nmarks: {}", sample.tally, sample.mark_tally);
    let [found, with_device] = sample.pairs_found;
    println!("stored pairs found {found}, with a device {with_device}");
    println!("stored attachments found {}", sample.attachments_found);
}
