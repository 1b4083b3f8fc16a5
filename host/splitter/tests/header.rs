//! The header for C and C++, by a program that is compiled with it, linked with the archive and run.

use splitter::{raw, Link, LinkKind, Refusal, Room};
use std::{
    env, fs,
    path::{Path, PathBuf},
    process::Command,
};

const ARCHIVE: &str = env!("SPLITTER_ARCHIVE");

fn manifest(path: &str) -> PathBuf {
    Path::new(env!("CARGO_MANIFEST_DIR")).join(path)
}

/// Compiles calls of one kind in a language, with every warning an error, and runs them.
fn compile_and_run(kind: &str, language: &str) {
    let program = Path::new(env!("CARGO_TARGET_TMPDIR")).join(format!("{kind}-{language}"));
    let compiler = env::var("CC").unwrap_or("cc".into());
    let status = Command::new(&compiler)
        .args(["-Wall", "-Wextra", "-Wpedantic", "-Werror", "-O1", "-I"])
        .arg(manifest("../include"))
        .args(["-x", language])
        .arg(manifest(&format!("tests/c/{kind}.c")))
        .args(["-x", "none", ARCHIVE, "-o"])
        .arg(&program)
        .status();
    assert!(status.is_ok_and(|status| status.success()), "{compiler}");
    let output = Command::new(&program).output().unwrap();
    let said = String::from_utf8_lossy(&output.stderr);
    assert!(output.status.success(), "{}: {said}", output.status);
}

#[test]
fn pairs_in_c() {
    compile_and_run("pairs", "c");
}

#[test]
fn pairs_in_cpp() {
    compile_and_run("pairs", "c++");
}

#[test]
fn marks_in_c() {
    compile_and_run("marks", "c");
}

#[test]
fn marks_in_cpp() {
    compile_and_run("marks", "c++");
}

#[test]
fn lookups_in_c() {
    compile_and_run("lookups", "c");
}

#[test]
fn lookups_in_cpp() {
    compile_and_run("lookups", "c++");
}

#[test]
fn compaction_in_c() {
    compile_and_run("compaction", "c");
}

#[test]
fn compaction_in_cpp() {
    compile_and_run("compaction", "c++");
}

/// The header's numbers are the library's.
#[test]
fn numbers() {
    let header = fs::read_to_string(manifest("../include/splitter.h")).unwrap();
    let number = |name: &str| -> usize {
        let (_, rest) = header.split_once(&format!("SPLITTER_{name} = ")).unwrap();
        let digits = rest.split(|c: char| !c.is_ascii_digit()).next();
        digits.unwrap().parse().unwrap()
    };
    let version = format!("#define SPLITTER_INTERFACE {}\n", raw::INTERFACE);
    assert_eq!(header.matches(&version).count(), 1);
    for refusal in Refusal::ALL {
        let mut name = String::new();
        for letter in format!("{refusal:?}").chars() {
            if letter.is_uppercase() && !name.is_empty() {
                name.push('_');
            }
            name.push(letter.to_ascii_uppercase());
        }
        assert_eq!(number(&name), refusal.number() as usize);
    }
    assert_eq!(number("LINK_NUMBERS"), Link::NUMBERS);
    for (name, kind) in [
        ("OFFSET", LinkKind::Offset),
        ("ORDER_ONLY", LinkKind::OrderOnly),
    ] {
        assert_eq!(number(name), kind.number() as usize);
    }
    let most = ["MOST_DATA", "MOST_OBJECTS", "MOST_LINKS"].map(number);
    let Room {
        data,
        objects,
        links,
    } = Room::MOST;
    assert_eq!(most, [data, objects, links]);
    assert_eq!(number("WALK"), 2 * objects);
}
