//! A release folder is whole, and a build that has it needs no kit.

#[path = "../../splitter/build/sha256.rs"]
mod sha256;

use std::{
    env,
    ffi::OsString,
    fs,
    path::{Path, PathBuf},
    process::{self, Command, Output},
    sync::OnceLock,
};

const FILES: [&str; 8] = [
    "lib/libsplitter.a",
    "lib/pkgconfig/splitter.pc",
    "include/splitter.h",
    "cargo-config.toml",
    "RELEASE",
    "LICENSE-MIT",
    "LICENSE-APACHE",
    "NOTICE",
];

/// A draft, written once for all tests.
fn folder() -> &'static Path {
    static FOLDER: OnceLock<PathBuf> = OnceLock::new();
    FOLDER.get_or_init(|| {
        let folder = Path::new(env!("CARGO_TARGET_TMPDIR")).join("release");
        let _ = fs::remove_dir_all(&folder);
        let output = release(&["--draft".as_ref(), folder.as_ref()]);
        assert!(output.status.success(), "{output:?}");
        folder
    })
}

fn release(words: &[&std::ffi::OsStr]) -> Output {
    Command::new(env!("CARGO_BIN_EXE_release"))
        .args(words)
        .output()
        .unwrap()
}

fn text(path: &str) -> String {
    fs::read_to_string(folder().join(path)).unwrap()
}

#[test]
fn all_files_are_there_with_their_digests() {
    let sums = text("SHA256SUMS");
    let lines: Vec<(&str, &str)> = sums.lines().filter_map(|it| it.split_once("  ")).collect();
    let names: Vec<&str> = lines.iter().map(|(_, name)| *name).collect();
    assert_eq!(names, FILES);
    for (digest, name) in lines {
        let bytes = fs::read(folder().join(name)).unwrap();
        assert_eq!(sha256::hex_digest(&bytes), digest, "{name}");
    }
    let record = text("RELEASE");
    let starts = [
        "version ",
        "interface 3",
        "kit ",
        "archive sha256 ",
        "commit ",
    ];
    for (line, start) in record.lines().zip(starts) {
        assert!(line.starts_with(start), "{line}");
    }
    assert!(record.lines().next().unwrap().ends_with("(draft)"));
    assert!(text("lib/pkgconfig/splitter.pc").contains("Libs: -L${libdir} -lsplitter"));
}

/// A folder with something in it is not written over, and a release is of a commit.
#[test]
fn what_is_not_released() {
    let again = release(&["--draft".as_ref(), folder().as_ref()]);
    assert!(String::from_utf8_lossy(&again.stderr).contains("is not empty"));
    let other = Path::new(env!("CARGO_TARGET_TMPDIR")).join("no-release");
    let ran = release(&[other.as_ref()]);
    if !ran.status.success() {
        let said = String::from_utf8_lossy(&ran.stderr);
        assert!(
            said.contains("commit") || said.contains("kit.txt"),
            "{said}"
        );
        assert!(!other.exists());
    }
    let _ = fs::remove_dir_all(&other);
    let usage = release(&["a".as_ref(), "b".as_ref()]);
    assert!(String::from_utf8_lossy(&usage.stderr).contains("release [--draft] DIR"));
}

/// A program in C, by nothing but the folder.
#[test]
fn a_host_in_c() {
    let program = Path::new(env!("CARGO_TARGET_TMPDIR")).join("host-in-c");
    let source = Path::new(env!("CARGO_MANIFEST_DIR")).join("../splitter/tests/c/pairs.c");
    let status = Command::new(env::var_os("CC").unwrap_or("cc".into()))
        .arg("-I")
        .arg(folder().join("include"))
        .arg(source)
        .arg("-L")
        .arg(folder().join("lib"))
        .args(["-lsplitter", "-o"])
        .arg(&program)
        .status();
    assert!(status.unwrap().success());
    assert!(Command::new(&program).status().unwrap().success());
}

/// The library and the command, built by cargo with the folder's configuration and no kit on the PATH.
#[test]
fn a_build_without_the_kit() {
    let target = Path::new(env!("CARGO_TARGET_TMPDIR")).join("without-kit");
    let programs = Programs::new();
    let run = |words: &[&str]| {
        let output = Command::new(env::var_os("CARGO").unwrap_or("cargo".into()))
            .args([
                "run",
                "--quiet",
                "--offline",
                "-p",
                "splitter",
                "--manifest-path",
            ])
            .arg(Path::new(env!("CARGO_MANIFEST_DIR")).join("../Cargo.toml"))
            .arg("--config")
            .arg(folder().join("cargo-config.toml"))
            .args(words)
            .env("CARGO_TARGET_DIR", &target)
            .env("PATH", &programs.path)
            .output()
            .unwrap();
        let said = String::from_utf8_lossy(&output.stderr);
        assert!(output.status.success(), "{said}");
        String::from_utf8(output.stdout).unwrap()
    };
    assert!(run(&["--example", "split"]).starts_with("cut at [2, 4]\n"));
    let version = run(&["--bin", "splitter", "--", "--version"]);
    let record = text("RELEASE");
    let known = |text: &str| text.lines().skip(1).map(String::from).collect::<Vec<_>>();
    assert_eq!(known(&version), known(&record));
}

/// The PATH without the folders that have an `rt`, whatever else these have being linked elsewhere: not in
/// cargo's folder, since `rt` refuses a repository that has links in it.
struct Programs {
    links: PathBuf,
    path: OsString,
}

impl Programs {
    fn new() -> Self {
        let path = env::var_os("PATH").unwrap();
        let has_kit = |folder: &PathBuf| folder.join("rt").exists();
        let (with, without): (Vec<_>, Vec<_>) = env::split_paths(&path).partition(has_kit);
        let links = env::temp_dir().join(format!("splitter-programs-{}", process::id()));
        fs::create_dir_all(&links).unwrap();
        for program in ["cc", "ld", "as", "ar", "cargo", "rustc", "rustup"] {
            let place = with.iter().map(|folder| folder.join(program));
            if let Some(place) = place.into_iter().find(|place| place.exists()) {
                let _ = std::os::unix::fs::symlink(place, links.join(program));
            }
        }
        let folders = without.into_iter().chain([links.clone()]);
        let path = env::join_paths(folders).unwrap();
        Self { links, path }
    }
}

impl Drop for Programs {
    fn drop(&mut self) {
        let _ = fs::remove_dir_all(&self.links);
    }
}
