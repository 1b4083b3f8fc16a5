//! What the gate lets pass and what it notices, over a kit and a cargo that only print.

use std::{
    env, fs,
    os::unix::fs::PermissionsExt,
    path::Path,
    process::{self, Command, Output},
    sync::Mutex,
};

/// No program is started while another one is being written: it could not be run.
static TURN: Mutex<()> = Mutex::new(());

const COUNTS: &str = "crates: 2\nfunctions: 3\nedits: 2\nprograms: 1\ntests: 7\n";

const PROOFS: &str = "\
rt: one is kept: an earlier run on this machine proved the same files over the same libraries
== two
fn two::g: proved
fn two::main: proved
rt: two proved
rt: must-fail one/high.edit: refused, as it must be: note: src/lib.rt:3:4: it is not proved
rt: must-fail one/low.edit: refused, as it must be: note: src/lib.rt:5:6: it is not proved
rt: two ran, and wrote what its file stdout has
rt: two ran (built by Rattle's own compiler), and wrote what its file stdout has
rt: ok; handles allowed: none; must-fail edits: 2 refused; done in this run: 1 of the 2 proofs
4 passed, 0 failed
";

/// What the crates have in their folders src.
const SOURCES: [(&str, &str); 3] = [
    ("one/src/lib.rt", "// fn none\n\npub fn f() {\n    g()\n}\n"),
    ("two/src/main.rt", "mod deep;\n\nfn main() {}\n"),
    (
        "two/src/deep/mod.rt",
        "impl S {\n    pub(crate) const fn g() {}\n}\n",
    ),
];

const TESTS: &str = "\
test result: ok. 5 passed; 0 failed; 0 ignored; 0 measured; 0 filtered out
test result: ok. 2 passed; 0 failed; 0 ignored; 0 measured; 0 filtered out
";

/// The kit that is pinned, and the one that is there.
const KIT: &str = "rattle-kit-test logic 1";

/// What clippy does.
#[derive(Clone, Copy)]
enum Clippy {
    IsClean,
    Complains,
    IsMissing,
}

/// Runs the gate in a directory of its own, which goes with it and is not in cargo's folder: `rt` refuses a
/// repository that has other sources than its crates'. The kit prints `proofs`; where that is nothing, it breaks.
fn gate(name: &str, proofs: &str, tests: &str) -> (bool, String) {
    gate_with(name, [proofs, tests], KIT, Clippy::IsClean)
}

/// The same, with another kit pinned, or another clippy.
fn gate_with(
    name: &str,
    [proofs, tests]: [&str; 2],
    pinned: &str,
    clippy: Clippy,
) -> (bool, String) {
    let _turn = TURN.lock().unwrap();
    let top = env::temp_dir().join(format!("gate-{name}-{}", process::id()));
    for (path, text) in SOURCES {
        let path = top.join("crates").join(path);
        fs::create_dir_all(path.parent().unwrap()).unwrap();
        fs::write(path, text).unwrap();
    }
    fs::create_dir_all(top.join(".ci")).unwrap();
    let gate = Path::new(env!("CARGO_MANIFEST_DIR")).join("../../.ci/run");
    fs::copy(gate, top.join(".ci/run")).unwrap();
    fs::write(top.join(".ci/counts"), COUNTS).unwrap();
    fs::write(top.join("proofs"), proofs).unwrap();
    fs::write(top.join("tests"), tests).unwrap();
    fs::write(top.join("kit.txt"), format!("{pinned}\n")).unwrap();
    write_program(
        &top.join("rt"),
        &format!(
            "case $* in version) echo '{KIT}' ;; ci) cat proofs; test -s proofs ;; *) exit 2 ;; esac"
        ),
    );
    // It is asked for its version first, and then for all that it has to say.
    let clippy = match clippy {
        Clippy::IsClean => "true",
        Clippy::Complains => "test $2 = --version || { echo 'error: unused import'; false; }",
        Clippy::IsMissing => "false",
    };
    write_program(
        &top.join("cargo"),
        &format!("if [ $1 = clippy ]; then {clippy}; else cat tests; fi"),
    );

    let path = format!("{}:{}", top.display(), env::var("PATH").unwrap());
    let run = Command::new(top.join(".ci/run")).env("PATH", path).output();
    fs::remove_dir_all(&top).unwrap();
    let Output { status, stdout, .. } = run.unwrap();
    (status.success(), String::from_utf8(stdout).unwrap())
}

fn write_program(path: &Path, line: &str) {
    fs::write(path, format!("#!/bin/sh\n{line}\n")).unwrap();
    fs::set_permissions(path, fs::Permissions::from_mode(0o755)).unwrap();
}

/// The gate fails, says this, and counts so.
fn assert_notices((passes, printed): (bool, String), says: &str, last_line: &str) {
    assert!(!passes);
    assert!(printed.lines().any(|line| line == says), "{printed}");
    assert_eq!(printed.lines().last(), Some(last_line), "{printed}");
}

/// Four proofs, why edits are refused, seven tests, clippy and five counts.
#[test]
fn what_is_well_passes() {
    let (passes, printed) = gate("well", PROOFS, TESTS);
    assert_eq!(printed.lines().last(), Some("18 passed, 0 failed"));
    assert!(passes);
    let kit = "== kit: rattle-kit-test logic 1, which kit.txt pins";
    assert_eq!(printed.lines().next(), Some(kit));
}

/// Another kit than the pinned one is named, and is no failure.
#[test]
fn another_kit_is_named() {
    let prints = [PROOFS, TESTS];
    let pinned = "rattle-kit-test logic 2";
    let (passes, printed) = gate_with("kit", prints, pinned, Clippy::IsClean);
    assert_eq!(printed.lines().last(), Some("18 passed, 0 failed"));
    assert!(passes);
    let kit =
        "== kit: rattle-kit-test logic 1, AND NOT rattle-kit-test logic 2, which kit.txt pins: \
               what passes is proved by the former";
    assert_eq!(printed.lines().next(), Some(kit));
}

#[test]
fn clippy_is_heard_where_it_is_there() {
    let prints = [PROOFS, TESTS];
    let run = gate_with("clippy", prints, KIT, Clippy::Complains);
    assert_notices(run, "error: unused import", "17 passed, 1 failed");
    let (passes, printed) = gate_with("no_clippy", prints, KIT, Clippy::IsMissing);
    assert_eq!(printed.lines().last(), Some("17 passed, 0 failed"));
    assert!(passes && printed.contains("== clippy: cargo has none here"));
}

#[test]
fn an_edit_that_is_gone_is_noticed() {
    let edit = PROOFS
        .lines()
        .find(|line| line.contains("one/low"))
        .unwrap();
    let proofs = PROOFS.replace(edit, "").replace("4 passed", "3 passed");
    let run = gate("edit_gone", &proofs, TESTS);
    let says = "counts: 1 edits, and .ci/counts says 2";
    assert_notices(run, says, "16 passed, 1 failed");
}

#[test]
fn a_test_that_is_gone_or_new_is_noticed() {
    for (name, now, tests) in [("test_gone", "1 passed", 6), ("test_new", "3 passed", 8)] {
        let run = gate(name, PROOFS, &TESTS.replace("2 passed", now));
        let says = format!("counts: {tests} tests, and .ci/counts says 7");
        assert_notices(run, &says, &format!("{} passed, 1 failed", 10 + tests));
    }
}

#[test]
fn an_edit_whose_proof_file_no_longer_fits_is_noticed() {
    let proofs = PROOFS.replace(
        "low.edit: refused, as it must be: note",
        "low.edit: refused, as it must be (only because a proof file names what the edit took away, \
         so this says little of the contract: change a value and keep the names): proofs",
    );
    let says = proofs.lines().find(|line| line.contains("low")).unwrap();
    let run = gate("unfit", &proofs, TESTS);
    assert_notices(run, says, "17 passed, 1 failed");
}

/// An edit that the kit lets pass although it could not try it.
#[test]
fn an_edit_that_is_bad_is_noticed() {
    let bad = "low.edit: BAD EDIT: an 'old:' text is in src/lib.rt 0 times, and not once";
    let proofs = PROOFS
        .replace(
            "low.edit: refused, as it must be: note: src/lib.rt:5:6: it is not proved",
            bad,
        )
        .replace("2 refused;", "1 refused, 1 bad;")
        .replace("4 passed", "3 passed");
    for says in [
        "rt: must-fail one/low.edit: BAD EDIT: an 'old:' text is in src/lib.rt 0 times, and not once",
        "counts: 1 edits, and .ci/counts says 2",
    ] {
        let run = gate("bad", &proofs, TESTS);
        assert_notices(run, says, "15 passed, 2 failed");
    }
}

#[test]
fn a_step_that_breaks_is_noticed() {
    let run = gate("breaks", "", TESTS);
    let says = "counts: 0 crates, and .ci/counts says 2";
    assert_notices(run, says, "11 passed, 4 failed");
}
