//! The quick run ends well: both sides agree.

use std::process::Command;

#[test]
fn both_sides_agree() {
    let bench = env!("CARGO_BIN_EXE_bench");
    let status = Command::new(bench).arg("--quick").status().unwrap();
    assert!(status.success());
}
