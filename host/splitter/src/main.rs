//! The command `splitter`: it splits stores, shows where tables are cut, and looks into fonts.

#![deny(missing_docs, unsafe_code)]

mod command;

use std::{env, process::ExitCode};

fn main() -> ExitCode {
    command::run(env::args_os().skip(1))
}
