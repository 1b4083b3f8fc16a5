//! What the command does, from its words to its exit code.
//!
//! | exit code | says |
//! |---|---|
//! | 0 | done; of `plan` and `font`, nothing to split |
//! | 1 | refused |
//! | 2 | bad usage: words that cannot be followed |
//! | 3 | bad file: one that cannot be read or written, or is none that is known |
//! | 4 | of `plan` and `font`: something would be cut |
//! | 5 | of `--check`: something reads otherwise, which must not be |

mod arguments;
mod bars;
mod compact;
mod dump;
mod failure;
mod files;
mod font;
mod help;
mod json;
mod limits;
mod look;
mod lookups;
mod mark;
mod outcome;
mod pair;
mod plan;
mod progress;
mod readings;
mod report;
mod sample;
mod screen;
mod split;
mod text;
mod told;

use arguments::Request;
use failure::Failure;
use json::Json;
use outcome::Outcome;
use screen::Screen;
use std::{ffi::OsString, process::ExitCode};

/// Does what the words ask for.
pub fn run(words: impl Iterator<Item = OsString>) -> ExitCode {
    match arguments::read(words).and_then(follow) {
        Ok(outcome) => outcome.exit_code(),
        Err(failure) => failure.tell(),
    }
}

fn follow(request: Request) -> Result<Outcome, Failure> {
    let mut screen = Screen::new(request.form());
    let outcome = match &request {
        Request::Sample(request) => sample::run(request, &mut screen),
        Request::Plan(request) => plan::run(request, &mut screen),
        Request::Split(request) => split::run(request, &mut screen),
        Request::Compact(request) => compact::run(request, &mut screen),
        Request::Pair(request) => pair::run(request, &mut screen),
        Request::Mark(request) => mark::run(request, &mut screen),
        Request::Dump(request) => dump::run(request, &mut screen),
        Request::Font(request) => font::run(request, &mut screen),
        Request::Help(topic) => screen.text(help::of(*topic)).map(|()| Outcome::Done),
        Request::Version => screen.text(&help::version()).map(|()| Outcome::Done),
    };
    if let Err(failure) = &outcome {
        screen.json(&failed(&request, failure))?;
    }
    screen.flush()?;
    outcome
}

/// What a command tells as JSON that ends without what it was asked for.
fn failed(request: &Request, failure: &Failure) -> Json {
    let outcome = failure.outcome();
    Json::object([
        ("command", request.name().map(|name| name.word()).into()),
        ("outcome", outcome.word().into()),
        ("exit", Json::Number(outcome.number().into())),
        ("file", request.file().map(told::path).into()),
        ("error", Json::list(failure.sentences())),
        ("refused", failure.told()),
    ])
}
