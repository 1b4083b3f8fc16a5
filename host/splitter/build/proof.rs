//! `rt`, and what it says while it proves.

use crate::{
    kit::Kit,
    sources::Sources,
    tell::{done, Teller},
    ARCHIVE, CRATE,
};
use std::{
    env,
    fs::{self, DirBuilder},
    io::{BufRead, BufReader, Read},
    num::NonZero,
    os::unix::fs::DirBuilderExt,
    path::{Path, PathBuf},
    process::{self, Command, Stdio},
    thread,
};

/// What a proof takes of memory, in kilobytes.
const MEMORY: usize = 2_500_000;

/// Proves the sources, and writes their archive; or says why they are not proved.
pub fn prove(sources: &Sources, kit: &Kit, archive: &Path) -> Result<(), String> {
    // Not in cargo's own folder: it is mostly below the repository, where `rt` refuses all sources but the crates'.
    let folder = env::temp_dir().join(format!("splitter-proof-{}", process::id()));
    let made = DirBuilder::new().mode(0o700).create(&folder);
    done(made, &folder.display().to_string());
    sources.copy_to(&folder);
    let made = prove_in(&folder, kit, sources.crates());
    if let Ok(made) = &made {
        done(fs::copy(made, archive), "copying the archive");
    }
    done(fs::remove_dir_all(&folder), "removing the copy");
    made.map(drop)
}

/// Proves what stands in a folder, so many crates, and gives its archive there.
fn prove_in(folder: &Path, kit: &Kit, crates: usize) -> Result<PathBuf, String> {
    let mut teller = Teller::new();
    let what = format!(
        "{CRATE} and what it needs, {crates} crates, by {}",
        kit.identity
    );
    teller.say("Proving", &what);
    // Crates that need nothing of each other are proved side by side. Of each that is done it says its name first; of one that
    // another copy on this machine had proved it says no more.
    let mut count = 0;
    let mut name = String::new();
    let jobs = jobs().to_string();
    run(
        folder,
        kit,
        &["all", "check", "--jobs", &jobs],
        &mut |line| {
            if let Some(next) = line.strip_prefix("== ") {
                count += 1;
                name = next.into();
            } else if count > 0 && line.starts_with("logic=proved") {
                teller.say("Proved", &format!("{name}, {count} of {crates}"));
            }
        },
    )?;
    teller.say("Proving", &format!("{CRATE}, and writing {ARCHIVE}"));
    let top = folder.join("crates").join(CRATE);
    run(&top, kit, &["lib"], &mut |_| {})?;
    Ok(top.join(format!("out/lib{CRATE}.a")))
}

/// How many crates are proved at a time: one for each core, and no more than there is memory for.
fn jobs() -> usize {
    let cores = thread::available_parallelism().map_or(1, NonZero::get);
    let room = free_memory().map_or(cores, |free| free / MEMORY);
    cores.min(room).max(1)
}

/// The memory that can be had, in kilobytes.
fn free_memory() -> Option<usize> {
    let said = fs::read_to_string("/proc/meminfo").ok()?;
    let mut lines = said.lines();
    let free = lines.find_map(|line| line.strip_prefix("MemAvailable:"))?;
    free.trim().strip_suffix(" kB")?.parse().ok()
}

/// Runs a command of the kit, and shows its lines as they come.
fn run(folder: &Path, kit: &Kit, words: &[&str], show: &mut dyn FnMut(&str)) -> Result<(), String> {
    let what = format!("rt {}", words.join(" "));
    let child = Command::new(&kit.rt)
        .args(words)
        .current_dir(folder)
        .stdin(Stdio::null())
        .stdout(Stdio::piped())
        .stderr(Stdio::piped())
        .spawn();
    let mut child = done(child, &what);
    let errors = child
        .stderr
        .take()
        .map(|errors| thread::spawn(move || whole(errors)));
    let mut said = Vec::new();
    let lines = child.stdout.take().map(BufReader::new).into_iter();
    for line in lines.flat_map(|lines| lines.split(b'\n')) {
        let line = done(line, &what);
        let line = String::from_utf8_lossy(&line).into_owned();
        show(&line);
        said.push(line);
    }
    let status = done(child.wait(), &what);
    if !status.success() {
        let errors = errors.and_then(|errors| errors.join().ok());
        eprint!("{}", errors.unwrap_or_default());
        eprintln!("{}", said.join("\n"));
        return Err(format!("{what} did not prove the library: {status}"));
    }
    Ok(())
}

fn whole(mut errors: impl Read) -> String {
    let mut bytes = Vec::new();
    let _ = errors.read_to_end(&mut bytes);
    String::from_utf8_lossy(&bytes).into_owned()
}
