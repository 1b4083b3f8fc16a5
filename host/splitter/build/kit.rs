//! The Rattle kit: where it is, and which.

use crate::tell::{done, fail};
use std::{
    env, fs,
    io::ErrorKind,
    path::{Path, PathBuf},
    process::Command,
};

/// The file that pins the kit's identity.
pub const PIN: &str = "kit.txt";

const WHAT_TO_DO: &str =
    "put the bin folder of the Rattle kit first on the PATH; or link an archive that \
                          was released, for which no kit is needed: docs/RELEASE.md says how";

/// The kit that is there.
pub struct Kit {
    /// Its program.
    pub rt: PathBuf,
    /// The line by which it names itself.
    pub identity: String,
}

impl Kit {
    /// The kit on the PATH.
    pub fn find() -> Self {
        let Some(rt) = on_the_path("rt") else {
            fail(&format!(
                "the Rattle kit is missing: its program rt, which proves the library, is not on the \
                 PATH. {}",
                WHAT_TO_DO
            ));
        };
        let identity = match identity(&rt) {
            Ok(identity) => identity,
            Err(said) => fail(&format!(
                "{} is not the program rt of the Rattle kit: \"rt version\" {said}. {}",
                rt.display(),
                WHAT_TO_DO
            )),
        };
        let kit = Self { rt, identity };
        if let Some(file) = kit.identity_file() {
            println!("cargo::rerun-if-changed={}", file.display());
        }
        kit
    }

    /// The file that says which kit it is: where it changes, the kit has.
    fn identity_file(&self) -> Option<PathBuf> {
        let rt = self.rt.canonicalize().ok()?;
        let file = rt.parent()?.parent()?.join("KIT-ID");
        Some(file).filter(|file| file.is_file())
    }

    /// Names a kit that is not the pinned one. It proves too, from nothing, so this is no error.
    pub fn hold_to(&self, pin: &Path) {
        let pinned = done(fs::read_to_string(pin), PIN);
        let (pinned, identity) = (pinned.trim(), &self.identity);
        if pinned != identity {
            println!(
                "cargo::warning=the library is proved by the kit \"{identity}\", and {PIN} pins \
                 \"{pinned}\": what is built is proved, but is not the pinned kit's"
            );
        }
    }
}

/// The line by which a program names itself, or what it does instead.
fn identity(rt: &Path) -> Result<String, String> {
    let output = match Command::new(rt).arg("version").output() {
        Err(error) if error.kind() == ErrorKind::PermissionDenied => {
            return Err("may not be run".into());
        }
        output => output.map_err(|error| format!("cannot be run: {error}"))?,
    };
    let said = String::from_utf8_lossy(&output.stdout);
    let line = said.lines().next().unwrap_or_default().trim();
    match output.status.success() && line.starts_with("rattle-kit") {
        true => Ok(line.into()),
        false if line.is_empty() => Err(format!("ends with {}", output.status)),
        false => Err(format!("says \"{line}\"")),
    }
}

fn on_the_path(program: &str) -> Option<PathBuf> {
    let path = env::var_os("PATH")?;
    let mut found = env::split_paths(&path).map(|folder| folder.join(program));
    found.find(|file| file.is_file())
}
