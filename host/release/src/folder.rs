//! The files of a release.

use crate::sha256::hex_digest;
use splitter::{provenance, raw::INTERFACE};
use std::{
    fs,
    path::{Path, PathBuf},
};

const HEADER: &str = include_str!("../../include/splitter.h");
const PINNED_KIT: &str = include_str!("../../../kit.txt");

const LICENCE: [(&str, &str); 3] = [
    ("LICENSE-MIT", include_str!("../../../LICENSE-MIT")),
    ("LICENSE-APACHE", include_str!("../../../LICENSE-APACHE")),
    ("NOTICE", include_str!("../../../NOTICE")),
];

/// What is released.
pub struct Release {
    archive: Vec<u8>,
    kit: &'static str,
    commit: &'static str,
    is_draft: bool,
}

impl Release {
    /// The archive that is linked, which has to be the pinned kit's and of a commit.
    pub fn new(is_draft: bool) -> Result<Self, String> {
        let path = option_env!("SPLITTER_ARCHIVE");
        let path = path.ok_or("the library links an archive that was given to it: release that")?;
        let archive = fs::read(path).map_err(|error| format!("{path}: {error}"))?;
        if Some(&hex_digest(&archive)[..]) != provenance::ARCHIVE_SHA256 {
            return Err(format!(
                "{path} is not the archive that is linked: build again"
            ));
        }
        let release = Self {
            archive,
            kit: provenance::KIT.unwrap_or("not known"),
            commit: provenance::COMMIT.unwrap_or("not known"),
            is_draft,
        };
        match is_draft {
            true => Ok(release),
            false => release.ensure_final(),
        }
    }

    fn ensure_final(self) -> Result<Self, String> {
        let (kit, pinned) = (self.kit, PINNED_KIT.trim());
        if kit != pinned {
            return Err(format!(
                "the archive was proved by the kit \"{kit}\", and kit.txt pins \"{pinned}\": build \
                 with that one, or pin the other and run the gate"
            ));
        }
        match self.commit.len() == 40 && self.commit.chars().all(|it| it.is_ascii_hexdigit()) {
            true => Ok(self),
            false => Err(format!(
                "the commit is {}: commit all changes, and run this with --release",
                self.commit
            )),
        }
    }

    /// Which version, interface, kit and commit.
    pub fn record(&self) -> String {
        let draft = if self.is_draft { " (draft)" } else { "" };
        format!(
            "version {}{draft}\ninterface {INTERFACE}\nkit {}\narchive sha256 {}\ncommit {}\n",
            provenance::VERSION,
            self.kit,
            hex_digest(&self.archive),
            self.commit,
        )
    }

    /// Writes all files into a folder that is not there, or empty, and gives how many.
    pub fn write(&self, directory: &Path) -> Result<usize, String> {
        let at = |error| format!("{}: {error}", directory.display());
        fs::create_dir_all(directory).map_err(at)?;
        if fs::read_dir(directory).map_err(at)?.next().is_some() {
            return Err(format!("{} is not empty", directory.display()));
        }
        let place = directory.canonicalize().map_err(at)?;
        let mut files = self.files(&place);
        let sums: String = files
            .iter()
            .map(|(name, bytes)| format!("{}  {name}\n", hex_digest(bytes)))
            .collect();
        files.push(("SHA256SUMS", sums.into_bytes()));
        for (name, bytes) in &files {
            let path: PathBuf = place.join(name);
            let folder = path.parent().unwrap_or(&place);
            let written = fs::create_dir_all(folder).and_then(|()| fs::write(&path, bytes));
            written.map_err(|error| format!("{}: {error}", path.display()))?;
        }
        Ok(files.len())
    }

    fn files(&self, place: &Path) -> Vec<(&'static str, Vec<u8>)> {
        let mut files = vec![
            ("lib/libsplitter.a", self.archive.clone()),
            ("lib/pkgconfig/splitter.pc", pkg_config().into_bytes()),
            ("include/splitter.h", HEADER.into()),
            ("cargo-config.toml", self.cargo_config(place).into_bytes()),
            ("RELEASE", self.record().into_bytes()),
        ];
        files.extend(LICENCE.map(|(name, text)| (name, text.into())));
        files
    }

    /// The `links` key of the library, overridden: its build script is not run then.
    fn cargo_config(&self, place: &Path) -> String {
        let target = "target.x86_64-unknown-linux-gnu.splitter";
        let lib = place.join("lib");
        let [lib, archive] = [&lib, &lib.join("libsplitter.a")].map(|path| quoted(path));
        let digest = hex_digest(&self.archive);
        let (kit, commit) = (self.kit, self.commit);
        format!(
            "# For cargo's --config, or to be copied into .cargo/config.toml: the library links this\n\
             # archive, and needs no kit. Where the folder is moved, its paths have to be changed.\n\
             [{target}]\n\
             rustc-link-lib = [\"static=splitter\"]\n\
             rustc-link-search = [{lib}]\n\
             \n\
             [{target}.rustc-env]\n\
             SPLITTER_ARCHIVE = {archive}\n\
             SPLITTER_SHA256 = \"{digest}\"\n\
             SPLITTER_KIT = \"{kit}\"\n\
             SPLITTER_COMMIT = \"{commit}\"\n"
        )
    }
}

/// A path as a text of TOML.
fn quoted(path: &Path) -> String {
    format!("{:?}", path.display().to_string())
}

fn pkg_config() -> String {
    format!(
        "prefix=${{pcfiledir}}/../..\n\
         libdir=${{prefix}}/lib\n\
         includedir=${{prefix}}/include\n\
         \n\
         Name: splitter\n\
         Description: The proved splitter of PairPos and MarkBasePos tables\n\
         Version: {}\n\
         Cflags: -I${{includedir}}\n\
         Libs: -L${{libdir}} -lsplitter\n",
        provenance::VERSION
    )
}
