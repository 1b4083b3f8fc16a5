//! What this library was made of, and by what.
//!
//! What is not known is `None`: in a build that links an archive that was given to it, all that its
//! configuration does not say.

/// The library's own version.
pub const VERSION: &str = env!("CARGO_PKG_VERSION");

/// The identity of the Rattle kit that proved the functions, as `rt version` prints it.
pub const KIT: Option<&str> = option_env!("SPLITTER_KIT");

/// The SHA-256 of the archive that is linked.
pub const ARCHIVE_SHA256: Option<&str> = option_env!("SPLITTER_SHA256");

/// The commit that was built, and whether there were changes to it. Only a release build knows it.
pub const COMMIT: Option<&str> = option_env!("SPLITTER_COMMIT");
