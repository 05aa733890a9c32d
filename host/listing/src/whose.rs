//! Whose proof it is: the version, the archive and the kit that proved it.

use turniploom::{ARCHIVE_SHA256, KIT};

/// The version, as the archive tells it.
fn version() -> String {
    let (major, minor, patch) = turniploom::version();
    format!("{major}.{minor}.{patch}")
}

/// The last line of every listing.
pub fn line() -> String { format!("turniploom {}; archive sha256 {ARCHIVE_SHA256}; proved with {KIT}.", version()) }

/// The same, a line each.
pub fn lines() -> String { format!("turniploom {}\narchive sha256 {ARCHIVE_SHA256}\nproved with {KIT}", version()) }
