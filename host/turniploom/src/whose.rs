//! Whose proof it is that a host was built with.

use crate::abi;

/// The version of the crate and of the header.
pub const VERSION: &str = env!("CARGO_PKG_VERSION");

/// The version of the calls in the archive that is linked: major, minor, patch. It is [`VERSION`]; a test holds them together.
///
/// ```
/// let (major, minor, patch) = turniploom::version();
/// assert_eq!(format!("{major}.{minor}.{patch}"), turniploom::VERSION);
/// ```
pub fn version() -> (u64, u64, u64) {
    let told = abi::version();
    (told.first, told.second, told.third)
}

/// The SHA-256 of the archive that this crate was built with, in hex digits: `sha256sum libturniploom.a` says the same.
pub const ARCHIVE_SHA256: &str = env!("TURNIPLOOM_SHA256");

/// The kit that proved the calls, as `rt version` names it.
pub const KIT: &str = env!("TURNIPLOOM_KIT");
