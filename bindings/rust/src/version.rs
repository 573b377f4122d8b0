use crate::ffi;

/// This is the version of this crate's text, `major.minor.patch`.
pub const VERSION: &str = env!("CARGO_PKG_VERSION");

/// Answers the version of the archive that is linked: 10000 * major + 100 * minor + patch. It is [`VERSION`], unless
/// `DEBLOCK_ARCHIVE` named an archive of another version.
pub fn version() -> u32 {
    // SAFETY: the call takes nothing.
    unsafe { ffi::deblock_version() }
}
