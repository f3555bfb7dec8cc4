// Made by tools/plain-rust of crates/fax_c/src/library_version.rt: change that.
//! The version.

use crate::caller_text::put_text;

/// The version as a number: ten thousand times the first part, a hundred times the second, and the
/// third.
// ensures { result ≡ Spec.version_number }
pub fn faxpages_version() -> u32 {
    11_500
}

/// Writes the version where it has room, and returns how many bytes it has.
// ensures { Spec.IsTextPut Spec.version text.old result text.new }
pub fn faxpages_version_text(text: &mut [u8]) -> usize {
    put_text(b"1.15.0", text)
}
