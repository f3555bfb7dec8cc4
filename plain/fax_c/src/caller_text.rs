// Made by tools/plain-rust of crates/fax_c/src/caller_text.rt: change that.
//! Texts in memory of the caller.

/// Writes a text where it has room, and returns how many bytes it has.
// ensures { Spec.IsTextPut text.now out.old result out.new }
pub(crate) fn put_text(text: &[u8], out: &mut [u8]) -> usize {
    if text.len() <= out.len() {
        out[..text.len()].copy_from_slice(text);
    }
    text.len()
}
