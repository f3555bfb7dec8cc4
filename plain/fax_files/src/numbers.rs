// Made by tools/plain-rust of crates/fax_files/src/numbers.rt: change that.
//! Numbers in a file (TIFF 6.0, section 2).

use crate::Endian;
use byteorder::{BigEndian, ByteOrder, LittleEndian};

/// A file's bytes, and which byte of a number stands first in them.
#[derive(Clone, Copy)]
pub(crate) struct File<'a> {
    pub bytes: &'a [u8],
    pub endian: Endian,
}

/// Whether the `len` bytes from an offset on lie in the file.
// ensures { result ≡ lies_inside file.now offset len }
pub(crate) fn is_inside(file: &[u8], offset: usize, len: usize) -> bool {
    offset <= file.len() && len <= file.len() - offset
}

impl<'a> File<'a> {
    /// The number of two bytes at an offset.
    // requires { offset + 2 ≤ length self.now.bytes.now }
    // ensures { result ≡ number_at self.now.endian 2 self.now.bytes.now offset }
    pub fn u16_at(&self, offset: usize) -> u16 {
        let bytes = &self.bytes[offset..];
        match self.endian {
            Endian::Little => LittleEndian::read_u16(bytes),
            Endian::Big => BigEndian::read_u16(bytes),
        }
    }

    /// The number of four bytes at an offset.
    // requires { offset + 4 ≤ length self.now.bytes.now }
    // ensures { result ≡ number_at self.now.endian 4 self.now.bytes.now offset }
    pub fn u32_at(&self, offset: usize) -> u32 {
        let bytes = &self.bytes[offset..];
        match self.endian {
            Endian::Little => LittleEndian::read_u32(bytes),
            Endian::Big => BigEndian::read_u32(bytes),
        }
    }
}
