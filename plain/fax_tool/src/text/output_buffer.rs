// Made by tools/plain-rust of crates/fax_tool/src/text/output_buffer.rt: change that.
//! The text that is collected before it is written.

use kit_std::prelude::Vec;

use crate::text::number_cache::NumberCache;
use fax_bits::Memory;
use kit_std::alloc::Global;
use kit_std::marker::Model;

/// The text that is collected. Contracts see its bytes.
pub struct OutputBuffer {
    /// The text, and room after it.
    pub(crate) bytes: Vec<u8>,
    /// Where the text ends.
    pub(crate) end: usize,
    /// Texts of numbers that were made.
    pub(crate) texts: NumberCache,
}

impl Model for OutputBuffer {}

/// How many bytes of room are made at least, so that few lines have to make some.
const LEAST_ROOM: usize = 1024;

/// Makes room for so many bytes after a text that ends here.
// requires { end ≤ vec_len bytes.old }
// ensures room { OnOk result (end + more ≤ vec_len bytes.new) }
// ensures within { end ≤ vec_len bytes.new }
// ensures text { take end bytes.new.items ≡ take end bytes.old.items }
pub(crate) fn make_room(bytes: &mut Vec<u8>, end: usize, more: usize) -> Result<(), Memory> {
    // Room for a whole line is made before any of it is written, so that no part of it stands among
    // the lines that are written where memory is refused.
    if bytes.len() - end >= more {
        return Ok(());
    }
    let len = end.checked_add(more.max(LEAST_ROOM)).ok_or(Memory)?;
    bytes.resize(len, 0).map_err(|_| Memory)
}

/// Writes these bytes at a place, and returns where they end.
// requires { at + length more.now ≤ length bytes.old }
// ensures written { take result bytes.new ≡ take at bytes.old ++ more.now }
// ensures end { result ≡ at + length more.now }
pub(crate) fn write_bytes(bytes: &mut [u8], at: usize, more: &[u8]) -> usize {
    for (i, byte) in more.iter().enumerate() {
        bytes[at + i] = *byte;
    }
    at + more.len()
}

impl OutputBuffer {
    /// No text.
    // ensures { result ≡ [] }
    pub fn new(alloc: Global) -> Self {
        OutputBuffer {
            bytes: Vec::new(alloc),
            end: 0,
            texts: NumberCache::new(),
        }
    }

    /// How many bytes are collected.
    // ensures { result ≡ length self.now }
    pub fn len(&self) -> usize {
        self.end
    }

    /// The text.
    // ensures { result.now ≡ self.now }
    pub fn as_bytes(&self) -> &[u8] {
        &self.bytes[..self.end]
    }

    /// Empties it; its room stays.
    // ensures { self.new ≡ [] }
    pub fn clear(&mut self) {
        self.end = 0;
    }

    /// Appends a text.
    // ensures ok { OnOk result (self.new ≡ self.old ++ more.now) }
    // ensures err { OnErr result (self.new ≡ self.old) }
    pub fn put(&mut self, more: &str) -> Result<(), Memory> {
        let end = self.end;
        make_room(&mut self.bytes, end, more.len())?;
        self.end = write_bytes(self.bytes.as_mut_slice(), end, more.as_bytes());
        Ok(())
    }
}
