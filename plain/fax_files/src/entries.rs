// Made by tools/plain-rust of crates/fax_files/src/entries.rt: change that.
//! The entries of a directory and their values (TIFF 6.0, section 2).

use crate::FileFault;
use crate::numbers::{File, is_inside};
use crate::tags::{LONG, RATIONAL, SHORT};
use kit_std::marker::Model;

/// An entry of a directory.
#[derive(Clone, Copy)]
pub(crate) struct Entry {
    tag: u16,
    /// The type of the values.
    kind: u16,
    /// How many values there are.
    count: u32,
    /// Where the entry's last four bytes stand: the values, or their offset.
    offset: usize,
}

impl Model for Entry {}

impl Entry {
    /// The tag of the field.
    // ensures { result ≡ self.now.tag }
    pub fn tag(&self) -> u16 {
        self.tag
    }

    /// Whether the values are SHORT or LONG.
    // ensures { result ≡ is_integer self.now }
    fn is_integer(&self) -> bool {
        self.kind == SHORT || self.kind == LONG
    }

    /// How many bytes a value takes, where it is SHORT, LONG or RATIONAL.
    // ensures value { result ≡ Spec.value_len self.now }
    // ensures bound { result ≤ 8 }
    fn value_len(&self) -> usize {
        match self.kind {
            SHORT => 2,
            LONG => 4,
            _ => 8,
        }
    }
}

impl<'a> File<'a> {
    /// The entry of twelve bytes at an offset.
    // requires { offset + 12 ≤ length self.now.bytes.now }
    // ensures { result ≡ entry_at self.now.endian self.now.bytes.now offset }
    pub fn entry_at(&self, offset: usize) -> Entry {
        Entry {
            tag: self.u16_at(offset),
            kind: self.u16_at(offset + 2),
            count: self.u32_at(offset + 4),
            offset: offset + 8,
        }
    }

    /// Where the values of an entry stand.
    // requires { entry.now.offset + 4 ≤ length self.now.bytes.now }
    // ensures { result ≡ Spec.values_offset self.now.endian self.now.bytes.now entry.now }
    fn values_offset(&self, entry: &Entry) -> usize {
        // The entry's own count decides whether its values stand in it, also where fewer are
        // needed. Only the needed ones have to lie in the file.
        if (entry.count as usize).saturating_mul(entry.value_len()) <= 4 {
            entry.offset
        } else {
            self.u32_at(entry.offset) as usize
        }
    }

    /// Whether an entry has at least `n` values, SHORT or LONG, and the first `n` lie in the file.
    // requires { entry.now.offset + 4 ≤ length self.now.bytes.now }
    // ensures { result ≡ Spec.has_integers self.now.endian self.now.bytes.now entry.now n }
    pub fn has_integers(&self, entry: &Entry, n: u32) -> bool {
        entry.is_integer()
            && n <= entry.count
            && is_inside(
                self.bytes,
                self.values_offset(entry),
                n as usize * entry.value_len(),
            )
    }

    /// The value of an entry at index `i`.
    // requires offset { entry.now.offset + 4 ≤ length self.now.bytes.now }
    // requires there { IsTrue
    //     (Spec.has_integers self.now.endian self.now.bytes.now entry.now (i + 1)) }
    // ensures { result ≡ Spec.value_at self.now.endian self.now.bytes.now entry.now i }
    pub fn value_at(&self, entry: &Entry, i: u32) -> u32 {
        let offset = self.values_offset(entry) + i as usize * entry.value_len();
        if entry.kind == SHORT {
            u32::from(self.u16_at(offset))
        } else {
            self.u32_at(offset)
        }
    }

    /// The value of a scalar.
    // requires { entry.now.offset + 4 ≤ length self.now.bytes.now }
    // ensures { result ≡ first_value self.now.endian self.now.bytes.now entry.now }
    pub fn scalar(&self, entry: &Entry) -> Result<u32, FileFault> {
        if !self.has_integers(entry, 1) {
            return Err(FileFault::BadField(entry.tag));
        }
        Ok(self.value_at(entry, 0))
    }

    /// An entry's fraction, where it has one whose numbers are above 0.
    // requires { entry.now.offset + 4 ≤ length self.now.bytes.now }
    // ensures exact { result ≡ good_rational self.now.endian self.now.bytes.now entry.now }
    // ensures good { IfSome result IsGoodRational }
    pub fn good_rational(&self, entry: &Entry) -> Option<(u32, u32)> {
        let offset = self.values_offset(entry);
        if entry.kind != RATIONAL || entry.count < 1 || !is_inside(self.bytes, offset, 8) {
            return None;
        }
        let value = (self.u32_at(offset), self.u32_at(offset + 4));
        if value.0 > 0 && value.1 > 0 {
            Some(value)
        } else {
            None
        }
    }
}
