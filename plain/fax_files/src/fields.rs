// Made by tools/plain-rust of crates/fax_files/src/fields.rt: change that.
//! The fields of a page: the first entries of the tags that its form depends on.

use crate::directory::Directory;
use crate::entries::Entry;
use crate::numbers::File;
use crate::{FileFault, tags};
use kit_std::marker::Model;

/// The number of tags that are looked for.
const SOUGHT: usize = 14;

/// The tags that are looked for, in order.
pub(crate) const TAGS: [u16; SOUGHT] = [
    tags::IMAGE_WIDTH,
    tags::IMAGE_LENGTH,
    tags::BITS_PER_SAMPLE,
    tags::COMPRESSION,
    tags::PHOTOMETRIC_INTERPRETATION,
    tags::FILL_ORDER,
    tags::STRIP_OFFSETS,
    tags::SAMPLES_PER_PIXEL,
    tags::ROWS_PER_STRIP,
    tags::STRIP_BYTE_COUNTS,
    tags::X_RESOLUTION,
    tags::Y_RESOLUTION,
    tags::T4_OPTIONS,
    tags::RESOLUTION_UNIT,
];

/// The first entry of each tag of `TAGS`.
pub(crate) struct FirstEntries {
    entries: [Option<Entry>; SOUGHT],
}

impl FirstEntries {
    /// No entries yet.
    // ensures { AreFirst [] result.entries }
    pub fn new() -> Self {
        FirstEntries {
            entries: [None; SOUGHT],
        }
    }

    /// Puts an entry before those that were seen.
    // ensures { (fields : List Spec.Entry) → AreFirst fields self.old.entries
    //     → AreFirst (entry ∷ fields) self.new.entries }
    pub fn see(&mut self, entry: Entry) {
        if let Ok(slot) = TAGS.binary_search(&entry.tag()) {
            self.entries[slot] = Some(entry);
        }
    }

    /// The first entry of a tag of `TAGS`.
    // requires { IsTrue (is_sought tag) }
    // ensures { (fields : List Spec.Entry) → AreFirst fields self.now.entries
    //     → result ≡ Spec.field fields tag }
    fn first(&self, tag: u16) -> Option<Entry> {
        match TAGS.binary_search(&tag) {
            Ok(slot) => self.entries[slot],
            Err(_) => unreachable!(),
        }
    }
}

/// The numbers of a field that are taken.
#[derive(Clone, Copy)]
pub(crate) enum Limits {
    /// From the first of these to the second.
    Between(u32, u32),
    AboveZero,
    Any,
}

impl Limits {
    /// Whether they allow a number.
    // ensures { result ≡ test_of self number }
    fn allow(self, number: u32) -> bool {
        match self {
            Limits::Between(low, high) => low <= number && number <= high,
            Limits::AboveZero => number > 0,
            Limits::Any => true,
        }
    }
}

/// How a field is refused whose number is not taken.
#[derive(Clone, Copy)]
pub(crate) enum FieldRefusal {
    OutOfLimits,
    Unsupported,
    BadField,
}

impl FieldRefusal {
    /// The fault of a tag.
    // ensures { result ≡ fault_of self tag }
    fn fault(self, tag: u16) -> FileFault {
        match self {
            FieldRefusal::OutOfLimits => FileFault::OutOfLimits(tag),
            FieldRefusal::Unsupported => FileFault::Unsupported(tag),
            FieldRefusal::BadField => FileFault::BadField(tag),
        }
    }
}

/// A directory with the first entry of each tag of `TAGS`.
pub(crate) struct Fields<'d, 'a> {
    directory: &'d Directory<'a>,
    first: FirstEntries,
}

impl<'d, 'a> Model for Fields<'d, 'a> {}

impl<'d, 'a> Fields<'d, 'a> {
    /// Goes through the entries of a directory once.
    // ensures { result ≡ directory.now }
    pub fn new(directory: &'d Directory<'a>) -> Self {
        Fields {
            directory,
            first: directory.first_entries(),
        }
    }

    /// The file that the directory stands in.
    // ensures endian { result.endian ≡ self.now.endian }
    // ensures file { result.bytes.now ≡ self.now.file }
    pub fn file(&self) -> File<'a> {
        self.directory.file()
    }

    /// The directory.
    // ensures { result ≡ self.now }
    pub fn directory(&self) -> Directory<'a> {
        self.directory.fork()
    }

    /// The first entry of a tag of `TAGS`.
    // requires { IsTrue (is_sought tag) }
    // ensures first { result ≡ Spec.field (entries_of self.now) tag }
    // ensures inside { IfSome result (λ entry. entry.offset + 4 ≤ length self.now.file) }
    pub fn first(&self, tag: u16) -> Option<Entry> {
        self.first.first(tag)
    }

    /// The first entry of a tag, which has to be there.
    // requires { IsTrue (is_sought tag) }
    // ensures exact { result ≡ Spec.needed (entries_of self.now) tag }
    // ensures inside { IfOk result (λ entry. entry.offset + 4 ≤ length self.now.file) }
    pub fn needed(&self, tag: u16) -> Result<Entry, FileFault> {
        self.first(tag).ok_or(FileFault::MissingField(tag))
    }

    /// The first value of a tag, or `absent` where no entry has the tag, if it is given.
    // requires { IsTrue (is_sought tag) }
    // ensures { result
    //     ≡ first_number self.now.endian self.now.file (entries_of self.now) tag absent }
    fn first_number(&self, tag: u16, absent: Option<u32>) -> Result<u32, FileFault> {
        match (self.first(tag), absent) {
            (Some(entry), _) => self.file().scalar(&entry),
            (None, Some(number)) => Ok(number),
            (None, None) => Err(FileFault::MissingField(tag)),
        }
    }

    /// The scalar of a tag, or `absent` where no entry has the tag, if it is given: a number within
    /// the limits, else it is refused so.
    // requires { IsTrue (is_sought tag) }
    // ensures exact { result ≡ Spec.scalar self.now.endian self.now.file (entries_of self.now)
    //     tag absent (test_of limits) (fault_of refusal) }
    // ensures allowed { IfOk result (λ number. IsTrue (test_of limits number)) }
    pub fn scalar(
        &self,
        tag: u16,
        absent: Option<u32>,
        limits: Limits,
        refusal: FieldRefusal,
    ) -> Result<u32, FileFault> {
        let number = self.first_number(tag, absent)?;
        if !limits.allow(number) {
            return Err(refusal.fault(tag));
        }
        Ok(number)
    }

    /// The fraction of a tag, where it is there and good.
    // requires { IsTrue (is_sought tag) }
    // ensures exact { result
    //     ≡ rational_of self.now.endian self.now.file (entries_of self.now) tag }
    // ensures good { IfSome result IsGoodRational }
    pub fn rational_of(&self, tag: u16) -> Option<(u32, u32)> {
        let entry = self.first(tag)?;
        self.file().good_rational(&entry)
    }
}
