// Made by tools/plain-rust of crates/fax_files/src/bad_rows.rt: change that.
//! What the receiver of a page counted of bad rows, and what a page that is written says of them
//! (RFC
//! 2306).

use crate::directory::Directory;
use crate::tags::{BAD_FAX_LINES, CLEAN_FAX_DATA, CONSECUTIVE_BAD_FAX_LINES};

/// What the receiver of a page counted of bad rows, those that it could not read. A number is
/// `None` where the page has no field of it, SHORT or LONG, whose first value lies in the file.
#[derive(Clone, Copy, Debug, PartialEq, Eq)]
pub struct Received {
    /// How many rows were bad (RFC 2306, BadFaxLines), 0 to 4,294,967,295.
    pub bad_rows: Option<u32>,
    /// Whether bad rows stand in the data (RFC 2306, CleanFaxData): 0 where none was bad, 1 where
    /// the receiver put others in their places, 2 where they still stand there. A file may have any
    /// number.
    pub clean: Option<u32>,
    /// How many bad rows came one after another at most (RFC 2306, ConsecutiveBadFaxLines), 0 to
    /// 4,294,967,295.
    pub consecutive: Option<u32>,
}

/// How many rows of a page that is written are bad, others of which stand in their places
/// (RFC 2306, CleanFaxData).
#[derive(Clone, Copy, Debug, PartialEq, Eq)]
pub struct BadRows {
    /// How many they are (RFC 2306, BadFaxLines).
    pub count: u32,
    /// How many came one after another at most (RFC 2306, ConsecutiveBadFaxLines).
    pub consecutive: u32,
}

impl<'a> Directory<'a> {
    /// The number of a field that the page may have.
    // ensures { result
    //     ≡ optional_scalar self.now.endian self.now.file (entries_of self.now) tag }
    fn optional_scalar(&self, tag: u16) -> Option<u32> {
        let entry = self.first_of(tag)?;
        self.file().scalar(&entry).ok()
    }

    /// What the receiver of the page counted of bad rows, whatever else its fields say. No field
    /// of these is refused: one that cannot be read is none (RFC 2306, BadFaxLines, CleanFaxData
    /// and ConsecutiveBadFaxLines).
    // ensures { result ≡ received_of self.now }
    pub fn received(&self) -> Received {
        Received {
            bad_rows: self.optional_scalar(BAD_FAX_LINES),
            clean: self.optional_scalar(CLEAN_FAX_DATA),
            consecutive: self.optional_scalar(CONSECUTIVE_BAD_FAX_LINES),
        }
    }
}
