// Made by tools/plain-rust of crates/fax_files/src/lib.rt: change that.
//! TIFF files of fax pages: header, directories, fields, and the bytes of a strip (TIFF 6.0).
#![forbid(unsafe_code)]

mod bad_rows;
mod chain;
mod directory;
mod entries;
mod fields;
mod numbers;
mod page;
mod pbm;
mod strips;
mod tags;
mod tiff;
mod tiff_writer;
mod totals;
mod written;

pub use bad_rows::{BadRows, Received};
pub use chain::Chain;
pub use directory::Directory;
pub use fax_page;
pub use fax_page::{Coding, FillOrder, StripFault, StripForm};
pub use pbm::{PbmFault, PbmImage, PbmReader, put_pbm_head, put_pbm_row};
pub use strips::Strips;
use thiserror::Error;
pub use tiff::Tiff;
pub use tiff_writer::{PageBytes, TiffWriter, WriteFault, write_page};
pub use totals::put_totals;
pub use written::MAX_FILE;

/// Which byte of a number stands first in a file (TIFF 6.0, section 2).
#[derive(Clone, Copy, Debug, PartialEq, Eq)]
pub enum Endian {
    /// The lowest byte, in files that begin with `II`.
    Little,
    /// The highest byte, in files that begin with `MM`.
    Big,
}

/// Why a file's header, a directory, a field or a strip's offset is refused.
#[derive(Clone, Copy, Debug, PartialEq, Eq, Error)]
pub enum FileFault {
    /// The file has fewer bytes than a header, which has eight.
    #[error("the file is shorter than a header")]
    ShortHeader,
    /// The file does not begin with a known order of bytes.
    #[error("the order of bytes is not known")]
    ByteOrder,
    /// The header's number is not 42.
    #[error("the header's number is not 42")]
    Magic,
    /// The header gives 0 for the first directory.
    #[error("the file has no directory")]
    NoDirectory,
    /// A directory does not lie whole in the file.
    #[error("a directory lies outside the file")]
    DirectoryOutside,
    /// The chain of directories turns back.
    #[error("the chain of directories turns back")]
    DirectoryLoop,
    /// The field of this tag has to be there and is not.
    #[error("field {0} is missing")]
    MissingField(u16),
    /// The field of this tag has a type or a count that is refused, or a value outside the file.
    #[error("field {0} is bad")]
    BadField(u16),
    /// The field of this tag has a value that is not read.
    #[error("field {0} has a value that is not supported")]
    Unsupported(u16),
    /// The field of this tag passes a limit.
    #[error("field {0} is out of limits")]
    OutOfLimits(u16),
    /// A strip's bytes do not lie in the file.
    #[error("a strip lies outside the file")]
    StripOutside,
}

impl FileFault {
    /// The fault's own name.
    // ensures { result.now ≡ Names.fault_name (Cause.File self) }
    fn name(self) -> &'static str {
        match self {
            FileFault::ShortHeader => "ShortHeader",
            FileFault::ByteOrder => "ByteOrder",
            FileFault::Magic => "Magic",
            FileFault::NoDirectory => "NoDirectory",
            FileFault::DirectoryOutside => "DirectoryOutside",
            FileFault::DirectoryLoop => "DirectoryLoop",
            FileFault::MissingField(_) => "MissingField",
            FileFault::BadField(_) => "BadField",
            FileFault::Unsupported(_) => "Unsupported",
            FileFault::OutOfLimits(_) => "OutOfLimits",
            FileFault::StripOutside => "StripOutside",
        }
    }

    /// The tag of the field at fault, where it has one.
    // ensures { result ≡ Names.fault_tag (Cause.File self) }
    fn tag(self) -> Option<u16> {
        match self {
            FileFault::MissingField(tag)
            | FileFault::BadField(tag)
            | FileFault::Unsupported(tag)
            | FileFault::OutOfLimits(tag) => Some(tag),
            FileFault::ShortHeader
            | FileFault::ByteOrder
            | FileFault::Magic
            | FileFault::NoDirectory
            | FileFault::DirectoryOutside
            | FileFault::DirectoryLoop
            | FileFault::StripOutside => None,
        }
    }
}

/// Why a row cannot be had: a fault of the file, or one of the strip that holds the row.
#[derive(Clone, Copy, Debug, PartialEq, Eq, Error)]
pub enum Cause {
    #[error(transparent)]
    File(FileFault),
    #[error(transparent)]
    Strip(StripFault),
}

impl Cause {
    /// The fault's name, and the tag of the field at fault where it has one.
    // ensures name { result.0.now ≡ Names.fault_name self.now }
    // ensures tag { result.1 ≡ Names.fault_tag self.now }
    pub fn name(&self) -> (&'static str, Option<u16>) {
        match self {
            Cause::File(fault) => (fault.name(), fault.tag()),
            Cause::Strip(fault) => (strip_name(*fault), None),
        }
    }
}

/// The own name of a strip's fault.
// ensures { result.now ≡ Names.fault_name (Cause.Strip fault) }
fn strip_name(fault: StripFault) -> &'static str {
    match fault {
        StripFault::DataEnds => "DataEnds",
        StripFault::BadCode => "BadCode",
        StripFault::Extension => "Extension",
        StripFault::RunTooLong => "RunTooLong",
        StripFault::OutOfRow => "OutOfRow",
        StripFault::MissingEol => "MissingEol",
        StripFault::EndMarker => "EndMarker",
    }
}

/// The form of a page, as the fields of its directory give it.
#[derive(Clone, Copy, Debug, PartialEq, Eq)]
pub struct PageForm {
    /// The pels of a row, 1 to 65,535.
    pub width: u32,
    /// The rows of the page, 1 to 1,000,000.
    pub rows: u32,
    /// How the rows are coded.
    pub coding: Coding,
    /// Which bit of a byte is first.
    pub order: FillOrder,
    /// Whether each EOL ends on a byte boundary of its strip, after fill (TIFF 6.0, T4Options):
    /// false in MMR, which has no EOLs. Rows are read in the same way either way.
    pub aligned: bool,
    /// Whether black is coded as white, and white as black.
    pub exchanged: bool,
    /// The rows of each strip but the last, which may have fewer: 1 to `rows`.
    pub rows_per_strip: u32,
    /// The number of strips: the rows divided by those of a strip, rounded up.
    pub strips: u32,
    /// Pels of a row in each unit, as a fraction, with both numbers above 0.
    pub x: (u32, u32),
    /// Rows in each unit, as a fraction, with both numbers above 0.
    pub y: (u32, u32),
    /// The unit of the resolution: 1 for none, 2 for an inch, 3 for a centimetre.
    pub unit: u16,
}

impl PageForm {
    /// The form of strip `s`, from 0, which holds the page's rows from `s * rows_per_strip` on
    /// (TIFF 6.0, RowsPerStrip).
    // requires limits { IsPageForm self.now }
    // requires strip { s < self.now.strips }
    // ensures exact { result ≡ form_of_strip self.now s }
    // ensures limits { IsStripForm result }
    // ensures begins { s * self.now.rows_per_strip < self.now.rows }
    pub fn strip_form(&self, s: u32) -> StripForm {
        StripForm {
            coding: self.coding,
            order: self.order,
            width: self.width,
            rows: self.rows_per_strip.min(self.rows - s * self.rows_per_strip),
            aligned: self.aligned,
        }
    }
}
