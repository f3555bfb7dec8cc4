// Made by tools/plain-rust of crates/fax_walk/src/options.rt: change that.
//! What a file is converted to, and why it is not.

use crate::Cause;
use fax_bits::Memory;
use fax_files::{Coding, FillOrder, PbmFault};
use thiserror::Error;

/// What a file is turned into.
#[derive(Clone, Copy, Debug, PartialEq, Eq)]
pub enum Target {
    /// Raw PBM.
    Pbm,
    /// TIFF, with rows coded one by one (T.4, section 4.1).
    Mh,
    /// TIFF, with rows coded over one another (T.4, section 4.2).
    Mr,
    /// TIFF, with rows coded over one another (T.6).
    Mmr,
}

impl Target {
    /// How rows are coded, in a TIFF file.
    // ensures { result ≡ coding_of self }
    pub(crate) fn coding(self) -> Option<Coding> {
        match self {
            Target::Pbm => None,
            Target::Mh => Some(Coding::Mh),
            Target::Mr => Some(Coding::Mr),
            Target::Mmr => Some(Coding::Mmr),
        }
    }
}

/// How a file is written. For PBM only the target is looked at.
#[derive(Clone, Copy, Debug, PartialEq, Eq)]
pub struct Options {
    pub target: Target,
    /// Which bit of a byte is first.
    pub order: FillOrder,
    /// In MR, a row in this many is coded by itself; at least 1.
    pub k: u32,
    /// The rows of a strip, at least 1, or none where a page is one strip.
    pub strip: Option<u32>,
    /// In MH and MR alone, whether each EOL ends on a byte boundary of its strip, after fill (T.4,
    /// section 4.1.3; TIFF 6.0, T4Options).
    pub aligned: bool,
}

/// Why a file is not converted.
#[derive(Clone, Copy, Debug, PartialEq, Eq, Error)]
pub enum ConvertFault {
    /// The bytes begin neither with `P4` nor with `II` or `MM`.
    #[error("the input is neither raw PBM nor TIFF")]
    UnknownInput,
    /// The first fault of a PBM, at this image, from 0.
    #[error("image {image}: {fault}")]
    Pbm { image: u64, fault: PbmFault },
    /// The first fault of a TIFF file, at this row of a page, both from 0.
    #[error("page {page} row {row}: {cause}")]
    Source { page: u32, row: u32, cause: Cause },
    /// What is written has more than 268,435,456 bytes, or a TIFF file more than 65,535 pages.
    #[error("the output is too large")]
    OutputTooLarge,
    /// A growth was refused.
    #[error("out of memory")]
    Memory,
}

impl From<Memory> for ConvertFault {
    fn from(_refused: Memory) -> Self {
        ConvertFault::Memory
    }
}
