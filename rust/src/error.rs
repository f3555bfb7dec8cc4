//! What is wrong with a file, or with what was given.

use crate::inner::{self, Cause, ConvertFault, End, RowsEnd, WalkFault, WriteFault};
use std::fmt;

/// Why nothing more is read or written.
///
/// ```
/// use faxpages::{Error, Fault, Fax};
/// let error = Fax::new(b"II*\0\0\0\0\0").page(0).unwrap_err();
/// assert_eq!(error, Error::Fault { page: 0, row: 0, fault: Fault::NoDirectory });
/// assert_eq!(error.to_string(), "page 0 row 0: NoDirectory");
/// ```
#[derive(Clone, Debug, PartialEq, Eq, Hash, thiserror::Error)]
#[non_exhaustive]
pub enum Error {
    /// The first fault of the file, at the next row of a page.
    #[error("page {page} row {row}: {fault}")]
    Fault {
        /// The page of the row.
        page: u32,
        /// The row; 0 for a fault of the header, of a directory or of a field.
        row: u32,
        /// What is wrong there.
        fault: Fault,
    },
    /// The file has no such page, row or place.
    #[error("the place is outside the file")]
    Outside,
    /// An image of a raw PBM is refused.
    #[error("image {image}: {fault}")]
    Pbm {
        /// The image, from 0.
        image: u64,
        /// What is wrong with it.
        fault: PbmFault,
    },
    /// The input is neither raw PBM nor TIFF.
    #[error("the input is neither raw PBM nor TIFF")]
    UnknownInput,
    /// The output would have more than 268,435,456 bytes, or a TIFF file more than 65,535 pages.
    #[error("the output is too large")]
    OutputTooLarge,
    /// What was given is out of range.
    #[error("{0}")]
    Invalid(Invalid),
    /// A buffer has no room for the next row.
    #[error("the buffer is too small")]
    NoRoom,
    /// A text, or numbers, are not those of a cursor.
    #[error("this is no cursor")]
    NotACursor,
    /// Memory was refused.
    #[error("out of memory")]
    Memory,
    /// A number of a later version: this version never returns it.
    #[error("the library answered with the unknown {what} {number}")]
    Unknown {
        /// What has the number, as `status`.
        what: &'static str,
        /// The number.
        number: u32,
    },
}

impl Error {
    pub(crate) fn at(page: u32, row: u32, cause: Cause) -> Self {
        Error::Fault { page, row, fault: Fault::of(cause) }
    }

    /// What a growth that was refused is.
    pub(crate) fn memory<T>(_refused: T) -> Self {
        Error::Memory
    }

    pub(crate) fn of_walk(fault: WalkFault) -> Self {
        match fault {
            WalkFault::Memory => Error::Memory,
            WalkFault::AtRow { page, row, cause } => Error::at(page, row, cause),
            WalkFault::CursorOutside => Error::Outside,
        }
    }

    /// Why there is no page.
    pub(crate) fn of_end(end: End) -> Self {
        match end {
            End::Fault { page, row, cause } => Error::at(page, row, cause),
            End::EndOfPages | End::Outside => Error::Outside,
        }
    }

    pub(crate) fn of_conversion(fault: ConvertFault) -> Self {
        match fault {
            ConvertFault::UnknownInput => Error::UnknownInput,
            ConvertFault::Pbm { image, fault } => Error::Pbm { image, fault: PbmFault::of(fault) },
            ConvertFault::Source { page, row, cause } => Error::at(page, row, cause),
            ConvertFault::OutputTooLarge => Error::OutputTooLarge,
            ConvertFault::Memory => Error::Memory,
        }
    }

    pub(crate) fn of_writing(fault: WriteFault) -> Self {
        match fault {
            WriteFault::Memory => Error::Memory,
            WriteFault::OutputTooLarge => Error::OutputTooLarge,
        }
    }
}

/// The faults of a file, of a strip, and of rows of unknown height, each with its number and what it means.
macro_rules! faults {
    (
        File { $($file:ident $(($tag:ty))? = $file_number:literal, $file_means:literal;)* }
        Strip { $($strip:ident = $strip_number:literal, $strip_means:literal;)* }
        Rows { $($rows:ident = $rows_number:literal, $rows_means:literal;)* }
    ) => {
        /// What is wrong with a file or with the data of a strip. The text is the name, as `DataEnds`, and the tag of
        /// the field at fault where there is one, as the program faxpages prints them.
        ///
        /// ```
        /// let fault = faxpages::Fault::MissingField(273);
        /// assert_eq!((fault.name(), fault.number(), fault.tag()), ("MissingField", 7, Some(273)));
        /// assert_eq!(fault.to_string(), "MissingField 273");
        /// ```
        #[derive(Clone, Copy, Debug, PartialEq, Eq, Hash)]
        #[non_exhaustive]
        pub enum Fault {
            $(#[doc = $file_means] $file $(($tag))?,)*
            $(#[doc = $strip_means] $strip,)*
            $(#[doc = $rows_means] $rows,)*
            /// A fault of a later version: this version never returns it.
            Unknown {
                /// Its number, as in `faxpages.h`.
                number: u32,
                /// The tag of the field at fault, or 0.
                tag: u32,
            },
        }

        impl Fault {
            pub(crate) fn of(cause: Cause) -> Self {
                match cause {
                    $(cause @ Cause::File(inner::FileFault::$file { .. }) => {
                        let _tag = cause.name().1;
                        Fault::$file $((<$tag>::from(_tag.unwrap_or(0))))?
                    })*
                    $(Cause::Strip(inner::StripFault::$strip) => Fault::$strip,)*
                }
            }

            /// Its number, its name and what it means.
            const fn row(&self) -> (u32, &'static str, &'static str) {
                match self {
                    $(Fault::$file { .. } => ($file_number, stringify!($file), $file_means),)*
                    $(Fault::$strip => ($strip_number, stringify!($strip), $strip_means),)*
                    $(Fault::$rows => ($rows_number, stringify!($rows), $rows_means),)*
                    Fault::Unknown { number, .. } => (*number, "Unknown", "A fault of a later version."),
                }
            }
        }
    };
}

faults! {
    File {
        ShortHeader = 1, "The file has fewer than eight bytes.";
        ByteOrder = 2, "It begins with neither II nor MM: not a TIFF file.";
        Magic = 3, "The number after the byte order is not 42: not a TIFF file, or BigTIFF.";
        NoDirectory = 4, "The header names no page.";
        DirectoryOutside = 5, "A page's directory lies outside the file: usually the end of the file is missing.";
        DirectoryLoop = 6, "A directory is followed by itself or an earlier one. All pages come before the fault.";
        MissingField(u32) = 7, "The field with this tag is missing.";
        BadField(u32) = 8,
            "The field is neither SHORT nor LONG, has too few values in the file, or is a RowsPerStrip of 0.";
        Unsupported(u32) = 9, "A field has a value that no fax page has.";
        OutOfLimits(u32) = 10, "The page is empty, wider than 65,535 pels or longer than 1,000,000 rows.";
        StripOutside = 11, "A strip lies outside the file: usually the end of the file is missing.";
    }
    Strip {
        DataEnds = 101, "A strip ends before its rows do: the sender was cut off, or the page is shorter than it says.";
        BadCode = 102, "The next bits are neither a code nor the beginning of one.";
        Extension = 103, "An extension of T.4 or T.6, such as uncompressed mode, which is not read.";
        RunTooLong = 104, "A run passes the width of the page.";
        OutOfRow = 105, "A vertical mode leads out of the row, or back.";
        MissingEol = 106, "No EOL stands before the row, in MH or MR.";
        EndMarker = 107,
            "Eleven zeros, as in an end mark, stand in place of a row: the page may be shorter than it says.";
    }
    Rows {
        TooManyRows = 108, "A strip of unknown height has more than 1,000,000 rows.";
    }
}

impl Fault {
    /// How rows of unknown height end, if they do not end well.
    pub(crate) fn of_rows(end: RowsEnd) -> Option<Self> {
        match end {
            RowsEnd::Marked | RowsEnd::DataEnd => None,
            RowsEnd::Fault(fault) => Some(Fault::of(Cause::Strip(fault))),
            RowsEnd::TooMany => Some(Fault::TooManyRows),
        }
    }

    /// Its number, which never changes, as in `faxpages.h`.
    ///
    /// ```
    /// assert_eq!(faxpages::Fault::DataEnds.number(), 101);
    /// ```
    #[must_use]
    pub const fn number(self) -> u32 {
        self.row().0
    }

    /// Its name, as `DataEnds`.
    ///
    /// ```
    /// assert_eq!(faxpages::Fault::DataEnds.name(), "DataEnds");
    /// ```
    #[must_use]
    pub const fn name(self) -> &'static str {
        self.row().1
    }

    /// What it means, in a sentence, as docs/TROUBLESHOOTING.md has it.
    ///
    /// ```
    /// assert_eq!(faxpages::Fault::MissingField(273).explanation(), "No strips are named: usually a page of tiles.");
    /// ```
    #[must_use]
    pub const fn explanation(&self) -> &'static str {
        match self {
            Fault::MissingField(273) => "No strips are named: usually a page of tiles.",
            Fault::Unsupported(259) => "Another compression than 3 (MH, MR) or 4 (MMR).",
            fault => fault.row().2,
        }
    }

    /// The tag of the field at fault, where it has one.
    ///
    /// ```
    /// assert_eq!(faxpages::Fault::BadField(256).tag(), Some(256));
    /// ```
    #[must_use]
    pub const fn tag(self) -> Option<u32> {
        match self {
            Fault::MissingField(tag) | Fault::BadField(tag) | Fault::Unsupported(tag) | Fault::OutOfLimits(tag) => {
                Some(tag)
            }
            _ => None,
        }
    }
}

impl fmt::Display for Fault {
    fn fmt(&self, f: &mut fmt::Formatter<'_>) -> fmt::Result {
        f.write_str(self.name())?;
        self.tag().map_or(Ok(()), |tag| write!(f, " {tag}"))
    }
}

/// What is wrong with an image of a raw PBM.
///
/// ```
/// use faxpages::{convert, Error, Options, PbmFault, Target};
/// let error = convert(b"P4\n8 2\n\0", &Options::new(Target::Mmr)).unwrap_err();
/// assert_eq!(error, Error::Pbm { image: 0, fault: PbmFault::ShortRaster });
/// ```
#[derive(Clone, Copy, Debug, PartialEq, Eq, Hash)]
#[non_exhaustive]
pub enum PbmFault {
    /// The image does not begin as raw PBM does (P4, width, height).
    BadHeader,
    /// It is empty, wider than 65,535 pels or longer than 1,000,000 rows.
    OutOfLimits,
    /// Its rows are not all there.
    ShortRaster,
    /// A fault of a later version, by its number: this version never returns it.
    Unknown(u32),
}

impl PbmFault {
    fn of(fault: inner::PbmFault) -> Self {
        match fault {
            inner::PbmFault::BadHeader => PbmFault::BadHeader,
            inner::PbmFault::OutOfLimits => PbmFault::OutOfLimits,
            inner::PbmFault::ShortRaster => PbmFault::ShortRaster,
        }
    }

    const fn row(self) -> (u32, &'static str) {
        match self {
            PbmFault::BadHeader => (201, "BadHeader"),
            PbmFault::OutOfLimits => (202, "OutOfLimits"),
            PbmFault::ShortRaster => (203, "ShortRaster"),
            PbmFault::Unknown(number) => (number, "Unknown"),
        }
    }

    /// Its number, which never changes, as in `faxpages.h`.
    ///
    /// ```
    /// assert_eq!(faxpages::PbmFault::ShortRaster.number(), 203);
    /// ```
    #[must_use]
    pub const fn number(self) -> u32 {
        self.row().0
    }

    /// Its name, as `ShortRaster`.
    ///
    /// ```
    /// assert_eq!(faxpages::PbmFault::ShortRaster.name(), "ShortRaster");
    /// ```
    #[must_use]
    pub const fn name(self) -> &'static str {
        self.row().1
    }
}

impl fmt::Display for PbmFault {
    fn fmt(&self, f: &mut fmt::Formatter<'_>) -> fmt::Result {
        f.write_str(self.name())
    }
}

/// What of that which was given is out of range.
///
/// ```
/// use faxpages::{code_strip, Coding, Invalid, StripForm};
/// let refused = code_strip(&StripForm::new(0, Coding::Mmr), None, &[0], 1).unwrap_err();
/// assert_eq!(refused, Invalid::Width(0).into());
/// assert_eq!(refused.to_string(), "a row has 1 to 65,535 pels, and not 0");
/// ```
#[derive(Clone, Copy, Debug, PartialEq, Eq, Hash, thiserror::Error)]
#[non_exhaustive]
pub enum Invalid {
    /// The pels of a row.
    #[error("a row has 1 to 65,535 pels, and not {0}")]
    Width(u32),
    /// The rows of a page or of a strip.
    #[error("there are 1 to 1,000,000 rows, and not {0}")]
    Rows(usize),
    /// K is 0.
    #[error("k is at least 1, and not 0")]
    K,
    /// The strips of a page have no row.
    #[error("a strip has at least 1 row, and not 0")]
    StripRows,
    /// EOLs should be aligned in a coding that has none.
    #[error("only MH and MR have EOLs that could be aligned")]
    Aligned,
    /// A resolution has a 0.
    #[error("a resolution is a fraction of numbers above 0, and not {0}/{1}")]
    Resolution(u32, u32),
    /// A raster ends before its last row.
    #[error("a raster of {len} bytes is too short: its rows take {needed}")]
    Raster {
        /// The bytes that it has.
        len: usize,
        /// The bytes that its rows take.
        needed: usize,
    },
    /// There are fewer rows than the form says.
    #[error("there are {given} rows, and the form says {wanted}")]
    FewRows {
        /// How many there are.
        given: usize,
        /// How many the form says.
        wanted: u32,
    },
    /// The runs of this row are not the longest ones of a row of the width.
    #[error("the runs of row {0} are not the longest ones of a row of the width")]
    Runs(usize),
    /// The bytes of a strip.
    #[error("a strip has at most 536,870,911 bytes, and not {0}")]
    StripBytes(usize),
    /// A file of no page.
    #[error("a file has at least 1 page, and not 0")]
    NoPage,
    /// The file has all its pages.
    #[error("the file has all its {0} pages")]
    AllPages(u32),
    /// The file lacks pages.
    #[error("the file has {added} of {total} pages")]
    FewPages {
        /// How many were added.
        added: u32,
        /// How many it should have.
        total: u32,
    },
    /// The library refuses what this crate takes for valid.
    #[error("the library refuses the form or the options")]
    Unknown,
}

impl From<Invalid> for Error {
    fn from(invalid: Invalid) -> Self {
        Error::Invalid(invalid)
    }
}

