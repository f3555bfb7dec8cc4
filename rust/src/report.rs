//! What a check finds, and what the receiver of a page counted.

use crate::inner::{self, RowsEnd, StripNotes};
use crate::{Coding, Error, Fault, StripForm};
use std::fmt;

/// What the receiver of a page counted of bad rows, those that it could not read, by three fields of TIFF-F (RFC 2306).
/// A number is none where the page has no such field, or one that is neither SHORT nor LONG, or whose first value lies
/// outside the file. Receivers need not count, and may count too few.
///
/// ```
/// # let mut writer = faxpages::Writer::new(1)?;
/// # writer.add(&faxpages::Form::new(8, 2, faxpages::Coding::Mmr), None, &[0x18, 0xFC], 1)?;
/// # let file = writer.finish()?;
/// assert_eq!(faxpages::Fax::new(&file).received(0)?, faxpages::Received::default());
/// # Ok::<(), faxpages::Error>(())
/// ```
#[doc(alias = "BadFaxLines")]
#[doc(alias = "CleanFaxData")]
#[doc(alias = "ConsecutiveBadFaxLines")]
#[derive(Clone, Copy, Debug, Default, PartialEq, Eq, Hash)]
#[non_exhaustive]
pub struct Received {
    /// How many rows were bad (326, BadFaxLines).
    pub bad_rows: Option<u32>,
    /// What became of the bad rows (327, CleanFaxData): 0 where no row was bad; 1 where some were, and the receiver put
    /// other rows in their places; 2 where bad rows stand in the data.
    pub clean: Option<u32>,
    /// How many bad rows came one after another, at most (328, ConsecutiveBadFaxLines).
    pub consecutive: Option<u32>,
}

/// What may trouble other readers of a page, or of a strip of it.
///
/// ```
/// use faxpages::{Coding, Strip, StripForm};
/// let form = StripForm { rows: Some(1), ..StripForm::new(8, Coding::Mmr) };
/// let report = Strip::new(&[0x80], form).check()?;
/// assert_eq!((report.notes[0].strip, report.notes[0].kind.to_string()), (Some(0), "N1 NoEndOfBlock".to_string()));
/// # Ok::<(), faxpages::Error>(())
/// ```
#[derive(Clone, Copy, Debug, PartialEq, Eq, Hash)]
#[non_exhaustive]
pub struct Note {
    /// The page's number.
    pub page: u32,
    /// The strip, or none where the note is on the page's directory.
    pub strip: Option<u32>,
    /// What may trouble them.
    pub kind: NoteKind,
}

macro_rules! kinds {
    ($($kind:ident = $number:literal, $means:literal;)*) => {
        /// What may trouble other readers. The text is that of the program faxpages, as `N2 ReturnToControl`.
        ///
        /// ```
        /// assert_eq!(faxpages::NoteKind::ReturnToControl.to_string(), "N2 ReturnToControl");
        /// ```
        #[derive(Clone, Copy, Debug, PartialEq, Eq, Hash)]
        #[non_exhaustive]
        pub enum NoteKind {
            $(#[doc = $means] $kind,)*
            /// A kind of a later version, by its number: this version never returns it.
            Unknown(u32),
        }

        impl NoteKind {
            const fn of(kind: inner::NoteKind) -> Self {
                match kind {
                    $(inner::NoteKind::$kind => NoteKind::$kind,)*
                    // `check` has no such note: `Fax::received` has what it says.
                    inner::NoteKind::BadFaxLines(_) => NoteKind::Unknown(6),
                }
            }

            /// Its number, as 2 for N2.
            ///
            /// ```
            /// assert_eq!(faxpages::NoteKind::ReturnToControl.number(), 2);
            /// ```
            #[must_use]
            pub const fn number(self) -> u32 {
                match self {
                    $(NoteKind::$kind => $number,)*
                    NoteKind::Unknown(number) => number,
                }
            }

            /// Its name, as `ReturnToControl`.
            ///
            /// ```
            /// assert_eq!(faxpages::NoteKind::ReturnToControl.name(), "ReturnToControl");
            /// ```
            #[must_use]
            pub const fn name(self) -> &'static str {
                match self {
                    $(NoteKind::$kind => stringify!($kind),)*
                    NoteKind::Unknown(_) => "Unknown",
                }
            }
        }
    };
}

kinds! {
    NoEndOfBlock = 1, "N1: a strip of MMR without its end of facsimile block.";
    ReturnToControl = 2, "N2: a strip of MH or MR with a return to control.";
    DataAfterEnd = 3, "N3: a strip with a 1 after its last row and end mark.";
    NotT4Choice = 4, "N4: a strip with a row in other codes than T.4's choice.";
    EntriesOutOfOrder = 5, "N5: a directory whose entries do not ascend.";
}

impl fmt::Display for NoteKind {
    fn fmt(&self, f: &mut fmt::Formatter<'_>) -> fmt::Result {
        write!(f, "N{} {}", self.number(), self.name())
    }
}

/// What a check found up to the first fault.
///
/// ```
/// # let mut writer = faxpages::Writer::new(1)?;
/// # writer.add(&faxpages::Form::new(8, 2, faxpages::Coding::Mmr), None, &[0x18, 0xFC], 1)?;
/// # let file = writer.finish()?;
/// let report = faxpages::Fax::new(&file).check()?;
/// assert_eq!((report.pages, report.rows, report.notes.len(), report.fault), (1, 2, 0, None));
/// # Ok::<(), faxpages::Error>(())
/// ```
#[derive(Clone, Debug, PartialEq, Eq, Hash)]
#[non_exhaustive]
pub struct Report {
    /// How many pages were read wholly.
    pub pages: u64,
    /// How many rows were read.
    pub rows: u64,
    /// What may trouble other readers, page by page.
    pub notes: Vec<Note>,
    /// The first fault, after which nothing was read.
    pub fault: Option<Error>,
}

impl Report {
    pub(crate) fn of(found: &inner::Report) -> Self {
        let note = |note: &inner::Note| Note { page: note.page, strip: note.strip, kind: NoteKind::of(note.kind) };
        Report {
            pages: found.pages,
            rows: found.rows,
            notes: found.notes.iter().map(note).collect(),
            fault: found.fault.map(|(place, cause)| Error::at(place.page, place.row, cause)),
        }
    }
}

/// What a check found in a strip.
///
/// ```
/// use faxpages::{Coding, Strip, StripForm};
/// let form = StripForm { rows: Some(20), ..StripForm::new(8, Coding::Mmr) };
/// let report = Strip::new(&[0xFF, 0, 0, 0], form).check()?;
/// assert_eq!((report.rows, report.lost, report.end_mark), (8, Some(12), false));
/// assert_eq!(report.fault.unwrap().to_string(), "page 0 row 8: EndMarker");
/// # Ok::<(), faxpages::Error>(())
/// ```
#[derive(Clone, Debug, PartialEq, Eq, Hash)]
#[non_exhaustive]
pub struct StripReport {
    /// How many rows were read.
    pub rows: u32,
    /// How many rows are lacking after these; none where the form says no number.
    pub lost: Option<u32>,
    /// Whether the end mark stands after the last row: EOFB in MMR, RTC in MH and MR.
    pub end_mark: bool,
    /// What may trouble other readers; none where there is a fault.
    pub notes: Vec<Note>,
    /// The fault, after which nothing was read.
    pub fault: Option<Error>,
}

impl StripReport {
    /// So many rows, how they end, and what is noted on them, which is nothing where they do not end well.
    pub(crate) fn of(form: &StripForm, rows: u32, notes: Option<StripNotes>, end: RowsEnd) -> Self {
        let fault = Fault::of_rows(end).map(|fault| Error::Fault { page: 0, row: rows, fault });
        let notes = notes.filter(|_| fault.is_none());
        let end_mark = notes.is_some_and(|notes| match form.coding {
            Coding::Mmr => !notes.no_end_of_block,
            Coding::Mh | Coding::Mr => notes.return_to_control,
        });
        let kinds = notes.map(|notes| {
            [
                (NoteKind::NoEndOfBlock, notes.no_end_of_block),
                (NoteKind::ReturnToControl, notes.return_to_control),
                (NoteKind::DataAfterEnd, notes.data_after_end),
                (NoteKind::NotT4Choice, notes.not_t4_choice),
            ]
        });
        let noted = kinds.into_iter().flatten().filter(|(_, is_so)| *is_so);
        let notes = noted.map(|(kind, _)| Note { page: 0, strip: Some(0), kind }).collect();
        StripReport { rows, lost: form.lost(rows), end_mark, notes, fault }
    }
}
