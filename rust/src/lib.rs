//! Fax pages in TIFF-F files: read, checked, converted and written.
//!
//! ```
//! use faxpages::{Coding, Fax, Form, Writer};
//!
//! // Or the bytes of a file: std::fs::read("fax.tif")
//! let mut writer = Writer::new(1)?;
//! writer.add(&Form::new(8, 2, Coding::Mmr), None, &[0b0001_1000, 0b1111_1100], 1)?;
//! let file = writer.finish()?;
//!
//! let fax = Fax::new(&file);
//! for page in fax.pages() {
//!     let page = page?;
//!     assert_eq!((page.form.width, page.form.rows, page.packed), (8, 2, vec![0b0001_1000, 0b1111_1100]));
//! }
//! let mut rows = fax.lend_rows();
//! while let Some(row) = rows.next()? {
//!     println!("{:?}", row.runs().collect::<Vec<_>>()); // [3, 2, 3] and [0, 6, 2]
//! }
//! # Ok::<(), faxpages::Error>(())
//! ```
//!
//! A fax is a slice of the bytes of a file; nothing of it is copied. Pages and rows are numbered from 0. What comes
//! before an error is right; the error is the last item of an iterator.
//!
//! [`Fax::lend_rows`] lends rows, and takes no memory for them: each has its runs, its changing elements and its packed
//! bytes. Iterators return rows of your own: as packed bytes ([`Fax::rows`]), as runs ([`Fax::runs`]) or as changing
//! elements ([`Fax::changes`]). All begin at the beginning or at a [`Cursor`]. [`Fax::pages`], [`Fax::page`] and
//! [`Fax::page_into`] read a page at a time, and [`Fax::salvaged`] what is left of a damaged one. A [`Writer`] writes
//! a file page by page. A [`Strip`] is rows with no file around them, as on a line or in a PDF: a [`StripReader`] reads
//! it as it comes, and [`code_strip`] and [`code_strip_runs`] code it.
//!
//! With files from strangers: a page takes memory for the rows that were read, whatever its form says, so check the
//! rows and the width of its [`Form`] before. [`Fax::check`] and [`Fax::convert`] read all rows of all pages.
//!
//! All types are `Send` and `Sync`, so threads may share a fax, each with iterators of its own. No file of a
//! stranger causes a panic.
//!
//! # What is proved
//!
//! This crate is a thin one over the plain crates, the same sources as those of the program faxpages without what only
//! proofs need: their text is proved, and the build, by a rustc that is not, is tested against the proved library. What
//! this crate adds (names, iterators, strips that come in pieces) is tested. The crate `faxpages-sys` links the library
//! that was proved and built, for x86-64 Linux.
#![forbid(unsafe_code)]
#![deny(missing_docs)]
#![deny(clippy::must_use_candidate)]

mod cursor;
mod edges;
mod error;
mod form;
mod inner;
mod page;
mod receiving;
mod report;
mod rows;
mod salvaged;
mod strip;
mod writer;

pub use cursor::Cursor;
pub use edges::read_file;
pub use error::{Error, Fault, Invalid, PbmFault};
pub use form::{Coding, FillOrder, Form, Options, Target, Unit, UnknownWord};
pub use page::{Filled, Page, Pages};
pub use receiving::StripReader;
pub use report::{Note, NoteKind, Received, Report, StripReport};
pub use rows::{LentRow, LentRows, Row, RowChanges, RowFormat, RowRuns, Rows, Runs};
pub use salvaged::{Left, Salvaged, SalvagedRows, Stretch};
pub use strip::{code_strip, code_strip_runs, LentStripRows, Strip, StripForm, StripRows};
pub use writer::Writer;

use inner::{DamagedPage, Global};
use std::fmt;
use std::iter::FusedIterator;

/// In MR, a row in so many is coded by itself where nothing is said.
const USUAL_K: u32 = 4;

/// Memory whose size the file decides: if there is not enough, it is refused.
fn filled<T: Clone>(item: T, len: usize) -> Result<Vec<T>, Error> {
    let mut made = Vec::new();
    made.try_reserve_exact(len).map_err(Error::memory)?;
    made.resize(len, item);
    Ok(made)
}

/// A file of fax pages.
///
/// ```
/// # let mut writer = faxpages::Writer::new(1)?;
/// # writer.add(&faxpages::Form::new(8, 3, faxpages::Coding::Mmr), 1, &[0x18, 0xFC, 0x00], 1)?;
/// # let file = writer.finish()?;
/// let fax = faxpages::Fax::new(&file);
/// assert_eq!((fax.forms().count(), fax.rows().count()), (1, 3));
/// # Ok::<(), faxpages::Error>(())
/// ```
#[doc(alias = "TIFF")]
#[doc(alias = "Decoder")]
#[derive(Clone, Copy, Debug)]
pub struct Fax<'a> {
    file: &'a [u8],
}

impl<'a> Fax<'a> {
    /// The fax of these bytes. Nothing is read yet.
    ///
    /// ```
    /// # let mut writer = faxpages::Writer::new(1)?;
    /// # writer.add(&faxpages::Form::new(8, 3, faxpages::Coding::Mmr), 1, &[0x18, 0xFC, 0x00], 1)?;
    /// # let file = writer.finish()?;
    /// assert_eq!(faxpages::Fax::new(&file).pages().count(), 1);
    /// # Ok::<(), faxpages::Error>(())
    /// ```
    #[must_use]
    pub fn new(file: &'a [u8]) -> Self {
        Fax { file }
    }

    /// The forms of its pages.
    ///
    /// ```
    /// # let mut writer = faxpages::Writer::new(1)?;
    /// # writer.add(&faxpages::Form::new(8, 3, faxpages::Coding::Mmr), 1, &[0x18, 0xFC, 0x00], 1)?;
    /// # let file = writer.finish()?;
    /// let sizes: Vec<_> = faxpages::Fax::new(&file).forms().map(|form| form.map(|form| form.rows)).collect();
    /// assert_eq!(sizes, [Ok(3)]);
    /// # Ok::<(), faxpages::Error>(())
    /// ```
    pub fn forms(&self) -> Forms<'a> {
        self.forms_from(0)
    }

    /// The forms of its pages from a page on. Pages before it are not looked at, so that those after a fault are found.
    ///
    /// ```
    /// # let mut writer = faxpages::Writer::new(1)?;
    /// # writer.add(&faxpages::Form::new(8, 3, faxpages::Coding::Mmr), 1, &[0x18, 0xFC, 0x00], 1)?;
    /// # let file = writer.finish()?;
    /// assert_eq!(faxpages::Fax::new(&file).forms_from(1).next(), None);
    /// # Ok::<(), faxpages::Error>(())
    /// ```
    pub fn forms_from(&self, page: u32) -> Forms<'a> {
        let pages = inner::Pages::resume(self.file, inner::Cursor { page, row: 0 });
        Forms { pages, page, is_ended: false }
    }

    /// The form of a page.
    ///
    /// # Errors
    ///
    /// [`Error::Outside`] where there is no such page, and the fault of the file up to there.
    ///
    /// ```
    /// # let mut writer = faxpages::Writer::new(1)?;
    /// # writer.add(&faxpages::Form::new(8, 3, faxpages::Coding::Mmr), 1, &[0x18, 0xFC, 0x00], 1)?;
    /// # let file = writer.finish()?;
    /// assert_eq!(faxpages::Fax::new(&file).form(0)?.width, 8);
    /// # Ok::<(), faxpages::Error>(())
    /// ```
    pub fn form(&self, page: u32) -> Result<Form, Error> {
        self.forms_from(page).next().unwrap_or(Err(Error::Outside))
    }

    /// A page, whole. Its rows are read before memory is taken for more of them, whatever its form says.
    ///
    /// # Errors
    ///
    /// Its fault, or that of the file up to there; [`Error::Outside`] where there is no such page.
    ///
    /// ```
    /// # let mut writer = faxpages::Writer::new(1)?;
    /// # writer.add(&faxpages::Form::new(8, 3, faxpages::Coding::Mmr), 1, &[0x18, 0xFC, 0x00], 1)?;
    /// # let file = writer.finish()?;
    /// let page = faxpages::Fax::new(&file).page(0)?;
    /// assert_eq!((page.form.width, page.rows().count()), (8, 3));
    /// assert_eq!(page.row(1), Some(&[0b1111_1100][..]));
    /// # Ok::<(), faxpages::Error>(())
    /// ```
    pub fn page(&self, page: u32) -> Result<Page, Error> {
        let found = self.partial_page(page)?;
        match found.fault {
            Some(fault) => Err(fault),
            None => Ok(found),
        }
    }

    /// A page, or what stands before its fault, which it tells. See [`Page::lost`].
    ///
    /// # Errors
    ///
    /// As [`Fax::form`].
    ///
    /// ```
    /// # let mut writer = faxpages::Writer::new(1)?;
    /// # writer.add(&faxpages::Form::new(8, 20, faxpages::Coding::Mmr), 1, &[0; 20], 1)?;
    /// # let mut file = writer.finish()?;
    /// file[9..14].fill(0); // after the bits of eight white rows
    /// let page = faxpages::Fax::new(&file).partial_page(0)?;
    /// assert_eq!((page.rows().count(), page.lost()), (8, 12));
    /// assert_eq!(page.fault.unwrap().to_string(), "page 0 row 8: EndMarker");
    /// # Ok::<(), faxpages::Error>(())
    /// ```
    pub fn partial_page(&self, page: u32) -> Result<Page, Error> {
        Ok(Page::read(&mut LentRows::new(self.file, &Cursor::new(page, 0)), self.form(page)?))
    }

    /// What is left of a page, however it is damaged: each row that stands between its EOLs, and each stretch of rows
    /// that are lost. It takes memory for all rows that the form says.
    ///
    /// # Errors
    ///
    /// As [`Fax::form`], or [`Error::Memory`].
    ///
    /// ```
    /// # let mut writer = faxpages::Writer::new(1)?;
    /// # writer.add(&faxpages::Form::new(8, 20, faxpages::Coding::Mmr), 1, &[0; 20], 1)?;
    /// # let mut file = writer.finish()?;
    /// file[9..14].fill(0); // after the bits of eight white rows
    /// let left = faxpages::Fax::new(&file).salvaged(0)?;
    /// assert_eq!((left.found(), left.lost.len()), (8, 1));
    /// assert_eq!((left.lost[0].first, left.lost[0].rows), (8, 12));
    /// assert_eq!(left.lost[0].fault, faxpages::Fault::EndMarker);
    /// # Ok::<(), faxpages::Error>(())
    /// ```
    pub fn salvaged(&self, page: u32) -> Result<Salvaged, Error> {
        let found = DamagedPage::at(self.file, page).map_err(Error::of_end)?;
        let form = Form::of(page, &found.form());
        let left = Salvaged::read(found.rows(Global).map_err(Error::memory)?, form.width, form.rows)?;
        Ok(Salvaged { form: Some(form), ..left })
    }

    /// The same, one after another from the top down: each row that is found, and each stretch of rows that are lost.
    /// No row is read twice.
    ///
    /// # Errors
    ///
    /// As [`Fax::form`], or [`Error::Memory`].
    ///
    /// ```
    /// # let mut writer = faxpages::Writer::new(1)?;
    /// # writer.add(&faxpages::Form::new(8, 20, faxpages::Coding::Mmr), 1, &[0; 20], 1)?;
    /// # let mut file = writer.finish()?;
    /// file[9..14].fill(0); // after the bits of eight white rows
    /// for left in faxpages::Fax::new(&file).salvaged_rows(0)? {
    ///     match left? {
    ///         faxpages::Left::Row(row) => assert_eq!(row.runs(), [8]),
    ///         faxpages::Left::Lost(lost) => assert_eq!((lost.first, lost.rows), (8, 12)),
    ///     }
    /// }
    /// # Ok::<(), faxpages::Error>(())
    /// ```
    pub fn salvaged_rows(&self, page: u32) -> Result<SalvagedRows<'a>, Error> {
        let found = DamagedPage::at(self.file, page).map_err(Error::of_end)?;
        Ok(SalvagedRows::new(found.rows(Global).map_err(Error::memory)?, page))
    }

    /// What the receiver of a page counted of bad rows. No row is looked at, and these fields are never a fault.
    ///
    /// # Errors
    ///
    /// As [`Fax::form`].
    ///
    /// ```
    /// # let mut writer = faxpages::Writer::new(1)?;
    /// # writer.add(&faxpages::Form::new(8, 2, faxpages::Coding::Mmr), None, &[0x18, 0xFC], 1)?;
    /// # let file = writer.finish()?;
    /// let received = faxpages::Fax::new(&file).received(0)?;
    /// assert_eq!((received.bad_rows, received.clean, received.consecutive), (None, None, None));
    /// # Ok::<(), faxpages::Error>(())
    /// ```
    pub fn received(&self, page: u32) -> Result<Received, Error> {
        let its = DamagedPage::at(self.file, page).map_err(Error::of_end)?.received();
        Ok(Received { bad_rows: its.bad_rows, clean: its.clean, consecutive: its.consecutive })
    }

    /// All pages, each whole. They end at the first that is not, with its error.
    ///
    /// ```
    /// # let mut writer = faxpages::Writer::new(1)?;
    /// # writer.add(&faxpages::Form::new(8, 3, faxpages::Coding::Mmr), 1, &[0x18, 0xFC, 0x00], 1)?;
    /// # let file = writer.finish()?;
    /// for page in faxpages::Fax::new(&file).pages() {
    ///     let page = page?;
    ///     assert_eq!(page.packed.len(), page.form.rows as usize * page.form.stride());
    /// }
    /// # Ok::<(), faxpages::Error>(())
    /// ```
    pub fn pages(&self) -> Pages<'a> {
        Pages::new(self.file)
    }

    /// Reads a page into a buffer: row i into the `stride` bytes from `out[i * stride]` on, with zeros, which are
    /// white, after its packed bytes. [`Fax::form`] says how much room it takes.
    ///
    /// # Errors
    ///
    /// As [`Fax::form`], or [`Error::Memory`]. A fault of its rows, or a lack of room, is reported with the number of
    /// rows that were written.
    ///
    /// ```
    /// # let mut writer = faxpages::Writer::new(1)?;
    /// # writer.add(&faxpages::Form::new(8, 3, faxpages::Coding::Mmr), 1, &[0x18, 0xFC, 0x00], 1)?;
    /// # let file = writer.finish()?;
    /// let fax = faxpages::Fax::new(&file);
    /// let form = fax.form(0)?;
    /// let mut out = vec![0; form.rows as usize * 4];
    /// let filled = fax.page_into(0, &mut out, 4)?;
    /// assert_eq!((filled.rows, filled.stopped), (3, None));
    /// assert_eq!(out[4..8], [0b1111_1100, 0, 0, 0]);
    /// # Ok::<(), faxpages::Error>(())
    /// ```
    pub fn page_into(&self, page: u32, out: &mut [u8], stride: usize) -> Result<Filled, Error> {
        Ok(Filled::read(self.file, self.form(page)?, out, stride))
    }

    /// All its rows, page by page, each lent: no memory is taken for it.
    ///
    /// ```
    /// # let mut writer = faxpages::Writer::new(1)?;
    /// # writer.add(&faxpages::Form::new(8, 3, faxpages::Coding::Mmr), 1, &[0x18, 0xFC, 0x00], 1)?;
    /// # let file = writer.finish()?;
    /// let mut rows = faxpages::Fax::new(&file).lend_rows();
    /// while let Some(row) = rows.next()? {
    ///     assert_eq!(row.runs().sum::<u32>(), row.width());
    /// }
    /// # Ok::<(), faxpages::Error>(())
    /// ```
    pub fn lend_rows(&self) -> LentRows<'a> {
        self.lend_rows_at(&Cursor::default())
    }

    /// Its rows from a cursor on, each lent.
    ///
    /// ```
    /// # let mut writer = faxpages::Writer::new(1)?;
    /// # writer.add(&faxpages::Form::new(8, 3, faxpages::Coding::Mmr), 1, &[0x18, 0xFC, 0x00], 1)?;
    /// # let file = writer.finish()?;
    /// let rows = faxpages::Fax::new(&file);
    /// let mut rows = rows.lend_rows_at(&faxpages::Cursor::new(0, 1));
    /// assert_eq!(rows.next()?.unwrap().changes(), [0, 6]);
    /// # Ok::<(), faxpages::Error>(())
    /// ```
    pub fn lend_rows_at(&self, cursor: &Cursor) -> LentRows<'a> {
        LentRows::new(self.file, cursor)
    }

    /// All its rows, page by page.
    ///
    /// ```
    /// # let mut writer = faxpages::Writer::new(1)?;
    /// # writer.add(&faxpages::Form::new(8, 3, faxpages::Coding::Mmr), 1, &[0x18, 0xFC, 0x00], 1)?;
    /// # let file = writer.finish()?;
    /// assert!(faxpages::Fax::new(&file).rows().flatten().map(|row| row.packed).eq([[0x18], [0xFC], [0]]));
    /// # Ok::<(), faxpages::Error>(())
    /// ```
    pub fn rows(&self) -> Rows<'a> {
        self.rows_at(&Cursor::default())
    }

    /// Its rows from a page and a row on.
    ///
    /// ```
    /// # let mut writer = faxpages::Writer::new(1)?;
    /// # writer.add(&faxpages::Form::new(8, 3, faxpages::Coding::Mmr), 1, &[0x18, 0xFC, 0x00], 1)?;
    /// # let file = writer.finish()?;
    /// assert_eq!(faxpages::Fax::new(&file).rows_from(0, 1).count(), 2);
    /// # Ok::<(), faxpages::Error>(())
    /// ```
    pub fn rows_from(&self, page: u32, row: u32) -> Rows<'a> {
        self.rows_at(&Cursor::new(page, row))
    }

    /// Its rows from a cursor on.
    ///
    /// ```
    /// # let mut writer = faxpages::Writer::new(1)?;
    /// # writer.add(&faxpages::Form::new(8, 3, faxpages::Coding::Mmr), 1, &[0x18, 0xFC, 0x00], 1)?;
    /// # let file = writer.finish()?;
    /// let fax = faxpages::Fax::new(&file);
    /// let (_, after) = fax.read_rows(&faxpages::Cursor::default(), 2)?;
    /// assert_eq!(fax.rows_at(&after).next().unwrap()?.number, 2);
    /// # Ok::<(), faxpages::Error>(())
    /// ```
    pub fn rows_at(&self, cursor: &Cursor) -> Rows<'a> {
        Rows::new(self.file, cursor)
    }

    /// The runs of all its rows, page by page.
    ///
    /// ```
    /// # let mut writer = faxpages::Writer::new(1)?;
    /// # writer.add(&faxpages::Form::new(8, 3, faxpages::Coding::Mmr), 1, &[0x18, 0xFC, 0x00], 1)?;
    /// # let file = writer.finish()?;
    /// assert_eq!(faxpages::Fax::new(&file).runs().next().unwrap()?.runs, [3, 2, 3]);
    /// # Ok::<(), faxpages::Error>(())
    /// ```
    pub fn runs(&self) -> Rows<'a, RowRuns> {
        self.runs_at(&Cursor::default())
    }

    /// The runs of its rows from a cursor on.
    ///
    /// ```
    /// # let mut writer = faxpages::Writer::new(1)?;
    /// # writer.add(&faxpages::Form::new(8, 3, faxpages::Coding::Mmr), 1, &[0x18, 0xFC, 0x00], 1)?;
    /// # let file = writer.finish()?;
    /// let fax = faxpages::Fax::new(&file);
    /// assert_eq!(fax.runs_at(&faxpages::Cursor::new(0, 1)).next().unwrap()?.runs, [0, 6, 2]);
    /// # Ok::<(), faxpages::Error>(())
    /// ```
    pub fn runs_at(&self, cursor: &Cursor) -> Rows<'a, RowRuns> {
        Rows::new(self.file, cursor)
    }

    /// The changing elements of all its rows, page by page.
    ///
    /// ```
    /// # let mut writer = faxpages::Writer::new(1)?;
    /// # writer.add(&faxpages::Form::new(8, 3, faxpages::Coding::Mmr), 1, &[0x18, 0xFC, 0x00], 1)?;
    /// # let file = writer.finish()?;
    /// assert_eq!(faxpages::Fax::new(&file).changes().next().unwrap()?.changes, [3, 5]);
    /// # Ok::<(), faxpages::Error>(())
    /// ```
    pub fn changes(&self) -> Rows<'a, RowChanges> {
        self.changes_at(&Cursor::default())
    }

    /// The changing elements of its rows from a cursor on.
    ///
    /// ```
    /// # let mut writer = faxpages::Writer::new(1)?;
    /// # writer.add(&faxpages::Form::new(8, 3, faxpages::Coding::Mmr), 1, &[0x18, 0xFC, 0x00], 1)?;
    /// # let file = writer.finish()?;
    /// let fax = faxpages::Fax::new(&file);
    /// assert_eq!(fax.changes_at(&faxpages::Cursor::new(0, 1)).next().unwrap()?.changes, [0, 6]);
    /// # Ok::<(), faxpages::Error>(())
    /// ```
    pub fn changes_at(&self, cursor: &Cursor) -> Rows<'a, RowChanges> {
        Rows::new(self.file, cursor)
    }

    /// At most `most` rows from a cursor on, and the cursor after them, from which no row is read again. There are
    /// fewer before a fault, and none at the end of the file.
    ///
    /// # Errors
    ///
    /// Why no row can be read at the cursor. What comes after a row is the error of the next call.
    ///
    /// ```
    /// # let mut writer = faxpages::Writer::new(1)?;
    /// # writer.add(&faxpages::Form::new(8, 3, faxpages::Coding::Mmr), 1, &[0x18, 0xFC, 0x00], 1)?;
    /// # let file = writer.finish()?;
    /// let (rows, after) = faxpages::Fax::new(&file).read_rows(&faxpages::Cursor::default(), 2)?;
    /// assert_eq!(rows[1].packed, [0xFC]);
    /// assert_eq!(after.row(), 2);
    /// # Ok::<(), faxpages::Error>(())
    /// ```
    pub fn read_rows(&self, cursor: &Cursor, most: usize) -> Result<(Vec<Row>, Cursor), Error> {
        let mut rows = Rows::new(self.file, cursor);
        Ok((rows.take_most(most)?, rows.cursor()))
    }

    /// The same for the runs of rows.
    ///
    /// # Errors
    ///
    /// As [`Fax::read_rows`].
    ///
    /// ```
    /// # let mut writer = faxpages::Writer::new(1)?;
    /// # writer.add(&faxpages::Form::new(8, 3, faxpages::Coding::Mmr), 1, &[0x18, 0xFC, 0x00], 1)?;
    /// # let file = writer.finish()?;
    /// let (rows, after) = faxpages::Fax::new(&file).read_runs(&faxpages::Cursor::default(), 2)?;
    /// assert_eq!(rows[1].runs, [0, 6, 2]);
    /// assert_eq!(after.row(), 2);
    /// # Ok::<(), faxpages::Error>(())
    /// ```
    pub fn read_runs(&self, cursor: &Cursor, most: usize) -> Result<(Vec<RowRuns>, Cursor), Error> {
        let mut rows = Rows::new(self.file, cursor);
        Ok((rows.take_most(most)?, rows.cursor()))
    }

    /// The same for the changing elements of rows.
    ///
    /// # Errors
    ///
    /// As [`Fax::read_rows`].
    ///
    /// ```
    /// # let mut writer = faxpages::Writer::new(1)?;
    /// # writer.add(&faxpages::Form::new(8, 3, faxpages::Coding::Mmr), 1, &[0x18, 0xFC, 0x00], 1)?;
    /// # let file = writer.finish()?;
    /// let (rows, after) = faxpages::Fax::new(&file).read_changes(&faxpages::Cursor::default(), 2)?;
    /// assert_eq!(rows[1].changes, [0, 6]);
    /// assert_eq!(after.row(), 2);
    /// # Ok::<(), faxpages::Error>(())
    /// ```
    pub fn read_changes(&self, cursor: &Cursor, most: usize) -> Result<(Vec<RowChanges>, Cursor), Error> {
        let mut rows = Rows::new(self.file, cursor);
        Ok((rows.take_most(most)?, rows.cursor()))
    }

    /// Reads all rows up to the first fault, and reports on the file.
    ///
    /// # Errors
    ///
    /// [`Error::Memory`]. A fault is in the report.
    ///
    /// ```
    /// # let mut writer = faxpages::Writer::new(1)?;
    /// # writer.add(&faxpages::Form::new(8, 3, faxpages::Coding::Mmr), 1, &[0x18, 0xFC, 0x00], 1)?;
    /// # let file = writer.finish()?;
    /// assert_eq!(faxpages::Fax::new(&file).check()?.rows, 3);
    /// # Ok::<(), faxpages::Error>(())
    /// ```
    pub fn check(&self) -> Result<Report, Error> {
        inner::check(Global, self.file).map(|found| Report::of(&found)).map_err(Error::memory)
    }

    /// The file turned into what the options say.
    ///
    /// # Errors
    ///
    /// As [`convert`].
    ///
    /// ```
    /// # let mut writer = faxpages::Writer::new(1)?;
    /// # writer.add(&faxpages::Form::new(8, 3, faxpages::Coding::Mmr), 1, &[0x18, 0xFC, 0x00], 1)?;
    /// # let file = writer.finish()?;
    /// let options = faxpages::Options::new(faxpages::Target::Pbm);
    /// assert!(faxpages::Fax::new(&file).convert(&options)?.starts_with(b"P4"));
    /// # Ok::<(), faxpages::Error>(())
    /// ```
    pub fn convert(&self, options: &Options) -> Result<Vec<u8>, Error> {
        convert(self.file, options)
    }

    /// A damaged file as a new one: the rows that are found, and white ones in place of lost rows, which TIFF-F counts
    /// in the fields 326 to 328. Pages without a form are left out; if none has one it is `None`.
    ///
    /// # Errors
    ///
    /// [`Error::OutputTooLarge`], [`Error::Memory`], or [`Error::Invalid`].
    ///
    /// ```
    /// # let mut writer = faxpages::Writer::new(1)?;
    /// # writer.add(&faxpages::Form::new(8, 3, faxpages::Coding::Mmr), 1, &[0x18, 0xFC, 0x00], 1)?;
    /// # let mut file = writer.finish()?;
    /// file[8] = 0; // the first byte of the strip
    /// let options = faxpages::Options::new(faxpages::Target::Mmr);
    /// let mended = faxpages::Fax::new(&file).salvaged_file(&options)?.unwrap_or_default();
    /// assert_eq!(faxpages::Fax::new(&mended).received(0)?.bad_rows, Some(3));
    /// # Ok::<(), faxpages::Error>(())
    /// ```
    pub fn salvaged_file(&self, options: &Options) -> Result<Option<Vec<u8>>, Error> {
        let options = options.inner()?;
        let output = inner::salvage_file(Global, self.file, &options).map_err(Error::of_writing)?;
        output.map(|output| bytes_of(&output)).transpose()
    }
}

/// Turns bytes, TIFF-F or raw PBM, into what the options say.
///
/// # Errors
///
/// The first fault of a file, [`Error::Pbm`], [`Error::UnknownInput`], [`Error::OutputTooLarge`], [`Error::Memory`], or
/// [`Error::Invalid`], which says what of the options is out of range.
///
/// ```
/// use faxpages::{convert, Fax, Options, Target};
/// let file = convert(b"P4\n8 2\n\x18\xFC", &Options::new(Target::Mmr))?;
/// assert_eq!(Fax::new(&file).page(0)?.packed, [0x18, 0xFC]);
/// # Ok::<(), faxpages::Error>(())
/// ```
pub fn convert(file: &[u8], options: &Options) -> Result<Vec<u8>, Error> {
    let output = inner::convert_sparse(Global, file, &options.inner()?).map_err(Error::of_conversion)?;
    bytes_of(&output)
}

/// The bytes of a file that was written.
fn bytes_of(output: &inner::SparseBytes) -> Result<Vec<u8>, Error> {
    let (mut out, mut parts) = (Vec::new(), output.parts());
    out.try_reserve_exact(output.len()).map_err(Error::memory)?;
    while let Some(part) = parts.next_part() {
        out.extend_from_slice(part.held);
        out.resize(out.len() + part.zeros, 0);
    }
    Ok(out)
}

/// The version of the crate, as 11300 for 1.13.0.
///
/// ```
/// assert!(faxpages::version() >= 1_13_00);
/// ```
#[must_use]
pub fn version() -> u32 {
    let numbers = env!("CARGO_PKG_VERSION").split('.').map(|part| part.parse().unwrap_or(0));
    numbers.fold(0, |version, number: u32| 100 * version + number)
}

/// The forms of pages, and the error that ends them.
///
/// ```
/// # let mut writer = faxpages::Writer::new(1)?;
/// # writer.add(&faxpages::Form::new(8, 3, faxpages::Coding::Mmr), 1, &[0x18, 0xFC, 0x00], 1)?;
/// # let file = writer.finish()?;
/// for form in faxpages::Fax::new(&file).forms() {
///     assert_eq!(form?.coding, faxpages::Coding::Mmr);
/// }
/// # Ok::<(), faxpages::Error>(())
/// ```
#[must_use = "an iterator reads nothing before it is asked"]
pub struct Forms<'a> {
    pages: inner::Pages<'a>,
    page: u32,
    is_ended: bool,
}

impl Iterator for Forms<'_> {
    type Item = Result<Form, Error>;

    fn next(&mut self) -> Option<Self::Item> {
        if self.is_ended {
            return None;
        }
        let form = self.pages.next_page().map_err(Error::of_walk).transpose();
        self.is_ended = !matches!(form, Some(Ok(_)));
        Some(form?.map(|(page, form)| {
            self.page = page + 1;
            Form::of(page, &form)
        }))
    }
}

impl FusedIterator for Forms<'_> {}

impl fmt::Debug for Forms<'_> {
    fn fmt(&self, f: &mut fmt::Formatter<'_>) -> fmt::Result {
        f.debug_struct("Forms").field("page", &self.page).finish_non_exhaustive()
    }
}
