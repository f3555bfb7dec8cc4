// Made by tools/plain-rust of crates/fax_walk/src/walk.rt: change that.
//! The walk over a file's rows, in order of page and then of row.

use crate::open_page::{OpenPage, open, open_after, open_inside};
use crate::opening::{OpenFault, UnopenedPage};
use crate::{Cursor, End, LongCursor, WalkFault, WalkStart};
use fax_bits::Memory;
use fax_files::PageForm;
use fax_rows::Row;
use kit_std::alloc::Global;
use kit_std::marker::Model;

/// The place of a row: its page and its number there, both from 0.
#[derive(Clone, Copy, Debug, PartialEq, Eq)]
pub struct Place {
    pub page: u32,
    pub row: u32,
}

/// A place inside a strip, which a walk lends: a cursor, how many bits of the strip stand before
/// its row, and the row before it as it was coded, before any exchange of colours.
#[derive(Clone, Copy)]
pub struct LongCursorRef<'a> {
    pub at: Cursor,
    pub bits: u32,
    pub reference: &'a Row,
}

/// The row that a walk returned last, which it lends: its place, its page's form, and its pels.
#[derive(Clone, Copy)]
pub(crate) struct LastRow<'a> {
    pub(crate) place: Place,
    pub(crate) form: &'a PageForm,
    pub(crate) row: &'a Row,
}

/// A walk over the rows of a file. Contracts see its file, what it began with, how many rows it
/// returned, and how the rows ended, once it reported that.
pub struct Walk<'a> {
    alloc: Global,
    file: &'a [u8],
    origin: WalkStart,
    /// How many rows were returned.
    yielded: u64,
    /// The place after the last of them, or the one that it began with.
    cursor: Cursor,
    /// The page whose rows are read, or were read last, if one was opened.
    page: Option<OpenPage<'a>>,
    final_end: Option<End>,
}

impl<'a> Model for Walk<'a> {}

/// Opens the page of a cursor's row, or the next one where it stands after a page's last row.
// ensures opened { IfOk result (Spec.IsOpenedFirst file.now (AtCursor cursor)) }
// ensures refused { IfErr result (IsRefusal (Spec.HasNoRows file.now (AtCursor cursor))) }
// ensures there { result ≡ Err NoMemory → EntersFirst file.now (AtCursor cursor) }
fn open_at<'a>(alloc: Global, file: &'a [u8], cursor: Cursor) -> Result<OpenPage<'a>, OpenFault> {
    let Some(upcoming) = UnopenedPage::at(file, cursor)? else {
        return Err(OpenFault::Ended(End::EndOfPages));
    };
    if cursor.row < upcoming.form.rows {
        open(alloc, upcoming, cursor.row, 0)
    } else {
        open_after(alloc, &upcoming.chain, 0)
    }
}

/// Opens the page of a long cursor's row, at its place.
// ensures opened { IfOk result (Spec.IsOpenedFirst file.now (AtLongCursor place.now)) }
// ensures refused { IfErr result (IsRefusal (Spec.HasNoRows file.now (AtLongCursor place.now))) }
// ensures there { result ≡ Err NoMemory → EntersFirst file.now (AtLongCursor place.now) }
fn open_at_place<'a>(
    alloc: Global,
    file: &'a [u8],
    place: &LongCursor,
) -> Result<OpenPage<'a>, OpenFault> {
    let Some(upcoming) = UnopenedPage::at(file, place.at)? else {
        return Err(OpenFault::Ended(End::EndOfPages));
    };
    open_inside(alloc, upcoming, place)
}

/// Opens the page of the next row, after the one that is open, if one is. This is no part of the
/// step from row to row: there what it puts on the stack would be cleared at each row.
#[cold]
#[inline(never)]
// requires { Spec.IsReadOrNone page.old }
// ensures { Spec.IsEntered file.now origin.now page.old result page.new }
fn open_upcoming<'a>(
    alloc: Global,
    file: &'a [u8],
    origin: &WalkStart,
    page: &mut Option<OpenPage<'a>>,
) -> Result<(), OpenFault> {
    let opened = match (&*page, origin) {
        (None, WalkStart::AtCursor(cursor)) => open_at(alloc, file, *cursor)?,
        (None, WalkStart::AtLongCursor(place)) => open_at_place(alloc, file, place)?,
        (Some(page), _) => page.open_next(alloc)?,
    };
    *page = Some(opened);
    Ok(())
}

/// Reads the next row that is returned. Where the page that is open has no more, the next one is
/// opened.
#[inline(always)]
// requires { Spec.IsOpenOrNone page.old }
// ensures { Spec.IsReadNext file.now origin.now page.old result page.new }
fn advance_page<'a>(
    alloc: Global,
    file: &'a [u8],
    origin: &WalkStart,
    page: &mut Option<OpenPage<'a>>,
) -> Result<(), OpenFault> {
    // The next page is opened beside the one that is read to its end, and takes its place when it
    // is open: where memory is refused the walk is as it was. After the last row the page stays for
    // its long cursor alone.
    loop {
        if let Some(open) = page {
            if open.next_row()? {
                return Ok(());
            }
        }
        open_upcoming(alloc, file, origin, page)?;
    }
}

impl<'a> Walk<'a> {
    /// A walk over all rows of a file, from any bytes. Nothing is read yet.
    // ensures { result ≡ walk_start file.now }
    pub fn start(alloc: Global, file: &'a [u8]) -> Self {
        Walk::resume(alloc, file, Cursor { page: 0, row: 0 })
    }

    /// A walk over the rows of a file from what it begins with on. Nothing is read yet. Then the
    /// page that it names is read: after a cursor from the strip on that holds its row, after a
    /// long cursor from its place inside the strip on, and no row before that.
    // ensures { result ≡ walk_from file.now origin }
    pub fn begin(alloc: Global, file: &'a [u8], origin: WalkStart) -> Self {
        let cursor = origin.cursor();
        Walk {
            alloc,
            file,
            origin,
            yielded: 0,
            cursor,
            page: None,
            final_end: None,
        }
    }

    /// A walk that begins with a cursor.
    // ensures { result ≡ walk_from file.now (AtCursor cursor) }
    pub fn resume(alloc: Global, file: &'a [u8], cursor: Cursor) -> Self {
        Walk::begin(alloc, file, WalkStart::AtCursor(cursor))
    }

    /// A walk that begins with a long cursor.
    // ensures { result ≡ walk_from file.now (AtLongCursor cursor) }
    pub fn resume_long(alloc: Global, file: &'a [u8], cursor: LongCursor) -> Self {
        Walk::begin(alloc, file, WalkStart::AtLongCursor(cursor))
    }

    /// The cursor after the last row that was returned, or the one that the walk began with.
    // ensures { IsCursorOf self.now result }
    pub fn cursor(&self) -> Cursor {
        self.cursor
    }

    /// The place inside a strip after the last row that was returned, or the one that the walk
    /// began with: `None` where it has none, after a strip's last row, and where the bits before it
    /// are more than 4,294,967,295. A fault changes nothing.
    ///
    /// # Errors
    ///
    /// `Memory` where a growth was refused.
    // ensures { IfOk result (IsLongOf self.now) }
    pub fn long_cursor(&self, alloc: Global) -> Result<Option<LongCursor>, Memory> {
        match &self.page {
            Some(page) if self.yielded > 0 => page.long_cursor(alloc),
            _ => self.origin.long_cursor(),
        }
    }

    /// The place inside a strip after the last row that was returned, as `long_cursor` has it once
    /// a row was returned, and `None` before that. It takes no memory.
    // ensures place { 0 < self.now.yielded → IsLongOf self.now (place_inside result) }
    // ensures none { self.now.yielded ≡ 0 → result ≡ None }
    pub fn long_cursor_ref(&self) -> Option<LongCursorRef<'_>> {
        match &self.page {
            Some(page) if self.yielded > 0 => page.long_cursor_ref(),
            _ => None,
        }
    }

    /// The row that was returned last, if one was.
    #[inline(always)]
    // requires { self.now.final_end ≡ None }
    // ensures { Spec.IsLastOf self.now result }
    pub(crate) fn last_row(&self) -> Option<LastRow<'_>> {
        match &self.page {
            Some(page) => Some(LastRow {
                place: Place {
                    page: self.cursor.page,
                    row: self.cursor.row - 1,
                },
                form: page.form(),
                row: page.row(),
            }),
            None => None,
        }
    }

    /// How many rows this walk has read: those that it returned, and those that stand before the
    /// first of them in its strip.
    // ensures { AreRead self.now result }
    pub fn rows_read(&self) -> u64 {
        match &self.page {
            Some(page) => page.rows_read(),
            None => 0,
        }
    }

    /// Goes to the next row, and returns whether there was one. It takes memory only where it
    /// enters a page.
    ///
    /// # Errors
    ///
    /// As `next_row`.
    #[inline(always)]
    // ensures { Spec.IsAdvance self.old result self.new }
    fn advance_row(&mut self) -> Result<bool, WalkFault> {
        if let Some(end) = self.final_end {
            return end.answer();
        }
        match advance_page(self.alloc, self.file, &self.origin, &mut self.page) {
            Ok(()) => {
                let Some(page) = &self.page else {
                    unreachable!();
                };
                self.cursor = page.cursor();
                self.yielded += 1;
                Ok(true)
            }
            Err(OpenFault::Memory) => Err(WalkFault::Memory),
            Err(OpenFault::Ended(end)) => {
                self.final_end = Some(end);
                end.answer()
            }
        }
    }

    /// Returns the next row with its place, or `None` once all rows were returned. It takes memory
    /// only where it enters a page.
    ///
    /// # Errors
    ///
    /// `Memory` where a growth was refused: the walk is as it was. `AtRow` at the fault that ends
    /// the rows, `CursorOutside` where the walk began at no place of the file, from then on.
    #[inline(always)]
    // ensures* next { sem 𝓛 (WalkEndsAs self.entry (IsNext self.old result)) }
    pub fn next_row(&mut self) -> Result<Option<(Place, &Row)>, WalkFault> {
        if !self.advance_row()? {
            return Ok(None);
        }
        let place = Place {
            page: self.cursor.page,
            row: self.cursor.row - 1,
        };
        match &self.page {
            Some(page) => Ok(Some((place, page.row()))),
            None => unreachable!(),
        }
    }
}
