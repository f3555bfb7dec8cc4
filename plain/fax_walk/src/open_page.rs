// Made by tools/plain-rust of crates/fax_walk/src/open_page.rt: change that.
//! A page whose rows are read, strip by strip.

use crate::opening::{OpenFault, UnopenedPage};
use crate::{Cursor, End, LongCursor, LongCursorRef};
use fax_bits::Memory;
use fax_files::{Cause, Chain, FileFault, PageForm, Strips};
use fax_page::{ReferenceRow, StripForm, StripReader};
use fax_rows::Row;
use kit_std::alloc::Global;
use kit_std::marker::Model;

/// A page whose rows are read, strip by strip.
pub(crate) struct OpenPage<'a> {
    page: u32,
    /// The chain after the page's directory.
    chain: Chain<'a>,
    form: PageForm,
    strips: Strips<'a>,
    /// The first row that is returned. Those before it in its strip are read for it alone.
    first: u32,
    /// The number of the strip that is read.
    number: u32,
    strip: StripReader<'a>,
    /// Where colours are exchanged, if they are: the row that was read last, as it is returned.
    exchanged: Option<Row>,
    /// How many rows the walk read before it opened the page.
    before: u64,
}

impl<'a> Model for OpenPage<'a> {}

/// A row for colours that are exchanged, where they are.
// requires { IsPageForm form.now }
// ensures { IfOk result (Spec.IsRoomFor form.now) }
pub(crate) fn row_for_exchange(alloc: Global, form: &PageForm) -> Result<Option<Row>, Memory> {
    if form.exchanged {
        Ok(Some(Row::white(alloc, form.width)?))
    } else {
        Ok(None)
    }
}

/// Takes the pels of another row of the same width, with their colours exchanged.
#[inline(never)]
// requires { length from.now ≡ length row.old }
// ensures { row.new ≡ map other from.now }
pub(crate) fn set_exchanged(row: &mut Row, from: &Row) {
    row.set_from(from);
    row.exchange();
}

/// Opens the next page, at the strip that holds the first row that is returned. So many rows were
/// read before.
// requires there { first < upcoming.form.rows }
// requires few { before ≤ upcoming.page * most_rows }
// ensures opened { IfOk result (Spec.IsOpenedAt upcoming.entry.directory.file
//     (first_at upcoming.entry.page (strip_at upcoming.entry.form first * upcoming.entry.form.rows_per_strip))
//     (row_in_strip upcoming.entry.form first) before) }
// ensures page { IfOk result (λ page. page.page ≡ upcoming.entry.page) }
// ensures first { IfOk result (λ page. page.first ≡ first) }
// ensures refused { IfErr result (Spec.IsRefusal (Spec.IsNoStrip upcoming.entry first)) }
// ensures there { HasPage upcoming.entry.directory.file upcoming.entry.page }
pub(crate) fn open<'a>(
    alloc: Global,
    upcoming: UnopenedPage<'a>,
    first: u32,
    before: u64,
) -> Result<OpenPage<'a>, OpenFault> {
    let form = upcoming.form;
    let strips = upcoming.strips;
    let number = first / form.rows_per_strip;
    let row = number * form.rows_per_strip;
    let bytes = match strips.bytes(number) {
        Ok(bytes) => bytes,
        Err(fault) => return Err(OpenFault::Ended(End::of_file(upcoming.page, row, fault))),
    };
    let strip = StripReader::new(alloc, bytes, form.strip_form(number))?;
    let exchanged = row_for_exchange(alloc, &form)?;
    Ok(OpenPage {
        page: upcoming.page,
        chain: upcoming.chain,
        form,
        strips,
        first,
        number,
        strip,
        exchanged,
        before,
    })
}

/// Opens the page after the directories that a chain has returned, at its first row. So many rows
/// were read before.
// requires chain { IsFileChain chain.now }
// requires few { before ≤ chain.now.yielded * most_rows }
// ensures opened { IfOk result
//     (Spec.IsOpenedAt chain.now.tiff.file (first_at chain.now.yielded 0) 0 before) }
// ensures refused { IfErr result (Spec.IsRefusal (λ end.
//     IsRow chain.now.tiff.file (first_at chain.now.yielded 0) (ends_as end))) }
// ensures there { result ≡ Err NoMemory → HasPage chain.now.tiff.file chain.now.yielded }
pub(crate) fn open_after<'a>(
    alloc: Global,
    chain: &Chain<'a>,
    before: u64,
) -> Result<OpenPage<'a>, OpenFault> {
    match UnopenedPage::after(chain.fork())? {
        Some(upcoming) => open(alloc, upcoming, 0, before),
        None => Err(OpenFault::Ended(End::EndOfPages)),
    }
}

/// A reader of a strip from a place inside it on, before this row of the strip.
// requires count { length bytes.now ≤ 4294967295 }
// requires limits { IsStripForm form }
// requires row { row < form.rows }
// ensures ok { IfOk result (Spec.IsAtPlace form bytes.now row place.now) }
// ensures err { IfErr result (Spec.IsNoPlace form bytes.now place.now) }
fn strip_at<'a>(
    alloc: Global,
    bytes: &'a [u8],
    form: StripForm,
    row: u32,
    place: &LongCursor,
) -> Result<StripReader<'a>, OpenFault> {
    let before = ReferenceRow::Runs(&place.runs);
    Ok(StripReader::inside(alloc, bytes, form, row, place.bits, before)?)
}

/// Opens the next page at a place inside a strip of it.
// requires { upcoming.page ≡ place.now.at.page }
// ensures opened { IfOk result
//     (Spec.IsOpenedAt upcoming.entry.directory.file (position_at place.now) 0 0) }
// ensures inner { OnOk result (IsPositionOn upcoming.entry.directory.file
//     (page_with upcoming.entry.directory upcoming.entry.form) place.now) }
// ensures refused { IfErr result (Spec.IsRefusal (Spec.IsNoInner upcoming.entry place.now)) }
// ensures within { result ≡ Err NoMemory → place.now.at.row < upcoming.entry.form.rows }
pub(crate) fn open_inside<'a>(
    alloc: Global,
    upcoming: UnopenedPage<'a>,
    place: &LongCursor,
) -> Result<OpenPage<'a>, OpenFault> {
    let form = upcoming.form;
    let row = place.at.row;
    if row >= form.rows || row % form.rows_per_strip == 0 {
        return Err(OpenFault::Ended(End::Outside));
    }
    let strips = upcoming.strips;
    let number = row / form.rows_per_strip;
    let strip_row = number * form.rows_per_strip;
    let bytes = match strips.bytes(number) {
        Ok(bytes) => bytes,
        Err(fault) => {
            return Err(OpenFault::Ended(End::of_file(upcoming.page, strip_row, fault)));
        }
    };
    let strip = strip_at(
        alloc,
        bytes,
        form.strip_form(number),
        row - strip_row,
        place,
    )?;
    let exchanged = row_for_exchange(alloc, &form)?;
    Ok(OpenPage {
        page: upcoming.page,
        chain: upcoming.chain,
        form,
        strips,
        first: row,
        number,
        strip,
        exchanged,
        before: 0,
    })
}

impl<'a> OpenPage<'a> {
    /// Opens the page after this one, all rows of which are read.
    // requires { row_of self.now ≡ self.now.form.rows }
    // ensures opened { IfOk result
    //     (Spec.IsOpenedAt self.now.directory.file (place_of self.now) 0 self.now.read) }
    // ensures refused { IfErr result (Spec.IsRefusal (λ end.
    //     IsRow self.now.directory.file (place_of self.now) (ends_as end))) }
    // ensures there { result ≡ Err NoMemory
    //     → HasPage self.now.directory.file (self.now.page + 1) }
    pub(crate) fn open_next(&self, alloc: Global) -> Result<OpenPage<'a>, OpenFault> {
        open_after(alloc, &self.chain, self.rows_read())
    }

    /// The number of the next row, or how many rows the page has, once all are read.
    // ensures upcoming { result ≡ row_of self.now }
    // ensures within { result ≤ self.now.form.rows }
    fn upcoming_row(&self) -> u32 {
        self.number * self.form.rows_per_strip + self.strip.row()
    }

    /// Whether all rows of the page are read.
    // ensures read { result ≡ true → row_of self.now ≡ self.now.form.rows }
    // ensures upcoming { result ≡ false → row_of self.now < self.now.form.rows }
    fn is_read(&self) -> bool {
        self.upcoming_row() == self.form.rows
    }

    /// The place of the next row, or the one after the last row.
    // ensures { result ≡ record { page = self.now.page; row = row_of self.now } }
    pub(crate) fn cursor(&self) -> Cursor {
        Cursor {
            page: self.page,
            row: self.upcoming_row(),
        }
    }

    /// How many rows the walk has read.
    // ensures { result ≡ self.now.read }
    pub(crate) fn rows_read(&self) -> u64 {
        self.before + self.strip.rows_read()
    }

    /// The place inside the strip after the row that was read last, if the strip continues after
    /// it, and its bits have a number of 32 bits.
    // ensures { let at = place_of self.now in
    //     place_inside result ≡ long_at (cursor_at at) at.inner }
    pub(crate) fn long_cursor_ref(&self) -> Option<LongCursorRef<'_>> {
        let place = self.strip.bit_place();
        let row = self.strip.row();
        if row == 0 || row == self.form.strip_form(self.number).rows {
            return None;
        }
        let Ok(bits) = u32::try_from(place) else {
            return None;
        };
        Some(LongCursorRef {
            at: self.cursor(),
            bits,
            reference: self.strip.reference(),
        })
    }

    /// The same, with the runs of the row before it.
    ///
    /// # Errors
    ///
    /// `Memory` where a growth was refused.
    // ensures { IfOk result (λ place. let at = place_of self.now in
    //     place ≡ long_at (cursor_at at) at.inner) }
    pub(crate) fn long_cursor(&self, alloc: Global) -> Result<Option<LongCursor>, Memory> {
        let Some(place) = self.long_cursor_ref() else {
            return Ok(None);
        };
        Ok(Some(LongCursor {
            at: place.at,
            bits: place.bits,
            runs: place.reference.runs(alloc)?,
        }))
    }

    /// Goes to the next strip, and returns whether it lies in the file.
    #[cold]
    #[inline(never)]
    // requires open { Spec.IsOpen self.old }
    // requires all_read { self.old.strip.row ≡ self.old.strip.form.rows }
    // requires upcoming { row_of self.old < self.old.form.rows }
    // ensures keeps { Spec.KeepsPlace self.old self.new }
    // ensures there { result ≡ true → Spec.IsNextStrip self.old self.new }
    // ensures outside { result ≡ false → Spec.StopsAtRow self.old
    //     (Fault self.old.page (row_of self.old) (File StripOutside)) }
    fn next_strip(&mut self) -> bool {
        // It stands apart, so that the step from row to row is short enough to be written out in
        // its callers.
        let number = self.number + 1;
        match self.strips.bytes(number) {
            Ok(bytes) => {
                let form = self.form.strip_form(number);
                self.strip.restart(bytes, form.rows);
                self.number = number;
                true
            }
            Err(_outside) => false,
        }
    }

    /// Exchanges the colours of the row that was read, where they are exchanged.
    #[inline(always)]
    // ensures same { self.new ≡ record self.old { shown = self.new.shown } }
    // ensures shown { self.new.shown ≡ exchanged self.old.form self.old.strip.reference }
    fn show_exchanged(&mut self) {
        if let Some(row) = &mut self.exchanged {
            set_exchanged(row, self.strip.reference());
        }
    }

    /// Reads the next row, and returns whether there was one, or how the rows end there.
    #[inline(always)]
    // requires { Spec.IsOpen self.old }
    // ensures ok { IfOk result (λ some. Spec.ReadsRowOrNone some self.old self.new) }
    // ensures keeps { OnErr result (Spec.KeepsPlace self.old self.new) }
    // ensures err { IfErr result (Spec.StopsAtRow self.old) }
    fn read_upcoming(&mut self) -> Result<bool, End> {
        loop {
            match self.strip.advance() {
                Ok(true) => {
                    self.show_exchanged();
                    return Ok(true);
                }
                // Only here it is asked whether the page is read, and not at each row.
                Ok(false) if self.is_read() => return Ok(false),
                Ok(false) => {
                    if !self.next_strip() {
                        let outside = FileFault::StripOutside;
                        return Err(End::of_file(self.page, self.upcoming_row(), outside));
                    }
                }
                Err(fault) => {
                    return Err(End::Fault {
                        page: self.page,
                        row: self.upcoming_row(),
                        cause: Cause::Strip(fault),
                    });
                }
            }
        }
    }

    /// Reads on to the next row that is returned, and returns whether there was one, or how the
    /// rows end before it.
    #[inline(always)]
    // requires { Spec.IsOpen self.old }
    // ensures ok { IfOk result (λ some. Spec.GivesRowOrNone some self.old self.new) }
    // ensures err { IfErr result (λ end. Spec.GivesNone self.old end self.new) }
    pub(crate) fn next_row(&mut self) -> Result<bool, End> {
        loop {
            if !self.read_upcoming()? {
                return Ok(false);
            }
            if self.upcoming_row() > self.first {
                return Ok(true);
            }
        }
    }

    /// The page's form.
    // ensures same { result.now ≡ self.now.form }
    // ensures limits { IsPageForm result.now }
    pub(crate) fn form(&self) -> &PageForm {
        &self.form
    }

    /// The row that was read last, as it is returned.
    // ensures { result.now ≡ self.now.shown }
    pub(crate) fn row(&self) -> &Row {
        match &self.exchanged {
            Some(row) => row,
            None => self.strip.reference(),
        }
    }
}
