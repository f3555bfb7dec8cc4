//! Strips: rows of T.4 or T.6 data with no file around them.

use crate::inner::{self, classify_end, BitSource, Cause, Global, Items, NotesFault, NotesReader, RowsEnd, MOST_ROWS};
use crate::rows::{Fused, LentRow};
use crate::writer::{invalid_raster, invalid_rows};
use crate::{Coding, Error, Fault, FillOrder, Invalid, Row, RowChanges, RowFormat, RowRuns};
use crate::{Salvaged, StripReport, USUAL_K};
use std::fmt;
use std::iter::FusedIterator;

/// The most bytes of a strip.
pub(crate) const MOST_BYTES: usize = 536_870_911;

/// The form of a strip. A later version may have more fields: write `..StripForm::new(..)` after those that you name.
///
/// ```
/// use faxpages::{Coding, FillOrder, StripForm};
/// let form = StripForm { order: FillOrder::LsbFirst, ..StripForm::new(1728, Coding::Mmr) };
/// assert_eq!((form.rows, form.aligned), (None, false));
/// ```
#[derive(Clone, Copy, Debug, PartialEq, Eq, Hash)]
pub struct StripForm {
    /// The pels of a row, 1 to 65,535.
    pub width: u32,
    /// The number of rows, 1 to 1,000,000. If it is none, there are up to 1,000,000, which end at the end mark (EOFB,
    /// RTC), or with the data, if nothing but zeros is left after a whole row: [`Strip::check`] says which it is.
    pub rows: Option<u32>,
    /// How its rows are coded.
    pub coding: Coding,
    /// Which bit of a byte is first.
    pub order: FillOrder,
    /// Whether each EOL is written so that it ends on a byte boundary. Rows are read the same either way.
    pub aligned: bool,
}

impl StripForm {
    /// A strip of unknown height, the highest bit first.
    ///
    /// ```
    /// use faxpages::{Coding, StripForm};
    /// assert_eq!(StripForm::new(1728, Coding::Mmr).rows, None);
    /// ```
    #[must_use]
    pub const fn new(width: u32, coding: Coding) -> Self {
        StripForm { width, rows: None, coding, order: FillOrder::MsbFirst, aligned: false }
    }

    /// The form in which so many bytes are read.
    pub(crate) fn read(&self, bytes: usize) -> Result<inner::StripForm, Error> {
        let form = self.of_rows(self.rows.unwrap_or(MOST_ROWS) as usize)?;
        if bytes > MOST_BYTES {
            return Err(Invalid::StripBytes(bytes).into());
        }
        Ok(form)
    }

    /// The form of so many rows.
    fn of_rows(&self, rows: usize) -> Result<inner::StripForm, Error> {
        if let Some(invalid) = invalid_rows(self.width, rows, self.coding, self.aligned) {
            return Err(invalid.into());
        }
        let (coding, order) = (self.coding.inner(), self.order.inner());
        Ok(inner::StripForm { coding, order, width: self.width, rows: rows as u32, aligned: self.aligned })
    }

    /// How many rows are lacking after so many; none where the form says no number.
    pub(crate) fn lost(&self, rows: u32) -> Option<u32> {
        self.rows.map(|wanted| wanted.saturating_sub(rows))
    }

    /// The fault with which the rows end after so many, if they do not end well: the next one has this fault, or there
    /// is none. The source stands where the next one begins.
    pub(crate) fn end(&self, source: &BitSource<'_>, rows: u32, fault: Option<inner::StripFault>) -> Option<Fault> {
        match self.rows {
            Some(_) => fault.map(|fault| Fault::of(Cause::Strip(fault))),
            None => Fault::of_rows(classify_end(source, self.coding.inner(), rows, fault)),
        }
    }

    /// The bits of a strip from one on.
    pub(crate) fn source<'a>(&self, bytes: &'a [u8], bits: u64) -> BitSource<'a> {
        let mut source = BitSource::new(bytes, self.order.inner());
        source.skip(bits);
        source
    }

    fn stride(&self) -> usize {
        self.width.div_ceil(8) as usize
    }
}

/// A strip: rows of T.4 or T.6 data with no file around them, as on a line or in a PDF.
///
/// ```
/// use faxpages::{Coding, Strip, StripForm};
/// let strip = Strip::new(&[0x80, 0x08, 0x00, 0x80], StripForm::new(8, Coding::Mmr));
/// let rows: Result<Vec<_>, _> = strip.rows().collect();
/// assert_eq!(rows?[0].runs(), [8]);
/// # Ok::<(), faxpages::Error>(())
/// ```
#[derive(Clone, Copy, Debug)]
pub struct Strip<'a> {
    bytes: &'a [u8],
    form: StripForm,
}

impl<'a> Strip<'a> {
    /// The strip of these bytes, at most 536,870,911. Nothing is read yet.
    ///
    /// ```
    /// use faxpages::{Coding, Strip, StripForm};
    /// assert_eq!(Strip::new(&[0x80, 0x08, 0x00, 0x80], StripForm::new(8, Coding::Mmr)).rows().count(), 1);
    /// ```
    #[must_use]
    pub const fn new(bytes: &'a [u8], form: StripForm) -> Self {
        Strip { bytes, form }
    }

    /// Its rows, whose page is 0, and the error that ends them. [`Error::Invalid`] where the form is none.
    ///
    /// ```
    /// use faxpages::{Coding, Strip, StripForm};
    /// let strip = Strip::new(&[0x2F, 0xF8], StripForm { rows: Some(2), ..StripForm::new(8, Coding::Mmr) });
    /// assert_eq!(strip.rows().next().unwrap()?.packed, [0b0011_0000]);
    /// # Ok::<(), faxpages::Error>(())
    /// ```
    pub fn rows(&self) -> StripRows<'a> {
        StripRows::new(self)
    }

    /// The same as runs.
    ///
    /// ```
    /// use faxpages::{Coding, Strip, StripForm};
    /// let strip = Strip::new(&[0x2F, 0xF8], StripForm { rows: Some(2), ..StripForm::new(8, Coding::Mmr) });
    /// let rows: Result<Vec<_>, _> = strip.runs().map(|row| row.map(|row| row.runs)).collect();
    /// assert_eq!(rows?, [[2, 2, 4], [2, 2, 4]]);
    /// # Ok::<(), faxpages::Error>(())
    /// ```
    pub fn runs(&self) -> StripRows<'a, RowRuns> {
        StripRows::new(self)
    }

    /// The same as changing elements.
    ///
    /// ```
    /// use faxpages::{Coding, Strip, StripForm};
    /// let strip = Strip::new(&[0x2F, 0xF8], StripForm { rows: Some(2), ..StripForm::new(8, Coding::Mmr) });
    /// assert_eq!(strip.changes().next().unwrap()?.changes, [2, 4]);
    /// # Ok::<(), faxpages::Error>(())
    /// ```
    pub fn changes(&self) -> StripRows<'a, RowChanges> {
        StripRows::new(self)
    }

    /// The same, each lent: no memory is taken for it.
    ///
    /// ```
    /// use faxpages::{Coding, Strip, StripForm};
    /// let strip = Strip::new(&[0x2F, 0xF8], StripForm { rows: Some(2), ..StripForm::new(8, Coding::Mmr) });
    /// let mut rows = strip.lend_rows();
    /// while let Some(row) = rows.next()? {
    ///     assert!(row.runs().eq([2, 2, 4]));
    /// }
    /// # Ok::<(), faxpages::Error>(())
    /// ```
    pub fn lend_rows(&self) -> LentStripRows<'a> {
        LentStripRows { strip: *self, reader: None }
    }

    /// What is left of it, however it is damaged: each row that stands between its EOLs, and each stretch of rows that
    /// are lost. If its height is unknown, the rows go up to an end mark, to the end of the data, or to a lost row
    /// after which no EOL is left, and there is room for all of them: 3 MB of data can have 1,000,000 rows.
    ///
    /// # Errors
    ///
    /// [`Error::Invalid`] where the form is none, or the strip is too long; or [`Error::Memory`].
    ///
    /// ```
    /// use faxpages::{Coding, Strip, StripForm};
    /// let form = StripForm { rows: Some(3), ..StripForm::new(8, Coding::Mh) };
    /// let left = Strip::new(&[0x00, 0x19, 0x80, 0x0F, 0x00, 0x19, 0x80], form).salvaged()?;
    /// assert_eq!((left.found(), left.is_lost(1)), (2, true));
    /// # Ok::<(), faxpages::Error>(())
    /// ```
    pub fn salvaged(&self) -> Result<Salvaged, Error> {
        let form = self.form.read(self.bytes.len())?;
        if self.form.rows.is_none() {
            return Salvaged::read_uncounted(self.bytes, form);
        }
        let rows = inner::SalvagedRows::of_strip(Global, self.bytes, form).map_err(Error::memory)?;
        Salvaged::read(rows, form.width, form.rows)
    }

    /// Reads all rows, and reports what stands after them.
    ///
    /// # Errors
    ///
    /// [`Error::Invalid`] where the form is none or the strip too long, or [`Error::Memory`]. A fault is in the report.
    ///
    /// ```
    /// use faxpages::{Coding, Strip, StripForm};
    /// let report = Strip::new(&[0x80, 0x08, 0x00, 0x80], StripForm::new(8, Coding::Mmr)).check()?;
    /// assert_eq!((report.rows, report.end_mark, report.fault), (1, true, None));
    /// # Ok::<(), faxpages::Error>(())
    /// ```
    pub fn check(&self) -> Result<StripReport, Error> {
        let form = self.form.read(self.bytes.len())?;
        let mut reader = NotesReader::new(Global, form.width).map_err(Error::memory)?;
        if self.form.rows.is_none() {
            let found = reader.uncounted_notes(self.bytes, form).map_err(Error::memory)?;
            return Ok(StripReport::of(&self.form, found.rows, Some(found.notes), found.end));
        }
        match reader.notes(self.bytes, form) {
            Ok(notes) => Ok(StripReport::of(&self.form, form.rows, Some(notes), RowsEnd::DataEnd)),
            Err(NotesFault::Strip { row, fault }) => Ok(StripReport::of(&self.form, row, None, RowsEnd::Fault(fault))),
            Err(NotesFault::Memory) => Err(Error::Memory),
        }
    }
}

/// Rows of a strip that are lent: [`Strip::lend_rows`] makes it.
///
/// ```
/// use faxpages::{Coding, Strip, StripForm};
/// let strip = Strip::new(&[0x2F, 0xF8], StripForm { rows: Some(2), ..StripForm::new(8, Coding::Mmr) });
/// let (mut rows, mut black) = (strip.lend_rows(), 0);
/// while let Some(row) = rows.next()? {
///     black += row.runs().skip(1).step_by(2).sum::<u32>();
/// }
/// assert_eq!(black, 4);
/// # Ok::<(), faxpages::Error>(())
/// ```
#[must_use = "nothing is read before it is asked"]
pub struct LentStripRows<'a> {
    strip: Strip<'a>,
    reader: Option<inner::StripReader<'a>>,
}

impl LentStripRows<'_> {
    /// The next row, or none after the last one. It stands until the next call, and takes no memory.
    ///
    /// # Errors
    ///
    /// Why there is no next row. Each later call returns it again.
    ///
    /// ```
    /// use faxpages::{Coding, Strip, StripForm};
    /// let strip = Strip::new(&[0xFF, 0, 0, 0], StripForm { rows: Some(20), ..StripForm::new(8, Coding::Mmr) });
    /// let (mut rows, mut count) = (strip.lend_rows(), 0);
    /// let ended = loop {
    ///     match rows.next() {
    ///         Ok(Some(_)) => count += 1,
    ///         Ok(None) => break None,
    ///         Err(error) => break Some(error.to_string()),
    ///     }
    /// };
    /// assert_eq!((count, ended.as_deref()), (8, Some("page 0 row 8: EndMarker")));
    /// # Ok::<(), faxpages::Error>(())
    /// ```
    // It is no iterator: what an iterator returns outlives the next call.
    #[allow(clippy::should_implement_trait)]
    #[inline]
    pub fn next(&mut self) -> Result<Option<LentRow<'_>>, Error> {
        let reader = match &mut self.reader {
            Some(reader) => reader,
            none => none.insert(self.strip.reader()?),
        };
        match reader.advance() {
            Ok(true) => Ok(Some(LentRow { page: 0, number: reader.row() - 1, row: reader.reference() })),
            Ok(false) => self.strip.end(reader, None),
            Err(fault) => self.strip.end(reader, Some(fault)),
        }
    }

    fn rows(&self) -> u32 {
        self.reader.as_ref().map_or(0, inner::StripReader::row)
    }
}

impl<'a> Strip<'a> {
    fn reader(&self) -> Result<inner::StripReader<'a>, Error> {
        let form = self.form.read(self.bytes.len())?;
        inner::StripReader::new(Global, self.bytes, form).map_err(Error::memory)
    }

    /// How the rows end where a reader stands.
    #[cold]
    fn end<R>(&self, reader: &inner::StripReader<'_>, fault: Option<inner::StripFault>) -> Result<Option<R>, Error> {
        let (row, source) = (reader.row(), self.form.source(self.bytes, reader.bit_place()));
        let fault = self.form.end(&source, row, fault);
        fault.map_or(Ok(None), |fault| Err(Error::Fault { page: 0, row, fault }))
    }
}

impl fmt::Debug for LentStripRows<'_> {
    fn fmt(&self, f: &mut fmt::Formatter<'_>) -> fmt::Result {
        f.debug_struct("LentStripRows").field("strip", &self.strip).field("rows", &self.rows()).finish_non_exhaustive()
    }
}

/// The rows of a strip, and the error that ends them.
///
/// ```
/// use faxpages::{Coding, Strip, StripForm};
/// let strip = Strip::new(&[0x2F, 0xF8], StripForm { rows: Some(2), ..StripForm::new(8, Coding::Mmr) });
/// assert!(strip.rows().all(|row| row.is_ok_and(|row| row.packed == [0b0011_0000])));
/// ```
#[must_use = "an iterator reads nothing before it is asked"]
#[derive(Debug)]
pub struct StripRows<'a, T: RowFormat = Row> {
    rows: LentStripRows<'a>,
    state: Fused<T>,
}

impl<'a, T: RowFormat> StripRows<'a, T> {
    fn new(strip: &Strip<'a>) -> Self {
        StripRows { rows: strip.lend_rows(), state: Fused::NEW }
    }

    /// The next row, as the iterator has it, but lent: it stands until the next call, in the memory of the one before.
    ///
    /// ```
    /// use faxpages::{Coding, Strip, StripForm};
    /// let strip = Strip::new(&[0x2F, 0xF8], StripForm { rows: Some(2), ..StripForm::new(8, Coding::Mmr) });
    /// let mut rows = strip.runs();
    /// while let Some(row) = rows.next_row() {
    ///     assert_eq!(row?.runs, [2, 2, 4]);
    /// }
    /// # Ok::<(), faxpages::Error>(())
    /// ```
    #[inline]
    pub fn next_row(&mut self) -> Option<Result<&T, Error>> {
        self.state.lend(self.rows.next())
    }

    /// How many rows are lacking after those that were returned; none where the form says no number.
    ///
    /// ```
    /// use faxpages::{Coding, Strip, StripForm};
    /// let form = StripForm { rows: Some(100), ..StripForm::new(8, Coding::Mmr) };
    /// let mut rows = Strip::new(&[0x2F, 0xF8], form).rows();
    /// assert_eq!((rows.by_ref().filter(Result::is_ok).count(), rows.lost()), (2, Some(98)));
    /// ```
    pub fn lost(&self) -> Option<u32> {
        self.rows.strip.form.lost(self.rows.rows())
    }
}

impl<T: RowFormat> Iterator for StripRows<'_, T> {
    type Item = Result<T, Error>;

    #[inline]
    fn next(&mut self) -> Option<Self::Item> {
        self.state.own(self.rows.next())
    }
}

impl<T: RowFormat> FusedIterator for StripRows<'_, T> {}

/// Codes the rows of a raster as a strip, in the codes that T.4 and T.6 choose: row i stands in the (width + 7) / 8
/// bytes from `raster[i * stride]` on, the highest bit first, 1 for black, whatever stands after its pels. Where the
/// form says no number of rows, all that the raster has are coded. In MR one row in every k is coded by itself; k is at
/// least 1, and 4 where it is none. After the last row stands the end of the block (EOFB) in MMR, and nothing in MH and
/// MR.
///
/// # Errors
///
/// [`Error::Invalid`] if the form is invalid, k is 0, or the raster is too short; or [`Error::Memory`].
///
/// ```
/// use faxpages::{code_strip, Coding, StripForm};
/// let strip = code_strip(&StripForm::new(8, Coding::Mmr), None, &[0], 1)?;
/// assert_eq!(strip, [0x80, 0x08, 0x00, 0x80]);
/// # Ok::<(), faxpages::Error>(())
/// ```
pub fn code_strip(
    form: &StripForm,
    k: impl Into<Option<u32>>,
    raster: &[u8],
    stride: usize,
) -> Result<Vec<u8>, Error> {
    let (len, k) = (form.stride(), k.into().unwrap_or(USUAL_K));
    let rows = match (form.rows, raster.len().checked_sub(len)) {
        (Some(rows), _) => rows as usize,
        (None, Some(left)) => left.checked_div(stride).map_or(0, |before| before + 1),
        (None, None) => 1,
    };
    let given = form.of_rows(rows)?;
    if let Some(invalid) = invalid_raster(k, raster.len(), stride, len, given.rows) {
        return Err(invalid.into());
    }
    Ok(code_raster(given, k, raster, stride)?.to_vec())
}

/// The same with rows as runs, as [`RowRuns`](crate::RowRuns) has them: their lengths in pels, white first. Where the
/// form says a number of rows, the first of these are coded.
///
/// # Errors
///
/// As [`code_strip`]; [`Error::Invalid`] too where there are fewer rows, or none, or the runs of one are not the
/// longest of a row of the width.
///
/// ```
/// use faxpages::{code_strip, code_strip_runs, Coding, StripForm};
/// let form = StripForm::new(8, Coding::Mr);
/// assert_eq!(code_strip_runs(&form, 2, &[[0, 8], [3, 5]])?, code_strip(&form, 2, &[0xFF, 0x1F], 1)?);
/// # Ok::<(), faxpages::Error>(())
/// ```
pub fn code_strip_runs<R: AsRef<[u32]>>(
    form: &StripForm,
    k: impl Into<Option<u32>>,
    rows: &[R],
) -> Result<Vec<u8>, Error> {
    let (k, given) = (k.into().unwrap_or(USUAL_K), rows.len());
    let form = form.of_rows(form.rows.map_or(given, |rows| rows as usize))?;
    if k == 0 {
        return Err(Invalid::K.into());
    }
    if given < form.rows as usize {
        return Err(Invalid::FewRows { given, wanted: form.rows }.into());
    }
    let take = |row: &mut inner::Row, number: usize| match row.set_runs(rows[number].as_ref()) {
        true => Ok(()),
        false => Err(Invalid::Runs(number).into()),
    };
    Ok(code_rows(form, k, take)?.to_vec())
}

/// The first rows of a raster as a strip.
pub(crate) fn code_raster(form: inner::StripForm, k: u32, raster: &[u8], stride: usize) -> Result<Items<u8>, Error> {
    let len = form.width.div_ceil(8) as usize;
    code_rows(form, k, |row, number| {
        row.set_packed(&raster[number * stride..][..len]);
        Ok(())
    })
}

/// A strip of rows, each of which is taken by its number.
fn code_rows(
    form: inner::StripForm,
    k: u32,
    mut take: impl FnMut(&mut inner::Row, usize) -> Result<(), Error>,
) -> Result<Items<u8>, Error> {
    let mut row = inner::Row::white(Global, form.width).map_err(Error::memory)?;
    let mut writer = inner::StripWriter::new(Global, form, k).map_err(Error::memory)?;
    for number in 0..form.rows as usize {
        take(&mut row, number)?;
        writer.put_row(&row).map_err(Error::memory)?;
    }
    writer.finish().map_err(Error::memory)
}

#[cfg(test)]
mod tests {
    use super::{Coding, Error, Invalid, Strip, StripForm};

    #[test]
    fn no_memory_is_taken_for_rows_of_a_width_that_none_has() {
        let mut rows = Strip::new(&[0x80], StripForm::new(u32::MAX, Coding::Mmr)).lend_rows();
        assert_eq!(rows.next().err(), Some(Error::Invalid(Invalid::Width(u32::MAX))));
        assert!(rows.reader.is_none());
    }
}
