//! Strips that come in pieces.

use crate::inner::{self, classify_end, may_be_end_mark, BitSource, Global, RowsEnd};
use crate::rows::{Format, LentRow};
use crate::strip::MOST_BYTES;
use crate::{Coding, Error, FillOrder, Invalid, Row, RowRuns, StripForm};
use std::fmt;
use std::ops::Range;

/// A row that is not whole in this many bytes is read again from its beginning as long as that reads no more bytes than
/// so many for each that was fed: bytes that come one by one are read in a time in proportion to their number.
const TRIED: usize = 4096;
const AGAIN: usize = 256;
/// How many bytes of zeros before an EOL are kept: it has eleven zeros, and any more are fill.
const FILL: usize = 2;
/// How many pels of rows are read ahead, at least one row.
const AHEAD: u32 = 1 << 16;

/// Reads a strip that comes in pieces, as a server receives it.
///
/// A row is returned as soon as its last byte was fed. If it has more than 4,096 bytes, and they come in pieces of
/// less than a 256th of it, it may be returned so many bytes later, and so may the rows after it; where no such bytes
/// come, it is returned after [`StripReader::close`].
///
/// ```
/// use faxpages::{Coding, StripForm, StripReader};
/// let mut reader = StripReader::new(StripForm { rows: Some(2), ..StripForm::new(8, Coding::Mmr) });
/// reader.feed(&[0x2F]);
/// assert!(reader.next_row().is_none());
/// reader.feed(&[0xF8]);
/// assert_eq!(reader.next_row().unwrap()?.runs(), [2, 2, 4]);
/// assert_eq!((reader.next_row().unwrap()?.runs(), reader.is_ended()), (vec![2, 2, 4], true));
/// # Ok::<(), faxpages::Error>(())
/// ```
pub struct StripReader {
    form: StripForm,
    /// What was fed and is not read yet, and how many bits of its first byte are read.
    fed: Vec<u8>,
    bits: u64,
    /// How many bytes of it have no whole row, and how many bytes more may be read again.
    tried: usize,
    again: usize,
    /// Whether there may be more rows in what was fed.
    goes_on: bool,
    is_closed: bool,
    /// Whether the strip has ended, or why it did; and whether that was returned.
    ended: Option<Option<Error>>,
    is_told: bool,
    /// How many rows were read, and how many of them were returned.
    read: u32,
    rows: u32,
    /// The rows that were read last, and after them the one that is lent; which of them are not returned yet, and which
    /// one was read last.
    ahead: Vec<inner::Row>,
    ready: Range<usize>,
    last: Option<usize>,
    owned: Row,
}

/// How the rows of what was fed end.
enum Ended {
    /// There may be more.
    GoesOn,
    /// More bytes have to come before the next row.
    Awaits,
    /// So, whatever bytes follow.
    So(Option<Error>),
}

impl StripReader {
    /// A reader of a strip of this form, before its first byte.
    ///
    /// ```
    /// use faxpages::{Coding, StripForm, StripReader};
    /// assert!(!StripReader::new(StripForm::new(8, Coding::Mmr)).is_ended());
    /// ```
    #[must_use]
    pub fn new(form: StripForm) -> Self {
        StripReader {
            form,
            fed: Vec::new(),
            bits: 0,
            tried: 0,
            again: 0,
            goes_on: false,
            is_closed: false,
            ended: None,
            is_told: false,
            read: 0,
            rows: 0,
            ahead: Vec::new(),
            ready: 0..0,
            last: None,
            owned: Row::NONE,
        }
    }

    /// Takes more bytes. Those after the end of the strip, or after its error, are left out, and those after
    /// [`StripReader::close`] too.
    ///
    /// ```
    /// use faxpages::{Coding, StripForm, StripReader};
    /// let mut reader = StripReader::new(StripForm { rows: Some(1), ..StripForm::new(8, Coding::Mmr) });
    /// reader.feed(&[0x80]);
    /// assert_eq!(reader.next_row().unwrap()?.packed, [0]);
    /// # Ok::<(), faxpages::Error>(())
    /// ```
    pub fn feed(&mut self, bytes: &[u8]) {
        if self.ended.is_none() && !self.is_closed {
            self.fed.extend_from_slice(bytes);
            self.again = self.again.saturating_add(bytes.len().saturating_mul(AGAIN));
            self.read_on();
        }
    }

    /// Says that no more bytes come: then a row that is cut is an error.
    ///
    /// ```
    /// use faxpages::{Coding, StripForm, StripReader};
    /// let mut reader = StripReader::new(StripForm::new(8, Coding::Mmr));
    /// reader.feed(&[0x2F]);
    /// reader.close();
    /// assert_eq!(reader.next_row().unwrap().unwrap_err().to_string(), "page 0 row 0: DataEnds");
    /// ```
    pub fn close(&mut self) {
        self.is_closed = true;
        self.read_on();
    }

    /// Whether nothing more comes: the strip has ended, at its end mark, at the last of its rows or after
    /// [`StripReader::close`], and all its rows were returned; and if an error ended it, that was returned too.
    ///
    /// ```
    /// use faxpages::{Coding, StripForm, StripReader};
    /// let mut reader = StripReader::new(StripForm { rows: Some(1), ..StripForm::new(8, Coding::Mmr) });
    /// reader.feed(&[0x80]);
    /// assert!(!reader.is_ended());
    /// assert!(reader.next_row().is_some() && reader.is_ended());
    /// ```
    #[must_use]
    pub fn is_ended(&self) -> bool {
        match self.ended {
            None => false,
            Some(None) => self.ready.is_empty(),
            Some(Some(_)) => self.is_told,
        }
    }

    /// The error that ended the strip, once it was returned.
    ///
    /// ```
    /// use faxpages::{Coding, StripForm, StripReader};
    /// let mut reader = StripReader::new(StripForm::new(8, Coding::Mmr));
    /// reader.close();
    /// let error = reader.next_row().unwrap().unwrap_err();
    /// assert_eq!(reader.error(), Some(&error));
    /// ```
    #[must_use]
    pub fn error(&self) -> Option<&Error> {
        self.ended.as_ref()?.as_ref().filter(|_| self.is_told)
    }

    /// How many rows were returned.
    ///
    /// ```
    /// use faxpages::{Coding, StripForm, StripReader};
    /// let mut reader = StripReader::new(StripForm::new(8, Coding::Mmr));
    /// reader.feed(&[0xC0]);
    /// assert!(reader.next_row().is_some() && reader.rows() == 1);
    /// ```
    #[must_use]
    pub fn rows(&self) -> u32 {
        self.rows
    }

    /// How many rows are lacking after those that were returned; none where the form says no number.
    ///
    /// ```
    /// use faxpages::{Coding, StripForm, StripReader};
    /// let mut reader = StripReader::new(StripForm { rows: Some(20), ..StripForm::new(8, Coding::Mmr) });
    /// reader.feed(&[0x80]);
    /// assert!(reader.next_row().is_some() && reader.lost() == Some(19));
    /// ```
    #[must_use]
    pub fn lost(&self) -> Option<u32> {
        self.form.lost(self.rows)
    }

    /// The next row, lent: it stands until the next call, and takes no memory. None if more bytes must come first, or
    /// if the strip has ended.
    ///
    /// # Errors
    ///
    /// The error that ends the strip, once.
    ///
    /// ```
    /// use faxpages::{Coding, StripForm, StripReader};
    /// let mut reader = StripReader::new(StripForm { rows: Some(2), ..StripForm::new(8, Coding::Mmr) });
    /// reader.feed(&[0x2F, 0xF8]);
    /// while let Some(row) = reader.next()? {
    ///     assert_eq!(row.changes(), [2, 4]);
    /// }
    /// # Ok::<(), faxpages::Error>(())
    /// ```
    // It is no iterator: what an iterator returns outlives the next call.
    #[allow(clippy::should_implement_trait)]
    pub fn next(&mut self) -> Result<Option<LentRow<'_>>, Error> {
        let Some(next) = self.ready.next() else { return self.error_once() };
        let number = self.rows;
        self.rows += 1;
        if let Some((lent, ahead)) = self.ahead.split_last_mut() {
            lent.set_from(&ahead[next]);
        }
        // So that it is known whether the strip has ended.
        self.read_on();
        Ok(self.ahead.last().map(|row| LentRow { page: 0, number, row }))
    }

    fn error_once<R>(&mut self) -> Result<Option<R>, Error> {
        match &self.ended {
            Some(Some(error)) if !self.is_told => {
                self.is_told = true;
                Err(error.clone())
            }
            _ => Ok(None),
        }
    }

    /// The next row; none if more bytes must come first, or if the strip has ended. An error ends it too, and is
    /// returned once.
    ///
    /// ```
    /// use faxpages::{Coding, StripForm, StripReader};
    /// let mut reader = StripReader::new(StripForm::new(8, Coding::Mmr));
    /// assert!(reader.next_row().is_none());
    /// reader.feed(&[0x80]);
    /// assert_eq!(reader.next_row().unwrap()?.packed, [0]);
    /// # Ok::<(), faxpages::Error>(())
    /// ```
    pub fn next_row(&mut self) -> Option<Result<Row, Error>> {
        self.next().map(|row| row.map(|row| row.to_row())).transpose()
    }

    /// The same as runs.
    ///
    /// ```
    /// use faxpages::{Coding, StripForm, StripReader};
    /// let mut reader = StripReader::new(StripForm::new(8, Coding::Mmr));
    /// reader.feed(&[0x2F]);
    /// reader.feed(&[0xF8]);
    /// assert_eq!(reader.next_runs().unwrap()?.runs, [2, 2, 4]);
    /// # Ok::<(), faxpages::Error>(())
    /// ```
    pub fn next_runs(&mut self) -> Option<Result<RowRuns, Error>> {
        self.next().map(|row| row.map(LentRow::to_format)).transpose()
    }

    /// The next row, as [`StripReader::next_row`] has it, but lent: it stands until the next call, in the memory of the
    /// one before.
    ///
    /// ```
    /// use faxpages::{Coding, StripForm, StripReader};
    /// let mut reader = StripReader::new(StripForm { rows: Some(2), ..StripForm::new(8, Coding::Mmr) });
    /// reader.feed(&[0x2F, 0xF8]);
    /// while let Some(row) = reader.lend_row() {
    ///     assert_eq!(row?.packed, [0b0011_0000]);
    /// }
    /// # Ok::<(), faxpages::Error>(())
    /// ```
    pub fn lend_row(&mut self) -> Option<Result<&Row, Error>> {
        let mut owned = std::mem::replace(&mut self.owned, Row::NONE);
        let found = self.next().map(|row| row.map(|row| owned.put(row))).transpose();
        self.owned = owned;
        Some(found?.map(|()| &self.owned))
    }

    /// Reads on where no row is ready, so that what has ended is known.
    fn read_on(&mut self) {
        while self.ready.is_empty() && self.ended.is_none() && self.may_read() {
            match self.read_ahead() {
                Ok(Ended::GoesOn) => self.goes_on = true,
                Ok(Ended::Awaits) => self.drop_read(),
                Ok(Ended::So(error)) => self.end(error),
                Err(error) => self.end(Some(error)),
            }
        }
    }

    /// Whether there is something to read that was not read yet, and may be.
    fn may_read(&self) -> bool {
        let most = self.again.max(TRIED);
        self.goes_on || self.is_closed || (self.fed.len() > self.tried && self.fed.len() <= most)
    }

    /// Makes room for rows, and answers for how many there is.
    fn make_room(&mut self, width: u32) -> Result<usize, Error> {
        let room = (AHEAD / width).max(1) as usize;
        while self.ahead.len() <= room {
            self.ahead.push(inner::Row::white(Global, width).map_err(Error::memory)?);
        }
        Ok(room)
    }

    /// Reads rows of what was fed, as many as there is room for.
    fn read_ahead(&mut self) -> Result<Ended, Error> {
        let seen = self.fed.len().min(MOST_BYTES);
        let form = self.form.read(seen)?;
        let room = self.make_room(form.width)?;
        let strip = &self.fed[..seen];
        let mut reader = inner::StripReader::new(Global, strip, form).map_err(Error::memory)?;
        if let Some(last) = self.last.filter(|_| self.read < form.rows) {
            reader.restart_at(strip, form.rows, self.read, self.bits, &self.ahead[last]);
        }
        let (mut count, mut fault) = (0, None);
        while count < room && self.read < form.rows && fault.is_none() {
            match reader.advance() {
                Ok(_) => {
                    self.ahead[count].set_from(reader.reference());
                    self.bits = reader.bit_place();
                    (self.last, self.read, count) = (Some(count), self.read + 1, count + 1);
                }
                Err(found) => fault = Some(found),
            }
        }
        self.ready = 0..count;
        let goes_on = fault.is_none() && self.read < form.rows;
        Ok(if goes_on { Ended::GoesOn } else { self.ended_with(strip, fault) })
    }

    /// How the rows of these bytes end, of which the next one has this fault, or there is none.
    fn ended_with(&self, strip: &[u8], fault: Option<inner::StripFault>) -> Ended {
        let source = self.form.source(strip, self.bits);
        let more = !self.is_closed || strip.len() < self.fed.len();
        if more && self.may_change(&source, fault) {
            return Ended::Awaits;
        }
        let fault = self.form.end(&source, self.read, fault);
        Ended::So(fault.map(|fault| Error::Fault { page: 0, row: self.read, fault }))
    }

    /// Whether rows that end so may end otherwise where more bytes follow.
    fn may_change(&self, source: &BitSource<'_>, fault: Option<inner::StripFault>) -> bool {
        let coding = self.form.coding.inner();
        if fault == Some(inner::StripFault::DataEnds) || self.form.rows.is_some() {
            return fault == Some(inner::StripFault::DataEnds);
        }
        match classify_end(source, coding, self.read, fault) {
            RowsEnd::DataEnd => true,
            RowsEnd::TooMany | RowsEnd::Fault(inner::StripFault::EndMarker) => may_be_end_mark(source, coding),
            RowsEnd::Marked | RowsEnd::Fault(_) => false,
        }
    }

    fn end(&mut self, error: Option<Error>) {
        self.ended = Some(error);
        self.fed = Vec::new();
    }

    /// Drops the bytes that were read wholly, and zeros before an EOL that are more than it has.
    fn drop_read(&mut self) {
        let (waiting, seen, used) = (self.fed.len(), self.fed.len().min(MOST_BYTES), (self.bits / 8) as usize);
        self.fed.drain(..used);
        self.bits %= 8;
        let fill = self.fill().saturating_sub(FILL);
        if fill > 0 {
            self.fed.drain(1..1 + fill);
        }
        self.tried = (seen - used).saturating_sub(fill);
        if self.tried > TRIED {
            self.again = self.again.saturating_sub(self.tried);
        }
        self.goes_on = false;
        // No strip has a row of more bytes.
        if seen < waiting && self.fed.len() == waiting {
            self.end(Some(Invalid::StripBytes(waiting).into()));
        }
    }

    /// How many whole bytes of zeros stand after the first one, if nothing but zeros is left of it, before an EOL.
    fn fill(&self) -> usize {
        let mask = match self.form.order {
            FillOrder::MsbFirst => 0xFF >> self.bits,
            FillOrder::LsbFirst => 0xFF << self.bits,
        };
        match self.fed.split_first() {
            Some((first, rest)) if self.form.coding != Coding::Mmr && first & mask == 0 => {
                rest.iter().take_while(|byte| **byte == 0).count()
            }
            _ => 0,
        }
    }
}

impl fmt::Debug for StripReader {
    fn fmt(&self, f: &mut fmt::Formatter<'_>) -> fmt::Result {
        f.debug_struct("StripReader").field("form", &self.form).field("rows", &self.rows).finish_non_exhaustive()
    }
}

#[cfg(test)]
mod tests {
    use super::{StripReader, AGAIN, TRIED};
    use crate::{Coding, Error, Fault, StripForm};

    /// Runs of no pels make a row as long as anyone likes: what is read again is in proportion to what was fed.
    #[test]
    fn a_row_without_end_is_not_read_for_each_piece() {
        let mut reader = StripReader::new(StripForm::new(1728, Coding::Mh));
        // 00110101 0000110111: no white pel, no black pel, four times in nine bytes.
        let piece = [0x35, 0x0D, 0xCD, 0x43, 0x73, 0x50, 0xDC, 0xD4, 0x37].repeat(12);
        let (mut fed, mut again) = (0, 0);
        for _ in 0..2000 {
            reader.feed(&piece);
            fed += piece.len();
            again += if reader.tried == reader.fed.len() { reader.tried } else { 0 };
            assert_eq!(reader.next_row(), None);
        }
        assert!(again > AGAIN * fed / 2 && again <= AGAIN * fed + TRIED * TRIED / piece.len(), "{again} of {fed}");
        reader.close();
        assert_eq!(reader.next_row(), Some(Err(Error::Fault { page: 0, row: 0, fault: Fault::DataEnds })));
        assert_eq!((reader.fed.capacity(), reader.is_ended()), (0, true));
        reader.feed(&piece);
        assert_eq!(reader.fed.capacity(), 0);
    }
}
