//! Rows, lent and owned: their bytes, their runs and their changing elements.

use crate::inner::{self, Global, LongestRuns};
use crate::{Cursor, Error};
use std::fmt;
use std::iter::FusedIterator;
use std::num::NonZeroU64;

/// A row: its place, its pels, and its packed bytes, the highest bit first, 1 for black.
///
/// ```
/// let row = faxpages::Row { page: 0, number: 0, width: 8, packed: vec![0b0001_1000] };
/// assert_eq!(row.runs(), [3, 2, 3]);
/// ```
#[derive(Clone, Debug, PartialEq, Eq, Hash)]
pub struct Row {
    /// The page's number.
    pub page: u32,
    /// The row's number on its page.
    pub number: u32,
    /// The pels, 1 to 65,535.
    pub width: u32,
    /// (width + 7) / 8 bytes, with zeros after the last pel.
    pub packed: Vec<u8>,
}

impl Row {
    /// Whether a pel, from 0, is black.
    ///
    /// # Panics
    ///
    /// Where the row has no such pel. [`Row::pel`] does not.
    ///
    /// ```
    /// let row = faxpages::Row { page: 0, number: 0, width: 8, packed: vec![0b0001_1000] };
    /// assert!(row.is_black(3) && !row.is_black(5));
    /// ```
    #[must_use]
    pub fn is_black(&self, pel: u32) -> bool {
        assert!(pel < self.width);
        self.packed[pel as usize / 8] >> (7 - pel % 8) & 1 == 1
    }

    /// Whether a pel, from 0, is black; none where the row has no such pel.
    ///
    /// ```
    /// let row = faxpages::Row { page: 0, number: 0, width: 8, packed: vec![0b0001_1000] };
    /// assert_eq!((row.pel(3), row.pel(5), row.pel(8)), (Some(true), Some(false), None));
    /// ```
    #[must_use]
    pub fn pel(&self, pel: u32) -> Option<bool> {
        let byte = self.packed.get(pel as usize / 8).filter(|_| pel < self.width)?;
        Some(byte >> (7 - pel % 8) & 1 == 1)
    }

    /// The lengths in pels of its runs, white first: the first is 0 where the row begins black. They are found in its
    /// bytes: a [`LentRow`] and a [`RowRuns`] have them as they were read.
    ///
    /// ```
    /// let row = faxpages::Row { page: 0, number: 0, width: 8, packed: vec![0b1111_1100] };
    /// assert_eq!(row.runs(), [0, 6, 2]);
    /// ```
    #[must_use]
    pub fn runs(&self) -> Vec<u32> {
        if self.packed.iter().fold(0, |all, byte| all | byte) == 0 {
            return vec![self.width];
        }
        let (mut runs, mut last, mut before, mut begin) = (Vec::with_capacity(16), 0, 0, 0);
        let words = self.packed.chunks_exact(8);
        let mut rest = [0; 8];
        rest[..words.remainder().len()].copy_from_slice(words.remainder());
        // Where bytes are lacking, the pels there have no other colour.
        let end = (self.width as usize).min(self.packed.len().saturating_mul(8)) as u32;
        let words = words.map(|bytes| bytes.try_into().unwrap_or_default()).chain([rest]);
        words.map(u64::from_be_bytes).for_each(|word| {
            // The pels that have another colour than the pel before them.
            let mut changes = word ^ (word >> 1 | before << 63);
            let pels = end.saturating_sub(begin);
            if pels < 64 {
                changes &= !(u64::MAX >> pels);
            }
            while let Some(left) = NonZeroU64::new(changes) {
                let pel = begin | left.leading_zeros();
                runs.push(pel.wrapping_sub(last));
                (last, changes) = (pel, changes ^ 1 << 63 >> left.leading_zeros());
            }
            (before, begin) = (word, begin.wrapping_add(64));
        });
        runs.push(self.width - last);
        runs
    }
}

/// A row by its runs.
///
/// ```
/// use faxpages::{Coding, Strip, StripForm};
/// let form = StripForm { rows: Some(1), ..StripForm::new(8, Coding::Mmr) };
/// assert_eq!(Strip::new(&[0x2F, 0xF8], form).runs().next().unwrap()?.runs, [2, 2, 4]);
/// # Ok::<(), faxpages::Error>(())
/// ```
#[derive(Clone, Debug, PartialEq, Eq, Hash)]
pub struct RowRuns {
    /// The page's number.
    pub page: u32,
    /// The row's number on its page.
    pub number: u32,
    /// The pels, 1 to 65,535, which is the sum of the runs.
    pub width: u32,
    /// The lengths in pels of its longest runs of one colour, white first: the first is 0 where the row begins black,
    /// and no other is.
    pub runs: Vec<u32>,
}

/// A row by its changing elements (T.4, 4.2.1.3.1).
///
/// ```
/// use faxpages::{Coding, Strip, StripForm};
/// let form = StripForm { rows: Some(1), ..StripForm::new(8, Coding::Mmr) };
/// assert_eq!(Strip::new(&[0x2F, 0xF8], form).changes().next().unwrap()?.changes, [2, 4]);
/// # Ok::<(), faxpages::Error>(())
/// ```
#[derive(Clone, Debug, PartialEq, Eq, Hash)]
pub struct RowChanges {
    /// The page's number.
    pub page: u32,
    /// The row's number on its page.
    pub number: u32,
    /// The pels, 1 to 65,535.
    pub width: u32,
    /// The pels, from 0, that have another colour than the pel before them, where white stands before the first.
    pub changes: Vec<u32>,
}

/// The form in which an iterator returns rows: [`Row`], [`RowRuns`] or [`RowChanges`].
///
/// ```
/// use faxpages::{Error, Fax, RowFormat, Rows};
/// fn count<T: RowFormat>(rows: Rows<'_, T>) -> Result<usize, Error> {
///     rows.map(|row| row.map(|_| 1)).sum()
/// }
/// assert!(count(Fax::new(b"II*").runs()).is_err());
/// ```
pub trait RowFormat: Format {}

impl RowFormat for Row {}
impl RowFormat for RowRuns {}
impl RowFormat for RowChanges {}

/// What [`RowFormat`] asks of its types, which are those of this crate alone.
pub trait Format: Sized {
    /// No row, without memory.
    const NONE: Self;

    /// Becomes this row, in the memory that it has.
    fn put(&mut self, row: LentRow<'_>);
}

impl Format for Row {
    const NONE: Row = Row { page: 0, number: 0, width: 0, packed: Vec::new() };

    #[inline(always)]
    fn put(&mut self, row: LentRow<'_>) {
        (self.page, self.number, self.width) = (row.page, row.number, row.width());
        let is_white = row.changes().is_empty();
        if self.packed.len() != row.stride() {
            self.packed = vec![0; row.stride()];
        } else if is_white {
            self.packed.fill(0);
        }
        if !is_white {
            row.pack_into(&mut self.packed);
        }
    }
}

impl Format for RowRuns {
    const NONE: RowRuns = RowRuns { page: 0, number: 0, width: 0, runs: Vec::new() };

    #[inline(always)]
    fn put(&mut self, row: LentRow<'_>) {
        (self.page, self.number, self.width) = (row.page, row.number, row.width());
        let (changes, mut before) = (row.changes(), 0);
        self.runs.clear();
        self.runs.reserve_exact(changes.len() + 1);
        self.runs.extend(changes.iter().map(|change| change - std::mem::replace(&mut before, *change)));
        self.runs.push(self.width - before);
    }
}

impl Format for RowChanges {
    const NONE: RowChanges = RowChanges { page: 0, number: 0, width: 0, changes: Vec::new() };

    #[inline(always)]
    fn put(&mut self, row: LentRow<'_>) {
        (self.page, self.number, self.width) = (row.page, row.number, row.width());
        self.changes.clear();
        self.changes.extend_from_slice(row.changes());
    }
}

/// A row that is lent: it stands until the next one is read, and no memory is taken for it.
///
/// ```
/// use faxpages::{Coding, Strip, StripForm};
/// let form = StripForm { rows: Some(2), ..StripForm::new(8, Coding::Mmr) };
/// let mut rows = Strip::new(&[0x2F, 0xF8], form).lend_rows();
/// while let Some(row) = rows.next()? {
///     assert_eq!((row.changes(), row.runs().max()), (&[2, 4][..], Some(4)));
/// }
/// # Ok::<(), faxpages::Error>(())
/// ```
#[derive(Clone, Copy)]
pub struct LentRow<'a> {
    /// The page's number; 0 in a strip.
    pub page: u32,
    /// The row's number on its page or in its strip.
    pub number: u32,
    pub(crate) row: &'a inner::Row,
}

impl<'a> LentRow<'a> {
    /// The pels, 1 to 65,535.
    ///
    /// ```
    /// use faxpages::{Coding, Strip, StripForm};
    /// let strip = Strip::new(&[0x2F, 0xF8], StripForm { rows: Some(2), ..StripForm::new(8, Coding::Mmr) });
    /// assert_eq!(strip.lend_rows().next()?.unwrap().width(), 8);
    /// # Ok::<(), faxpages::Error>(())
    /// ```
    #[must_use]
    #[inline]
    pub fn width(&self) -> u32 {
        self.row.width()
    }

    /// The bytes of the packed row: (width + 7) / 8.
    ///
    /// ```
    /// use faxpages::{Coding, Strip, StripForm};
    /// let strip = Strip::new(&[0x2F, 0xF8], StripForm { rows: Some(2), ..StripForm::new(8, Coding::Mmr) });
    /// assert_eq!(strip.lend_rows().next()?.unwrap().stride(), 1);
    /// # Ok::<(), faxpages::Error>(())
    /// ```
    #[must_use]
    #[inline]
    pub fn stride(&self) -> usize {
        self.width().div_ceil(8) as usize
    }

    /// The pels, from 0, that have another colour than the pel before them, where white stands before the first.
    ///
    /// ```
    /// use faxpages::{Coding, Strip, StripForm};
    /// let strip = Strip::new(&[0x2F, 0xF8], StripForm { rows: Some(2), ..StripForm::new(8, Coding::Mmr) });
    /// assert_eq!(strip.lend_rows().next()?.unwrap().changes(), [2, 4]);
    /// # Ok::<(), faxpages::Error>(())
    /// ```
    #[must_use]
    #[inline]
    pub fn changes(&self) -> &'a [u32] {
        self.row.changes()
    }

    /// The lengths in pels of its longest runs, white first: the first is 0 where the row begins black.
    ///
    /// ```
    /// use faxpages::{Coding, Strip, StripForm};
    /// let strip = Strip::new(&[0x2F, 0xF8], StripForm { rows: Some(2), ..StripForm::new(8, Coding::Mmr) });
    /// assert!(strip.lend_rows().next()?.unwrap().runs().eq([2, 2, 4]));
    /// # Ok::<(), faxpages::Error>(())
    /// ```
    #[inline]
    pub fn runs(&self) -> Runs<'a> {
        Runs(LongestRuns::of_row(self.row))
    }

    /// Writes the packed row, the highest bit first, 1 for black, with zeros after the last pel.
    ///
    /// # Panics
    ///
    /// Where `out` has not just [`LentRow::stride`] bytes.
    ///
    /// ```
    /// use faxpages::{Coding, Strip, StripForm};
    /// let strip = Strip::new(&[0x2F, 0xF8], StripForm { rows: Some(2), ..StripForm::new(8, Coding::Mmr) });
    /// let (mut rows, mut packed) = (strip.lend_rows(), [0]);
    /// rows.next()?.unwrap().pack_into(&mut packed);
    /// assert_eq!(packed, [0b0011_0000]);
    /// # Ok::<(), faxpages::Error>(())
    /// ```
    #[inline]
    pub fn pack_into(&self, out: &mut [u8]) {
        assert_eq!(out.len(), self.stride(), "a packed row has (width + 7) / 8 bytes");
        self.row.to_packed(out);
    }

    /// A row of one's own: its packed bytes.
    ///
    /// ```
    /// use faxpages::{Coding, Strip, StripForm};
    /// let strip = Strip::new(&[0x2F, 0xF8], StripForm { rows: Some(2), ..StripForm::new(8, Coding::Mmr) });
    /// assert_eq!(strip.lend_rows().next()?.unwrap().to_row().packed, [0b0011_0000]);
    /// # Ok::<(), faxpages::Error>(())
    /// ```
    #[must_use]
    pub fn to_row(&self) -> Row {
        self.to_format()
    }

    #[inline(always)]
    pub(crate) fn to_format<T: Format>(self) -> T {
        let mut row = T::NONE;
        row.put(self);
        row
    }
}

impl fmt::Debug for LentRow<'_> {
    fn fmt(&self, f: &mut fmt::Formatter<'_>) -> fmt::Result {
        let (page, number, changes) = (self.page, self.number, self.changes());
        f.debug_struct("LentRow").field("page", &page).field("number", &number).field("changes", &changes).finish()
    }
}

/// The runs of a row that is lent: [`LentRow::runs`] makes it.
///
/// ```
/// use faxpages::{Coding, Strip, StripForm};
/// let strip = Strip::new(&[0x2F, 0xF8], StripForm { rows: Some(2), ..StripForm::new(8, Coding::Mmr) });
/// let mut rows = strip.lend_rows();
/// let runs = rows.next()?.unwrap().runs();
/// assert_eq!((runs.len(), runs.collect::<Vec<_>>()), (3, vec![2, 2, 4]));
/// # Ok::<(), faxpages::Error>(())
/// ```
#[must_use = "an iterator reads nothing before it is asked"]
pub struct Runs<'a>(LongestRuns<'a>);

impl Iterator for Runs<'_> {
    type Item = u32;

    #[inline]
    fn next(&mut self) -> Option<u32> {
        self.0.next_run()
    }

    fn size_hint(&self) -> (usize, Option<usize>) {
        (self.0.len(), Some(self.0.len()))
    }
}

impl ExactSizeIterator for Runs<'_> {}
impl FusedIterator for Runs<'_> {}

impl fmt::Debug for Runs<'_> {
    fn fmt(&self, f: &mut fmt::Formatter<'_>) -> fmt::Result {
        f.debug_struct("Runs").field("len", &self.0.len()).finish()
    }
}

/// Rows of a file that are lent, page by page: [`Fax::lend_rows`](crate::Fax::lend_rows) makes it.
///
/// ```
/// # let mut writer = faxpages::Writer::new(1)?;
/// # writer.add(&faxpages::Form::new(8, 3, faxpages::Coding::Mr), 1, &[0x18, 0xFC, 0x00], 1)?;
/// # let file = writer.finish()?;
/// let (mut rows, mut white) = (faxpages::Fax::new(&file).lend_rows(), 0);
/// while let Some(row) = rows.next()? {
///     white += u32::from(row.changes().is_empty());
/// }
/// assert_eq!(white, 1);
/// # Ok::<(), faxpages::Error>(())
/// ```
#[must_use = "nothing is read before it is asked"]
pub struct LentRows<'a> {
    walk: inner::Walk<'a>,
}

impl<'a> LentRows<'a> {
    pub(crate) fn new(file: &'a [u8], cursor: &Cursor) -> Self {
        LentRows { walk: inner::Walk::begin(Global, file, cursor.start()) }
    }

    /// The next row, or none after the last one. It stands until the next call, and takes no memory.
    ///
    /// # Errors
    ///
    /// Why there is no next row. Each later call returns it again.
    ///
    /// ```
    /// # let mut writer = faxpages::Writer::new(1)?;
    /// # writer.add(&faxpages::Form::new(8, 3, faxpages::Coding::Mr), 1, &[0x18, 0xFC, 0x00], 1)?;
    /// # let file = writer.finish()?;
    /// let (mut rows, mut black) = (faxpages::Fax::new(&file).lend_rows(), 0);
    /// while let Some(row) = rows.next()? {
    ///     black += row.runs().skip(1).step_by(2).sum::<u32>();
    /// }
    /// assert_eq!(black, 8);
    /// # Ok::<(), faxpages::Error>(())
    /// ```
    // It is no iterator: what an iterator returns outlives the next call.
    #[allow(clippy::should_implement_trait)]
    #[inline]
    pub fn next(&mut self) -> Result<Option<LentRow<'_>>, Error> {
        match self.walk.next_row() {
            Ok(Some((place, row))) => Ok(Some(LentRow { page: place.page, number: place.row, row })),
            Ok(None) => Ok(None),
            Err(fault) => Err(Error::of_walk(fault)),
        }
    }

    /// The cursor after the row that was lent last: rows from it on are the ones that come next.
    ///
    /// ```
    /// # let mut writer = faxpages::Writer::new(1)?;
    /// # writer.add(&faxpages::Form::new(8, 3, faxpages::Coding::Mr), 1, &[0x18, 0xFC, 0x00], 1)?;
    /// # let file = writer.finish()?;
    /// let fax = faxpages::Fax::new(&file);
    /// let mut rows = fax.lend_rows();
    /// rows.next()?;
    /// assert_eq!(fax.rows_at(&rows.cursor()).count(), 2);
    /// # Ok::<(), faxpages::Error>(())
    /// ```
    #[must_use]
    pub fn cursor(&self) -> Cursor {
        Cursor::of(&self.walk)
    }
}

impl fmt::Debug for LentRows<'_> {
    fn fmt(&self, f: &mut fmt::Formatter<'_>) -> fmt::Result {
        f.debug_struct("LentRows").field("cursor", &self.cursor()).finish_non_exhaustive()
    }
}

/// Rows that are lent, as an iterator has them: after the end or an error there are none.
#[derive(Debug)]
pub(crate) struct Fused<T> {
    pub(crate) is_ended: bool,
    pub(crate) lent: T,
}

impl<T: Format> Fused<T> {
    pub(crate) const NEW: Self = Fused { is_ended: false, lent: T::NONE };

    /// The next row as one's own.
    #[inline(always)]
    pub(crate) fn own(&mut self, next: Result<Option<LentRow<'_>>, Error>) -> Option<Result<T, Error>> {
        match next {
            Ok(Some(row)) if !self.is_ended => Some(Ok(row.to_format())),
            Ok(_) => self.end(None),
            Err(error) => self.end(Some(error)),
        }
    }

    /// The next row in the place of the one that was lent last.
    #[inline(always)]
    pub(crate) fn lend(&mut self, next: Result<Option<LentRow<'_>>, Error>) -> Option<Result<&T, Error>> {
        match next {
            Ok(Some(row)) if !self.is_ended => {
                self.lent.put(row);
                Some(Ok(&self.lent))
            }
            Ok(_) => self.end(None),
            Err(error) => self.end(Some(error)),
        }
    }

    #[cold]
    fn end<R>(&mut self, error: Option<Error>) -> Option<Result<R, Error>> {
        let was_ended = std::mem::replace(&mut self.is_ended, true);
        error.filter(|_| !was_ended).map(Err)
    }
}

/// Rows, page by page, and the error that ends them.
///
/// ```
/// # let mut writer = faxpages::Writer::new(1)?;
/// # writer.add(&faxpages::Form::new(8, 3, faxpages::Coding::Mr), 1, &[0x18, 0xFC, 0x00], 1)?;
/// # let file = writer.finish()?;
/// for row in faxpages::Fax::new(&file).rows() {
///     println!("{:?}", row?.runs()); // [3, 2, 3], [0, 6, 2] and [8]
/// }
/// # Ok::<(), faxpages::Error>(())
/// ```
#[must_use = "an iterator reads nothing before it is asked"]
#[derive(Debug)]
pub struct Rows<'a, T: RowFormat = Row> {
    rows: LentRows<'a>,
    state: Fused<T>,
}

impl<'a, T: RowFormat> Rows<'a, T> {
    pub(crate) fn new(file: &'a [u8], cursor: &Cursor) -> Self {
        Rows { rows: LentRows::new(file, cursor), state: Fused::NEW }
    }

    /// The next row, as the iterator has it, but lent: it stands until the next call, in the memory of the one before.
    ///
    /// ```
    /// # let mut writer = faxpages::Writer::new(1)?;
    /// # writer.add(&faxpages::Form::new(8, 3, faxpages::Coding::Mr), 1, &[0x18, 0xFC, 0x00], 1)?;
    /// # let file = writer.finish()?;
    /// let (mut rows, mut black) = (faxpages::Fax::new(&file).rows(), 0);
    /// while let Some(row) = rows.next_row() {
    ///     black += row?.packed.iter().map(|byte| byte.count_ones()).sum::<u32>();
    /// }
    /// assert_eq!(black, 8);
    /// # Ok::<(), faxpages::Error>(())
    /// ```
    #[inline]
    pub fn next_row(&mut self) -> Option<Result<&T, Error>> {
        self.state.lend(self.rows.next())
    }

    /// The cursor after the rows that were returned: rows from it on are the ones that come next, and no row of a strip
    /// is read again for them.
    ///
    /// ```
    /// # let mut writer = faxpages::Writer::new(1)?;
    /// # writer.add(&faxpages::Form::new(8, 3, faxpages::Coding::Mr), 1, &[0x18, 0xFC, 0x00], 1)?;
    /// # let file = writer.finish()?;
    /// let fax = faxpages::Fax::new(&file);
    /// let mut rows = fax.runs();
    /// let first = rows.next();
    /// let rest: Vec<_> = fax.runs_at(&rows.cursor()).collect();
    /// assert_eq!(rest, rows.collect::<Vec<_>>());
    /// # assert!(first.is_some() && rest.len() == 2);
    /// # Ok::<(), faxpages::Error>(())
    /// ```
    pub fn cursor(&self) -> Cursor {
        self.rows.cursor()
    }

    /// At most so many rows; an error if none was read before it.
    pub(crate) fn take_most(&mut self, most: usize) -> Result<Vec<T>, Error> {
        let mut found = Vec::new();
        for row in self.take(most) {
            match row {
                Err(error) if found.is_empty() => return Err(error),
                Err(_) => break,
                Ok(row) => found.push(row),
            }
        }
        Ok(found)
    }
}

impl<T: RowFormat> Iterator for Rows<'_, T> {
    type Item = Result<T, Error>;

    #[inline]
    fn next(&mut self) -> Option<Self::Item> {
        self.state.own(self.rows.next())
    }
}

impl<T: RowFormat> FusedIterator for Rows<'_, T> {}
