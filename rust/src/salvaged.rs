//! What is left of damaged pages and strips.

use crate::inner::{self, Global, RowsEnd, SalvagedPart};
use crate::rows::LentRow;
use crate::{filled, Error, Fault, Form, Row};
use std::fmt;

/// Rows that are lost, one after another.
///
/// ```
/// # use faxpages::{Coding, Fault, Strip, StripForm};
/// let form = StripForm { rows: Some(3), ..StripForm::new(8, Coding::Mh) };
/// let left = Strip::new(&[0x00, 0x19, 0x80, 0x0F, 0x00, 0x19, 0x80], form).salvaged()?;
/// assert_eq!((left.lost[0].first, left.lost[0].rows, left.lost[0].fault), (1, 1, Fault::BadCode));
/// # Ok::<(), faxpages::Error>(())
/// ```
#[derive(Clone, Copy, Debug, PartialEq, Eq, Hash)]
#[non_exhaustive]
pub struct Stretch {
    /// The first of them, from 0.
    pub first: u32,
    /// How many they are.
    pub rows: u32,
    /// Why the first of them is lost.
    pub fault: Fault,
}

/// What is left of a page or of a strip: all its rows in one block of bytes, where those that are lost are white. No
/// row is made up, copied or guessed.
///
/// ```
/// # use faxpages::{Coding, Strip, StripForm};
/// let form = StripForm { rows: Some(3), ..StripForm::new(8, Coding::Mh) };
/// let left = Strip::new(&[0x00, 0x19, 0x80, 0x0F, 0x00, 0x19, 0x80], form).salvaged()?;
/// assert_eq!((left.packed.len(), left.found(), left.lost.len()), (3, 2, 1));
/// # Ok::<(), faxpages::Error>(())
/// ```
#[derive(Clone, Debug, PartialEq, Eq, Hash)]
#[non_exhaustive]
pub struct Salvaged {
    /// The form of the page; none of a strip.
    pub form: Option<Form>,
    /// The pels of a row.
    pub width: u32,
    /// The bytes of its rows, (width + 7) / 8 each, the highest bit first, 1 for black, with zeros after the last pel.
    pub packed: Vec<u8>,
    /// The stretches of rows that are lost, from the top down.
    pub lost: Vec<Stretch>,
    /// Of a strip of unknown height: whether an end mark stands after its rows.
    pub end_mark: bool,
    /// Of a strip of unknown height: the fault with which its rows end, if they do not end well.
    pub fault: Option<Fault>,
}

impl Salvaged {
    /// Its rows, from the first on, white where they are lost.
    ///
    /// ```
    /// # use faxpages::{Coding, Strip, StripForm};
    /// let form = StripForm { rows: Some(3), ..StripForm::new(8, Coding::Mh) };
    /// let left = Strip::new(&[0x00, 0x19, 0x80, 0x0F, 0x00, 0x19, 0x80], form).salvaged()?;
    /// assert_eq!((left.rows().len(), left.rows().next()), (3, Some(&[0][..])));
    /// # Ok::<(), faxpages::Error>(())
    /// ```
    #[must_use]
    pub fn rows(&self) -> impl ExactSizeIterator<Item = &[u8]> {
        self.packed.chunks_exact((self.width.div_ceil(8) as usize).max(1))
    }

    /// How many rows are found.
    ///
    /// ```
    /// # use faxpages::{Coding, Strip, StripForm};
    /// let form = StripForm { rows: Some(3), ..StripForm::new(8, Coding::Mh) };
    /// assert_eq!(Strip::new(&[0x00, 0x19, 0x80, 0x0F, 0x00, 0x19, 0x80], form).salvaged()?.found(), 2);
    /// # Ok::<(), faxpages::Error>(())
    /// ```
    #[must_use]
    pub fn found(&self) -> usize {
        self.rows().len() - self.lost.iter().map(|stretch| stretch.rows as usize).sum::<usize>()
    }

    /// Whether a row is lost, by its number from 0.
    ///
    /// ```
    /// # use faxpages::{Coding, Strip, StripForm};
    /// let form = StripForm { rows: Some(3), ..StripForm::new(8, Coding::Mh) };
    /// let left = Strip::new(&[0x00, 0x19, 0x80, 0x0F, 0x00, 0x19, 0x80], form).salvaged()?;
    /// assert_eq!([0, 1, 2].map(|row| left.is_lost(row)), [false, true, false]);
    /// # Ok::<(), faxpages::Error>(())
    /// ```
    #[must_use]
    pub fn is_lost(&self, row: u32) -> bool {
        let after = self.lost.partition_point(|stretch| stretch.first <= row);
        after > 0 && row - self.lost[after - 1].first < self.lost[after - 1].rows
    }

    /// All that is left of a page or of a strip with so many rows.
    pub(crate) fn read(rows: inner::SalvagedRows<'_>, width: u32, count: u32) -> Result<Self, Error> {
        let stride = width.div_ceil(8) as usize;
        let mut packed = filled(0, stride.checked_mul(count as usize).ok_or(Error::Memory)?)?;
        let (mut left, mut lost) = (SalvagedRows::new(rows, 0), Vec::new());
        while let Some(piece) = left.next_piece() {
            match piece {
                Piece::Lost(stretch) => lost.push(stretch),
                Piece::Row(row) => row.pack_into(&mut packed[row.number as usize * stride..][..stride]),
            }
        }
        Ok(Salvaged { form: None, width, packed, lost, end_mark: false, fault: None })
    }

    /// All that is left of a strip of unknown height.
    pub(crate) fn read_uncounted(bytes: &[u8], form: inner::StripForm) -> Result<Self, Error> {
        let found = inner::SalvagedRows::of_uncounted(Global, bytes, form).map_err(|_| Error::Memory)?;
        let left = Salvaged::read(found.rows_left, form.width, found.rows)?;
        let (end_mark, fault) = (found.end == RowsEnd::Marked, Fault::of_rows(found.end));
        Ok(Salvaged { end_mark, fault, ..left })
    }
}

/// What is left of a page, in the order of its rows.
///
/// ```
/// # let mut writer = faxpages::Writer::new(1)?;
/// # writer.add(&faxpages::Form::new(8, 1, faxpages::Coding::Mmr), None, &[0x18], 1)?;
/// # let file = writer.finish()?;
/// let first = faxpages::Fax::new(&file).salvaged_rows(0)?.next();
/// assert!(matches!(first, Some(Ok(faxpages::Left::Row(row))) if row.runs() == [3, 2, 3]));
/// # Ok::<(), faxpages::Error>(())
/// ```
#[derive(Clone, Debug, PartialEq, Eq, Hash)]
pub enum Left {
    /// A row that is found.
    Row(Row),
    /// Rows that are lost, one after another.
    Lost(Stretch),
}

/// The same, where the row is lent.
enum Piece<'a> {
    Row(LentRow<'a>),
    Lost(Stretch),
}

/// What is left of a page, piece by piece: [`Fax::salvaged_rows`](crate::Fax::salvaged_rows) makes it.
///
/// ```
/// # let mut writer = faxpages::Writer::new(1)?;
/// # writer.add(&faxpages::Form::new(8, 20, faxpages::Coding::Mmr), 1, &[0; 20], 1)?;
/// # let mut file = writer.finish()?;
/// file[9..14].fill(0); // after the bits of eight white rows
/// let last = faxpages::Fax::new(&file).salvaged_rows(0)?.last();
/// assert!(matches!(last, Some(Ok(faxpages::Left::Lost(lost))) if lost.rows == 12));
/// # Ok::<(), faxpages::Error>(())
/// ```
#[must_use = "an iterator reads nothing before it is asked"]
pub struct SalvagedRows<'a> {
    rows: inner::SalvagedRows<'a>,
    page: u32,
    /// The row after those that were passed, and whether the last of them is found, and not returned yet.
    row: u32,
    waits: bool,
}

impl<'a> SalvagedRows<'a> {
    pub(crate) fn new(rows: inner::SalvagedRows<'a>, page: u32) -> Self {
        SalvagedRows { rows, page, row: 0, waits: false }
    }

    fn next_piece(&mut self) -> Option<Piece<'_>> {
        let mut lost: Option<Stretch> = None;
        while !self.waits {
            match self.rows.next_part() {
                Some(SalvagedPart::Lost { rows, cause }) => {
                    let first = Stretch { first: self.row, rows: 0, fault: Fault::of(cause) };
                    lost.get_or_insert(first).rows += rows;
                    self.row += rows;
                }
                Some(SalvagedPart::Found) => (self.row, self.waits) = (self.row + 1, true),
                None => return lost.map(Piece::Lost),
            }
        }
        if let Some(stretch) = lost {
            return Some(Piece::Lost(stretch));
        }
        self.waits = false;
        Some(Piece::Row(LentRow { page: self.page, number: self.row - 1, row: self.rows.row() }))
    }
}

impl Iterator for SalvagedRows<'_> {
    type Item = Result<Left, Error>;

    fn next(&mut self) -> Option<Self::Item> {
        Some(Ok(match self.next_piece()? {
            Piece::Row(row) => Left::Row(row.to_row()),
            Piece::Lost(stretch) => Left::Lost(stretch),
        }))
    }
}

impl std::iter::FusedIterator for SalvagedRows<'_> {}

impl fmt::Debug for SalvagedRows<'_> {
    fn fmt(&self, f: &mut fmt::Formatter<'_>) -> fmt::Result {
        f.debug_struct("SalvagedRows").field("page", &self.page).field("row", &self.row).finish_non_exhaustive()
    }
}
