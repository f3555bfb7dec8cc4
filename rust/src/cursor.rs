//! Where to go on.

use crate::inner::{self, Global, Items, LongFault, WalkStart};
use crate::Error;
use std::fmt;
use std::str::FromStr;

/// The most runs of a row.
const MOST_RUNS: usize = 65_536;

/// Where to go on: a page and a row, or a place inside a strip, after which no row is read again.
///
/// Its text is that of the program faxpages, `1:P:R` or `2:P:R:B:n,n,..`: [`Display`](fmt::Display) writes it, and
/// [`FromStr`] reads it. The default is the beginning of a file.
///
/// ```
/// # use faxpages::{Coding, Cursor, Error, Fax, Form, Writer};
/// # let mut writer = Writer::new(1)?;
/// # writer.add(&Form::new(8, 3, Coding::Mr), 1, &[0x18, 0xFC, 0x00], 1)?;
/// # let file = writer.finish()?;
/// let fax = Fax::new(&file);
/// let (rows, after) = fax.read_rows(&Cursor::default(), 2)?;
/// let text = after.to_string();
/// let again: Cursor = text.parse()?;
/// assert_eq!((rows.len(), &again), (2, &after));
/// assert_eq!(fax.rows_at(&again).count(), 1);
/// # Ok::<(), Error>(())
/// ```
#[derive(Clone, Debug, Default, PartialEq, Eq, Hash)]
pub struct Cursor {
    page: u32,
    row: u32,
    /// How many bits of the strip are before it; 0 where it is a page and a row alone.
    bits: u32,
    /// The runs of the row before it, no more than a row may have; none where it is a page and a row alone.
    runs: Vec<u32>,
}

impl Cursor {
    /// A row of a page, both from 0. The row after a page's last is the next page's first.
    ///
    /// ```
    /// assert_eq!(faxpages::Cursor::new(1, 7).to_string(), "1:1:7");
    /// ```
    #[must_use]
    pub const fn new(page: u32, row: u32) -> Self {
        Cursor { page, row, bits: 0, runs: Vec::new() }
    }

    /// A place inside a strip by its numbers: after `bits` bits of it, and after a row of these runs; without runs, a
    /// row of a page. Numbers that no cursor of the same file had may be outside it, or give other rows or a fault.
    ///
    /// # Errors
    ///
    /// [`Error::NotACursor`] where there are more than 65,536 runs, which no row has.
    ///
    /// ```
    /// assert_eq!(faxpages::Cursor::inside_strip(0, 2, 21, &[0, 8])?.to_string(), "2:0:2:21:0,8");
    /// # Ok::<(), faxpages::Error>(())
    /// ```
    pub fn inside_strip(page: u32, row: u32, bits: u32, runs: &[u32]) -> Result<Self, Error> {
        if runs.len() > MOST_RUNS {
            return Err(Error::NotACursor);
        }
        Ok(Cursor { page, row, bits: if runs.is_empty() { 0 } else { bits }, runs: runs.to_vec() })
    }

    /// The page of the next row.
    ///
    /// ```
    /// assert_eq!(faxpages::Cursor::new(1, 7).page(), 1);
    /// ```
    #[must_use]
    pub const fn page(&self) -> u32 {
        self.page
    }

    /// The next row.
    ///
    /// ```
    /// assert_eq!(faxpages::Cursor::new(1, 7).row(), 7);
    /// ```
    #[must_use]
    pub const fn row(&self) -> u32 {
        self.row
    }

    /// How many bits of the strip are before it; 0 where it is a page and a row alone.
    ///
    /// ```
    /// assert_eq!(faxpages::Cursor::inside_strip(0, 2, 21, &[0, 8])?.bits(), 21);
    /// # Ok::<(), faxpages::Error>(())
    /// ```
    #[must_use]
    pub const fn bits(&self) -> u32 {
        self.bits
    }

    /// The runs of the row before it, white first; none where it is a page and a row alone.
    ///
    /// ```
    /// assert_eq!(faxpages::Cursor::inside_strip(0, 2, 21, &[0, 8])?.runs(), [0, 8]);
    /// # Ok::<(), faxpages::Error>(())
    /// ```
    #[must_use]
    pub fn runs(&self) -> &[u32] {
        &self.runs
    }

    /// Whether it is a place inside a strip.
    ///
    /// ```
    /// assert!(!faxpages::Cursor::new(1, 7).is_inside_strip());
    /// ```
    #[must_use]
    pub fn is_inside_strip(&self) -> bool {
        !self.runs.is_empty()
    }

    /// The place of a walk.
    pub(crate) fn of(walk: &inner::Walk<'_>) -> Self {
        match walk.long_cursor(Global) {
            Ok(Some(place)) => Cursor::of_long(&place),
            // Where memory is refused the rows of the strip before it are read again.
            Ok(None) | Err(_) => Cursor::new(walk.cursor().page, walk.cursor().row),
        }
    }

    fn of_long(place: &inner::LongCursor) -> Self {
        Cursor { page: place.at.page, row: place.at.row, bits: place.bits, runs: place.runs.to_vec() }
    }

    /// Where a walk begins.
    pub(crate) fn start(&self) -> WalkStart {
        let at = inner::Cursor { page: self.page, row: self.row };
        match Items::from_slice(Global, &self.runs) {
            Ok(runs) if self.is_inside_strip() => {
                WalkStart::AtLongCursor(inner::LongCursor { at, bits: self.bits, runs })
            }
            _ => WalkStart::AtCursor(at),
        }
    }
}

impl fmt::Display for Cursor {
    fn fmt(&self, f: &mut fmt::Formatter<'_>) -> fmt::Result {
        let Cursor { page, row, bits, .. } = self;
        let Some((first, others)) = self.runs.split_first() else { return write!(f, "1:{page}:{row}") };
        write!(f, "2:{page}:{row}:{bits}:{first}")?;
        others.iter().try_for_each(|run| write!(f, ",{run}"))
    }
}

impl FromStr for Cursor {
    type Err = Error;

    fn from_str(text: &str) -> Result<Self, Error> {
        if let Ok(at) = inner::Cursor::parse(text) {
            return Ok(Cursor::new(at.page, at.row));
        }
        match inner::LongCursor::parse(Global, text) {
            Ok(place) if place.runs.len() <= MOST_RUNS => Ok(Cursor::of_long(&place)),
            Ok(_) | Err(LongFault::NotACursor) => Err(Error::NotACursor),
            Err(LongFault::Memory) => Err(Error::Memory),
        }
    }
}
