//! Whole pages.

use crate::rows::LentRows;
use crate::{filled, Cursor, Error, Fax, Form, Forms};
use std::iter::FusedIterator;

/// A page: its form, and its rows one after another in one block of bytes.
///
/// ```
/// # let mut writer = faxpages::Writer::new(1)?;
/// # writer.add(&faxpages::Form::new(8, 2, faxpages::Coding::Mmr), None, &[0x18, 0xFC], 1)?;
/// # let file = writer.finish()?;
/// let page = faxpages::Fax::new(&file).page(0)?;
/// assert_eq!((page.form.width, page.packed, page.fault), (8, vec![0x18, 0xFC], None));
/// # Ok::<(), faxpages::Error>(())
/// ```
#[derive(Clone, Debug, PartialEq, Eq, Hash)]
#[non_exhaustive]
pub struct Page {
    /// Its form.
    pub form: Form,
    /// The bytes of its rows, [`Form::stride`] each, the highest bit first, 1 for black, with zeros after the last pel.
    pub packed: Vec<u8>,
    /// Why rows are missing, if some are.
    pub fault: Option<Error>,
}

impl Page {
    /// Its rows, from the first on.
    ///
    /// ```
    /// # let mut writer = faxpages::Writer::new(1)?;
    /// # writer.add(&faxpages::Form::new(8, 2, faxpages::Coding::Mmr), None, &[0x18, 0xFC], 1)?;
    /// # let file = writer.finish()?;
    /// assert_eq!(faxpages::Fax::new(&file).page(0)?.rows().next(), Some(&[0x18][..]));
    /// # Ok::<(), faxpages::Error>(())
    /// ```
    #[must_use]
    pub fn rows(&self) -> impl ExactSizeIterator<Item = &[u8]> {
        self.packed.chunks_exact(self.form.stride())
    }

    /// A row by its number, from 0; none where it is missing.
    ///
    /// ```
    /// # let mut writer = faxpages::Writer::new(1)?;
    /// # writer.add(&faxpages::Form::new(8, 2, faxpages::Coding::Mmr), None, &[0x18, 0xFC], 1)?;
    /// # let file = writer.finish()?;
    /// assert_eq!(faxpages::Fax::new(&file).page(0)?.row(1), Some(&[0xFC][..]));
    /// # Ok::<(), faxpages::Error>(())
    /// ```
    #[must_use]
    pub fn row(&self, number: u32) -> Option<&[u8]> {
        self.rows().nth(number as usize)
    }

    /// Its pels as levels of grey, a byte each: 0 for black, 255 for white. So crates of images take them: the crate
    /// `image` by `GrayImage::from_raw(page.form.width, page.rows().len() as u32, page.luma8()?)`.
    ///
    /// # Errors
    ///
    /// [`Error::Memory`].
    ///
    /// ```
    /// # let mut writer = faxpages::Writer::new(1)?;
    /// # writer.add(&faxpages::Form::new(3, 2, faxpages::Coding::Mmr), None, &[0b0100_0000, 0b1100_0000], 1)?;
    /// # let file = writer.finish()?;
    /// assert_eq!(faxpages::Fax::new(&file).page(0)?.luma8()?, [255, 0, 255, 0, 0, 255]);
    /// # Ok::<(), faxpages::Error>(())
    /// ```
    #[doc(alias = "GrayImage")]
    pub fn luma8(&self) -> Result<Vec<u8>, Error> {
        let width = self.form.width as usize;
        let mut pels = filled(255, width.saturating_mul(self.rows().len()))?;
        for (row, out) in self.rows().zip(pels.chunks_exact_mut(width)) {
            for (level, pel) in out.iter_mut().zip(0..) {
                *level = if row[pel / 8] << (pel % 8) & 0x80 == 0 { 255 } else { 0 };
            }
        }
        Ok(pels)
    }

    /// How many rows are missing after these.
    ///
    /// ```
    /// # let mut writer = faxpages::Writer::new(1)?;
    /// # writer.add(&faxpages::Form::new(8, 20, faxpages::Coding::Mmr), 1, &[0; 20], 1)?;
    /// # let mut file = writer.finish()?;
    /// file[9..14].fill(0); // after the bits of eight white rows
    /// assert_eq!(faxpages::Fax::new(&file).partial_page(0)?.lost(), 12);
    /// # Ok::<(), faxpages::Error>(())
    /// ```
    #[must_use]
    pub fn lost(&self) -> u32 {
        self.form.rows.saturating_sub(self.rows().len() as u32)
    }

    /// The page of a form, whose rows come next, or what stands before its fault. Memory is taken for what was read.
    pub(crate) fn read(rows: &mut LentRows<'_>, form: Form) -> Self {
        let (mut packed, stride) = (Vec::new(), form.stride());
        let mut fault = None;
        while fault.is_none() && packed.len() < form.rows as usize * stride {
            fault = match rows.next() {
                Ok(None) => Some(Error::Outside),
                Err(error) => Some(error),
                Ok(Some(_)) if packed.try_reserve(stride).is_err() => Some(Error::Memory),
                Ok(Some(row)) => {
                    let begin = packed.len();
                    packed.resize(begin + stride, 0);
                    row.pack_into(&mut packed[begin..]);
                    None
                }
            };
        }
        Page { form, packed, fault }
    }
}

/// What was written of a page into a buffer.
///
/// ```
/// # let mut writer = faxpages::Writer::new(1)?;
/// # writer.add(&faxpages::Form::new(8, 2, faxpages::Coding::Mmr), None, &[0x18, 0xFC], 1)?;
/// # let file = writer.finish()?;
/// let filled = faxpages::Fax::new(&file).page_into(0, &mut [0], 1)?;
/// assert_eq!((filled.rows, filled.stopped), (1, Some(faxpages::Error::NoRoom)));
/// # Ok::<(), faxpages::Error>(())
/// ```
#[derive(Clone, Debug, PartialEq, Eq, Hash)]
#[non_exhaustive]
pub struct Filled {
    /// The form of the page.
    pub form: Form,
    /// How many rows were written.
    pub rows: usize,
    /// Why not all of them were: a fault, or [`Error::NoRoom`].
    pub stopped: Option<Error>,
}

impl Filled {
    /// Writes the rows of a page of a file, each so many bytes after the one above it.
    pub(crate) fn read(file: &[u8], form: Form, mut out: &mut [u8], stride: usize) -> Self {
        let mut rows = LentRows::new(file, &Cursor::new(form.page, 0));
        let (packed, mut count, mut stopped) = (form.stride(), 0, None);
        while stopped.is_none() && count < form.rows as usize {
            stopped = match rows.next() {
                _ if stride < packed => Some(Error::NoRoom),
                Ok(None) => Some(Error::Outside),
                Err(error) => Some(error),
                Ok(Some(_)) if out.len() < stride => Some(Error::NoRoom),
                Ok(Some(row)) => {
                    let (place, rest) = out.split_at_mut(stride);
                    row.pack_into(&mut place[..packed]);
                    place[packed..].fill(0);
                    (out, count) = (rest, count + 1);
                    None
                }
            };
        }
        Filled { form, rows: count, stopped }
    }
}

/// Pages in order, each whole, and the error that ends them.
///
/// ```
/// # let mut writer = faxpages::Writer::new(1)?;
/// # writer.add(&faxpages::Form::new(8, 2, faxpages::Coding::Mmr), None, &[0x18, 0xFC], 1)?;
/// # let file = writer.finish()?;
/// for page in faxpages::Fax::new(&file).pages() {
///     assert_eq!(page?.packed, [0x18, 0xFC]);
/// }
/// # Ok::<(), faxpages::Error>(())
/// ```
#[must_use = "an iterator reads nothing before it is asked"]
#[derive(Debug)]
pub struct Pages<'a> {
    forms: Forms<'a>,
    rows: LentRows<'a>,
    is_ended: bool,
}

impl<'a> Pages<'a> {
    pub(crate) fn new(file: &'a [u8]) -> Self {
        Pages { forms: Fax::new(file).forms(), rows: LentRows::new(file, &Cursor::default()), is_ended: false }
    }

    fn page_of(&mut self, form: Form) -> Result<Page, Error> {
        let page = Page::read(&mut self.rows, form);
        match page.fault {
            Some(fault) => Err(fault),
            None => Ok(page),
        }
    }
}

impl Iterator for Pages<'_> {
    type Item = Result<Page, Error>;

    fn next(&mut self) -> Option<Self::Item> {
        if self.is_ended {
            return None;
        }
        let page = self.forms.next().map(|form| self.page_of(form?));
        self.is_ended = !matches!(page, Some(Ok(_)));
        page
    }
}

impl FusedIterator for Pages<'_> {}
