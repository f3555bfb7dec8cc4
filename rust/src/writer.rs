//! Files that are written page by page.

use crate::inner::{self, put_totals, write_page, Global, Items};
use crate::strip::code_raster;
use crate::{Coding, Error, Form, Invalid, Page, Salvaged, USUAL_K};
use std::fmt;

/// The most pages of a file.
const MOST_PAGES: u32 = 65_535;
/// How a file begins: with the lowest byte of a number, and the place of the first directory, which is written later.
const HEADER: [u8; 8] = *b"II*\0\0\0\0\0";

/// A TIFF-F file that is written page by page, in memory.
///
/// In MR one row in every `k` is coded by itself: 4 where it is none. The other codings have no k.
///
/// ```
/// use faxpages::{Coding, Fax, Form, Writer};
/// let mut writer = Writer::new(2)?;
/// let mut form = Form::new(16, 3, Coding::Mr);
/// writer.add(&form, 4, &[0xFF, 0, 0, 0xFF, 0xAA, 0x55], 2)?;
/// (form.rows, form.coding) = (1, Coding::Mmr);
/// writer.add(&form, None, &[0, 1], 2)?;
/// let file = writer.finish()?;
/// assert_eq!(Fax::new(&file).rows().count(), 4);
/// assert_eq!(Fax::new(&file).page(1)?.packed, [0, 1]);
/// # Ok::<(), faxpages::Error>(())
/// ```
#[doc(alias = "Encoder")]
#[derive(Clone)]
pub struct Writer {
    file: Vec<u8>,
    /// Where in it the offset of the next page's directory stands.
    link: usize,
    /// How many pages it will have, or 0 where that is unknown.
    total: u32,
    added: u32,
}

impl fmt::Debug for Writer {
    fn fmt(&self, f: &mut fmt::Formatter<'_>) -> fmt::Result {
        let Writer { file, total, added, .. } = self;
        f.debug_struct("Writer").field("len", &file.len()).field("total", total).field("added", added).finish()
    }
}

impl Writer {
    /// A file that will have this many pages, 1 to 65,535, which each of them says.
    ///
    /// # Errors
    ///
    /// [`Invalid::NoPage`] for no page, and [`Error::OutputTooLarge`] for more than 65,535.
    ///
    /// ```
    /// assert_eq!(faxpages::Writer::new(0).unwrap_err(), faxpages::Invalid::NoPage.into());
    /// ```
    pub fn new(pages: u32) -> Result<Self, Error> {
        match pages {
            0 => Err(Invalid::NoPage.into()),
            1..=MOST_PAGES => Ok(Writer { file: Vec::new(), link: 4, total: pages, added: 0 }),
            _ => Err(Error::OutputTooLarge),
        }
    }

    /// A file whose number of pages is unknown so far, up to 65,535: [`Writer::finish`] writes it into each of them.
    /// Until then they say that the number is not available.
    ///
    /// ```
    /// use faxpages::{Coding, Fax, Form, Writer};
    /// let mut writer = Writer::uncounted()?;
    /// for rows in [3, 1] {
    ///     writer.add(&Form::new(16, rows, Coding::Mmr), None, &[0; 6], 2)?;
    /// }
    /// assert_eq!(Fax::new(&writer.finish()?).pages().count(), 2);
    /// # Ok::<(), faxpages::Error>(())
    /// ```
    ///
    /// # Errors
    ///
    /// None in this version.
    pub fn uncounted() -> Result<Self, Error> {
        Ok(Writer { file: Vec::new(), link: 4, total: 0, added: 0 })
    }

    /// Adds a page of this form, coded from a raster: row i stands in the [`Form::stride`] bytes from `raster[i *
    /// stride]` on, the highest bit first, 1 for black, whatever stands after its pels. In MR one row in every k is
    /// coded by itself; k is at least 1, and 4 where it is none. `page`, `strips` and `exchanged` of the form do not
    /// matter, and `rows_per_strip` of 0, or of more than its rows, is one strip.
    ///
    /// # Errors
    ///
    /// [`Error::Invalid`] if the form is invalid, k is 0, the raster is too short, or the file has all its pages;
    /// [`Error::OutputTooLarge`] where it would have more than 268,435,456 bytes; or [`Error::Memory`]. Then the file
    /// is what it was.
    ///
    /// ```
    /// use faxpages::{Coding, Form, Writer};
    /// let mut writer = Writer::new(1)?;
    /// writer.add(&Form::new(8, 2, Coding::Mmr), None, &[0x18, 0xFC], 1)?;
    /// assert_eq!(writer.pages(), 1);
    /// # Ok::<(), faxpages::Error>(())
    /// ```
    pub fn add(
        &mut self,
        form: &Form,
        k: impl Into<Option<u32>>,
        raster: &[u8],
        stride: usize,
    ) -> Result<(), Error> {
        let (page, k) = (form.written(), k.into().unwrap_or(USUAL_K));
        if let Some(invalid) = self.invalid(form, k, raster.len(), stride) {
            return Err(invalid.into());
        }
        let mut strips = Vec::new();
        for strip in 0..page.strips {
            let first = (strip * page.rows_per_strip) as usize * stride;
            strips.push(code_raster(page.strip_form(strip), k, &raster[first..], stride)?);
        }
        self.put(&page, &strips)
    }

    /// Adds a page that was read, as it is, in this coding or in its own.
    ///
    /// # Errors
    ///
    /// As [`Writer::add`]: a page that lacks rows has a raster that is too short.
    ///
    /// ```
    /// # use faxpages::{Coding, Fax, Form, Writer};
    /// # let mut writer = Writer::new(1)?;
    /// # writer.add(&Form::new(8, 2, Coding::Mh), None, &[0x18, 0xFC], 1)?;
    /// # let file = writer.finish()?;
    /// let mut copy = Writer::uncounted()?;
    /// for page in Fax::new(&file).pages() {
    ///     copy.add_page(&page?, Coding::Mmr)?;
    /// }
    /// let copy = copy.finish()?;
    /// assert_eq!(Fax::new(&copy).page(0)?.packed, [0x18, 0xFC]);
    /// # Ok::<(), faxpages::Error>(())
    /// ```
    pub fn add_page(&mut self, page: &Page, coding: impl Into<Option<Coding>>) -> Result<(), Error> {
        self.add_as(page.form, &page.packed, coding.into())
    }

    /// Adds what is left of a damaged page, as it is, in this coding or in its own: rows that are lost are white. A strip
    /// becomes a page at 204 by 196 an inch, in MMR if no coding is named.
    ///
    /// # Errors
    ///
    /// As [`Writer::add`].
    ///
    /// ```
    /// # use faxpages::{Coding, Fax, Form, Writer};
    /// # let mut writer = Writer::new(1)?;
    /// # writer.add(&Form::new(8, 20, Coding::Mmr), 1, &[0; 20], 1)?;
    /// # let mut file = writer.finish()?;
    /// file[9..14].fill(0); // after the bits of eight white rows
    /// let mut copy = Writer::uncounted()?;
    /// copy.add_salvaged(&Fax::new(&file).salvaged(0)?, Coding::Mr)?;
    /// let copy = copy.finish()?;
    /// assert_eq!(Fax::new(&copy).rows().count(), 20);
    /// # Ok::<(), faxpages::Error>(())
    /// ```
    pub fn add_salvaged(&mut self, left: &Salvaged, coding: impl Into<Option<Coding>>) -> Result<(), Error> {
        let form = left.form.unwrap_or_else(|| Form::new(left.width, left.rows().len() as u32, Coding::Mmr));
        self.add_as(form, &left.packed, coding.into())
    }

    /// Adds a page of this form and these rows in a coding, or in that of the form. No EOLs stand in MMR.
    fn add_as(&mut self, form: Form, packed: &[u8], coding: Option<Coding>) -> Result<(), Error> {
        let coding = coding.unwrap_or(form.coding);
        let aligned = form.aligned && coding != Coding::Mmr;
        self.add(&Form { coding, aligned, ..form }, None, packed, form.stride())
    }

    /// Appends a page of these strips.
    fn put(&mut self, form: &inner::PageForm, strips: &[Items<u8>]) -> Result<(), Error> {
        let start = self.file.len().max(HEADER.len()) as u32;
        let (number, total) = (self.added as u16, self.total as u16);
        let page = write_page(Global, form, strips, start, number, total).map_err(Error::of_writing)?;
        self.file.try_reserve(HEADER.len() + page.bytes.len()).map_err(Error::memory)?;
        if self.added == 0 {
            self.file.extend_from_slice(&HEADER);
        }
        self.file[self.link..self.link + 4].copy_from_slice(&page.directory.to_le_bytes());
        self.file.extend_from_slice(&page.bytes);
        (self.link, self.added) = (page.link as usize, self.added + 1);
        Ok(())
    }

    /// What of a page is out of range.
    fn invalid(&self, form: &Form, k: u32, len: usize, stride: usize) -> Option<Invalid> {
        let pages = if self.total == 0 { MOST_PAGES } else { self.total };
        if self.added == pages {
            return Some(Invalid::AllPages(pages));
        }
        let resolution = [form.x, form.y].into_iter().find(|(pels, units)| *pels == 0 || *units == 0);
        invalid_rows(form.width, form.rows as usize, form.coding, form.aligned)
            .or(resolution.map(|(pels, units)| Invalid::Resolution(pels, units)))
            .or_else(|| invalid_raster(k, len, stride, form.stride(), form.rows))
    }

    /// The file so far, which is a whole one once a page was added.
    ///
    /// ```
    /// use faxpages::{Coding, Fax, Form, Writer};
    /// let mut writer = Writer::new(2)?;
    /// writer.add(&Form::new(8, 2, Coding::Mmr), None, &[0x18, 0xFC], 1)?;
    /// assert_eq!(Fax::new(writer.bytes()).pages().count(), 1);
    /// # Ok::<(), faxpages::Error>(())
    /// ```
    #[must_use]
    pub fn bytes(&self) -> &[u8] {
        &self.file
    }

    /// How many pages were added.
    ///
    /// ```
    /// assert_eq!(faxpages::Writer::new(2)?.pages(), 0);
    /// # Ok::<(), faxpages::Error>(())
    /// ```
    #[must_use]
    pub fn pages(&self) -> u32 {
        self.added
    }

    /// The file, each of whose pages says how many there are.
    ///
    /// # Errors
    ///
    /// [`Invalid::FewPages`] where it lacks pages, and [`Invalid::NoPage`] where it has none.
    ///
    /// ```
    /// use faxpages::{Coding, Form, Writer};
    /// let mut writer = Writer::new(1)?;
    /// writer.add(&Form::new(8, 2, Coding::Mmr), None, &[0x18, 0xFC], 1)?;
    /// assert!(writer.finish()?.starts_with(b"II*\0"));
    /// # Ok::<(), faxpages::Error>(())
    /// ```
    pub fn finish(mut self) -> Result<Vec<u8>, Error> {
        let Writer { added, total, .. } = self;
        if added < total {
            return Err(Invalid::FewPages { added, total }.into());
        }
        if added == 0 {
            return Err(Invalid::NoPage.into());
        }
        if total == 0 {
            put_totals(&mut self.file, added as u16);
        }
        Ok(self.file)
    }
}

/// What of so many rows is out of range.
pub(crate) fn invalid_rows(width: u32, rows: usize, coding: Coding, aligned: bool) -> Option<Invalid> {
    match (width, rows) {
        (0 | 65_536.., _) => Some(Invalid::Width(width)),
        (_, 0 | 1_000_001..) => Some(Invalid::Rows(rows)),
        _ => (aligned && coding == Coding::Mmr).then_some(Invalid::Aligned),
    }
}

/// What of a raster is out of range, for rows of so many bytes.
pub(crate) fn invalid_raster(k: u32, len: usize, stride: usize, row: usize, rows: u32) -> Option<Invalid> {
    let needed = (rows.max(1) as usize - 1).saturating_mul(stride).saturating_add(row);
    match k {
        0 => Some(Invalid::K),
        _ => (len < needed).then_some(Invalid::Raster { len, needed }),
    }
}
