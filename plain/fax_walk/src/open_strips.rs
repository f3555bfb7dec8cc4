// Made by tools/plain-rust of crates/fax_walk/src/open_strips.rt: change that.
//! The strips of a page that is being written.

use kit_std::prelude::Vec;

use fax_bits::Memory;
use fax_files::PageForm;
use fax_page::{StripForm, StripWriter};
use fax_rows::Row;
use kit_std::alloc::Global;

/// A page of a TIFF file that is being written: the strips that are whole, and the one that is not.
pub(crate) struct StripsWriter {
    alloc: Global,
    pub(crate) form: PageForm,
    k: u32,
    pub(crate) done: Vec<Vec<u8>>,
    writer: Option<StripWriter>,
    rows: u32,
}

impl StripsWriter {
    /// Before the first row.
    // requires limits { IsPageForm form }
    // requires some_k { 0 < k }
    // ensures { Spec.HasPutRows form k [] result }
    pub(crate) fn new(alloc: Global, form: PageForm, k: u32) -> Self {
        StripsWriter {
            alloc,
            form,
            k,
            done: Vec::new(alloc),
            writer: None,
            rows: 0,
        }
    }

    /// Begins the strip of this form, which is the next one.
    #[inline(never)]
    // requires limits { IsStripForm form }
    // requires some_k { 0 < self.old.k }
    // ensures { OnOk result (Spec.BeginsStrip form self.old self.new) }
    fn begin_strip(&mut self, form: StripForm) -> Result<(), Memory> {
        self.writer = Some(StripWriter::new(self.alloc, form, self.k)?);
        Ok(())
    }

    /// Begins the next strip, which has this number, where none is open.
    #[inline(always)]
    // requires number { strip ≡ length self.old.done.items }
    // requires upcoming { (row : List Colour) × Spec.TakesRow self.old row }
    // ensures { OnOk result (Spec.OpensStrip self.old self.new) }
    fn open_strip(&mut self, strip: u32) -> Result<(), Memory> {
        if let Some(_) = self.writer {
            return Ok(());
        }
        let form = self.form.strip_form(strip);
        self.begin_strip(form)
    }

    /// Writes the strip that is open, all rows of which were put.
    #[inline(never)]
    // requires { Spec.HasWholeStrip self.old }
    // ensures { OnOk result (Spec.EndsStrip self.old self.new) }
    fn end_strip(&mut self) -> Result<(), Memory> {
        let Some(writer) = self.writer.take() else {
            unreachable!();
        };
        self.done.push(writer.finish()?).map_err(|_| Memory)?;
        Ok(())
    }

    /// Writes the next row, and its strip where that is whole then. The strip's writer stays where
    /// it is between the strip's rows.
    // requires { Spec.TakesRow self.old row.now }
    // ensures { OnOk result (Spec.PutsRow self.old row.now self.new) }
    pub(crate) fn put_row(&mut self, row: &Row) -> Result<(), Memory> {
        let strip = self.done.len() as u32;
        self.open_strip(strip)?;
        let Some(writer) = &mut self.writer else {
            unreachable!();
        };
        writer.put_row(row)?;
        self.rows += 1;
        let end = ((strip + 1) * self.form.rows_per_strip).min(self.form.rows);
        if self.rows == end {
            self.end_strip()?;
        }
        Ok(())
    }

    /// Writes white rows next, up to so many, as far as their strip goes, and the strip where that
    /// is whole then. Returns how many were written.
    // requires some { 0 < most }
    // requires upcoming { Spec.TakesWhiteRows self.old most }
    // ensures some { IfOk result (λ count. 0 < count) }
    // ensures few { IfOk result (λ count. count ≤ most) }
    // ensures put { IfOk result (λ count. Spec.PutsWhiteRows self.old count self.new) }
    fn put_white_part(&mut self, most: u32) -> Result<u32, Memory> {
        let strip = self.done.len() as u32;
        self.open_strip(strip)?;
        let Some(writer) = &mut self.writer else {
            unreachable!();
        };
        let end = ((strip + 1) * self.form.rows_per_strip).min(self.form.rows);
        let count = most.min(end - self.rows);
        writer.put_white_rows(count)?;
        self.rows += count;
        if self.rows == end {
            self.end_strip()?;
        }
        Ok(count)
    }

    /// Writes so many white rows next, strip after strip, in time by the bytes that they become.
    // requires { Spec.TakesWhiteRows self.old count }
    // ensures { OnOk result (Spec.PutsWhiteRows self.old count self.new) }
    pub(crate) fn put_white_rows(&mut self, count: u32) -> Result<(), Memory> {
        let mut remaining = count;
        while remaining > 0 {
            remaining -= self.put_white_part(remaining)?;
        }
        Ok(())
    }
}
