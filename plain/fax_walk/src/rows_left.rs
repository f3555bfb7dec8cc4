// Made by tools/plain-rust of crates/fax_walk/src/rows_left.rt: change that.
//! The rows that are left of a page, or of a strip with no file around it, one after another.

use crate::opening::UnopenedPage;
use crate::rows_from::RowsFrom;
use crate::salvage_rows::{SalvagedPart, part_of};
use crate::shown_rows::ShownRows;
use crate::{Cursor, End};
use fax_bits::Memory;
use fax_files::{PageForm, Received};
use fax_page::{PlaceFault, ReferenceRow, RowsEnd, SalvageReader, StripForm, UncountedSalvage};
use fax_rows::Row;
use kit_std::alloc::Global;
use kit_std::marker::Model;

/// What rows are left of.
enum RowSource<'a> {
    Page(ShownRows<'a>),
    /// A strip of these bytes.
    Strip(SalvageReader<'a>),
    /// Rows of these bytes of unknown number, and how many they are.
    Uncounted(UncountedSalvage<'a>),
}

/// What becomes of the next row, or `None` after the last one.
// requires { Spec.IsGoneOver remaining.old }
// ensures { Spec.IsNextOf remaining.old result remaining.new }
fn next_of(remaining: &mut RowSource) -> Option<SalvagedPart> {
    match remaining {
        RowSource::Page(its) => {
            let part = its.next_part();
            its.lemma_rows_left();
            part
        }
        RowSource::Strip(reader) => match reader.next_salvaged() {
            Some(salvaged) => Some(part_of(salvaged, true)),
            None => None,
        },
        RowSource::Uncounted(reader) => match reader.next_salvaged() {
            Ok(salvaged) => Some(part_of(salvaged, true)),
            Err(_end) => None,
        },
    }
}

/// A page of a file that may be damaged, found by its number. Contracts see its file, and where and
/// what it is.
pub struct DamagedPage<'a> {
    upcoming: UnopenedPage<'a>,
}

impl<'a> Model for DamagedPage<'a> {}

impl<'a> DamagedPage<'a> {
    /// The page of a file with this number, from 0, also after pages that are refused. It takes no
    /// memory.
    ///
    /// # Errors
    ///
    /// How the rows end there, where the file has no such page, or it is refused.
    // ensures ok { IfOk result (IsFoundPage file.now page) }
    // ensures err { IfErr result (λ end. (read_page file.now (record { page = page; row = 0 }) ≡ Err end)) }
    pub fn at(file: &'a [u8], page: u32) -> Result<Self, End> {
        match UnopenedPage::at(file, Cursor { page, row: 0 })? {
            Some(upcoming) => Ok(DamagedPage { upcoming }),
            None => Err(End::EndOfPages),
        }
    }

    /// Its form.
    // ensures form { result ≡ self.now.here.form }
    // ensures limits { IsPageForm result }
    pub fn form(&self) -> PageForm {
        self.upcoming.form
    }

    /// What its receiver counted of bad rows (RFC 2306, BadFaxLines, CleanFaxData and
    /// ConsecutiveBadFaxLines). It takes no memory, and no page is refused for these fields.
    // ensures { result ≡ received self.now.here.endian self.now.file self.now.here.offset }
    pub fn received(&self) -> Received {
        self.upcoming.strips.directory().received()
    }

    /// Before the first of its rows. It takes all the memory that the page needs.
    ///
    /// # Errors
    ///
    /// `Memory` where a growth was refused.
    // ensures { IfOk result (IsRowsStart (of_page self.entry.file self.entry.here)
    //     self.entry.here.form.rows self.entry.here.form.width) }
    pub fn rows(self, alloc: Global) -> Result<SalvagedRows<'a>, Memory> {
        let rows = ShownRows::open(alloc, self.upcoming.form, self.upcoming.strips)?;
        Ok(SalvagedRows {
            remaining: RowSource::Page(rows),
        })
    }

    /// Before row `row`, after so many of the bits that the file has of its strip, with this row
    /// before it. It takes all the memory that the page needs.
    ///
    /// # Errors
    ///
    /// `Outside` where the file has fewer bits of the strip, or no row of the page's width has the
    /// runs of the row before. `Memory` where a growth was refused.
    // requires { row < self.here.form.rows }
    // ensures ok { IfOk result (IsStartedFrom self.entry row bits before.entry) }
    // ensures err { IfErr result (IsNotStartedFrom self.entry row bits before.entry) }
    pub fn rows_from(
        self,
        alloc: Global,
        row: u32,
        bits: u32,
        before: ReferenceRow,
    ) -> Result<RowsFrom<'a>, PlaceFault> {
        RowsFrom::open(
            alloc,
            self.upcoming.form,
            self.upcoming.strips,
            row,
            bits,
            before,
        )
    }
}

/// Goes through the rows of a page, or of a strip with no file around it, and says of each whether
/// it is found or lost. Contracts see what the rows are left of, how many were passed, how many
/// they are, and the row that was found last.
pub struct SalvagedRows<'a> {
    remaining: RowSource<'a>,
}

/// What is left of rows of a strip of unknown height.
pub struct UncountedRows<'a> {
    /// The reader, before the first row.
    pub rows_left: SalvagedRows<'a>,
    /// How many rows they are, found or lost, at most 1,000,000.
    pub rows: u32,
    /// How they end.
    pub end: RowsEnd,
}

impl<'a> Model for SalvagedRows<'a> {}

impl<'a> SalvagedRows<'a> {
    /// Before the first row of a strip in at most 4,294,967,295 bytes. It takes all the memory that
    /// the strip needs.
    ///
    /// # Errors
    ///
    /// `Memory` where a growth was refused.
    // requires count { length bytes.now ≤ 4294967295 }
    // requires limits { IsStripForm form }
    // ensures { IfOk result
    //     (IsRowsStart (of_strip form (bits form.order bytes.now)) form.rows form.width) }
    pub fn of_strip(alloc: Global, bytes: &'a [u8], form: StripForm) -> Result<Self, Memory> {
        let reader = SalvageReader::new(alloc, bytes, form)?;
        Ok(SalvagedRows {
            remaining: RowSource::Strip(reader),
        })
    }

    /// Before the first of the rows in at most 4,294,967,295 bytes of unknown number, with their
    /// number and their end. How many rows the form says does not matter. It takes all the memory
    /// that rows of this width need, and goes through the rows once to count them.
    ///
    /// # Errors
    ///
    /// `Memory` where a growth was refused.
    // requires count { length bytes.now ≤ 4294967295 }
    // requires limits { IsStripForm form }
    // ensures { IfOk result (λ found. IsUncountedStart form (bits form.order bytes.now)
    //     found.rows_left found.rows found.end) }
    pub fn of_uncounted(
        alloc: Global,
        bytes: &'a [u8],
        form: StripForm,
    ) -> Result<UncountedRows<'a>, Memory> {
        let mut reader = UncountedSalvage::new(alloc, bytes, form)?;
        let end = reader.pass_all();
        let rows = reader.row();
        reader.restart(bytes);
        let remaining = RowSource::Uncounted(reader);
        Ok(UncountedRows {
            rows_left: SalvagedRows { remaining },
            rows,
            end,
        })
    }

    /// What became of the next row, and of those that are lost with it, or `None` after the last
    /// one. It takes no memory.
    // ensures { IsNextPart self.old result self.new }
    pub fn next_part(&mut self) -> Option<SalvagedPart> {
        next_of(&mut self.remaining)
    }

    /// The row of the last part, where that is `Found`.
    // ensures pels { result.now ≡ self.now.last }
    // ensures width { length result.now ≡ self.now.width }
    pub fn row(&self) -> &Row {
        match &self.remaining {
            RowSource::Page(its) => its.row(),
            RowSource::Strip(reader) => reader.reference(),
            RowSource::Uncounted(reader) => reader.reference(),
        }
    }
}
