// Made by tools/plain-rust of crates/fax_walk/src/shown_rows.rt: change that.
//! The rows of a page that are left, as they are returned.

use crate::open_page::{row_for_exchange, set_exchanged};
use crate::salvage_rows::{SalvageRows, SalvagedPart, StripPositionRef};
use fax_bits::Memory;
use fax_files::{PageForm, Strips};
use fax_page::{PlaceFault, ReferenceRow};
use fax_rows::Row;
use kit_std::alloc::Global;
use kit_std::marker::Model;

/// The rows of a page that are gone through, with the row that was found last, as it is returned.
pub(crate) struct ShownRows<'a> {
    rows: SalvageRows<'a>,
    /// Where colours are exchanged, if they are: the row that was found last, as it is returned.
    exchanged: Option<Row>,
}

impl<'a> Model for ShownRows<'a> {}

impl<'a> ShownRows<'a> {
    /// Before the first row of a page. It takes all the memory that the page needs.
    // requires form { form_of strips.directory ≡ Ok form }
    // requires limits { IsPageForm form }
    // requires count { strips.count ≡ form.strips }
    // ensures { IfOk result (λ s. RowSource.IsBeforeRows strips.entry.directory form s.rows) }
    pub fn open(alloc: Global, form: PageForm, strips: Strips<'a>) -> Result<Self, Memory> {
        let exchanged = row_for_exchange(alloc, &form)?;
        let rows = SalvageRows::begin(alloc, form, strips)?;
        Ok(ShownRows { rows, exchanged })
    }

    /// Before row `row` of a page, after so many bits of its strip, with this row before it. It
    /// takes all the memory that the page needs.
    // requires form { form_of strips.directory ≡ Ok form }
    // requires limits { IsPageForm form }
    // requires count { strips.count ≡ form.strips }
    // requires upcoming { row < form.rows }
    // ensures ok { IfOk result
    //     (λ s. RowSource.StartsAt strips.entry.directory form row bits before.entry s.rows) }
    // ensures err { IfErr result
    //     (RowSource.IsNotStartedAt strips.entry.directory form row bits before.entry) }
    pub fn open_at(
        alloc: Global,
        form: PageForm,
        strips: Strips<'a>,
        row: u32,
        bits: u32,
        before: ReferenceRow,
    ) -> Result<Self, PlaceFault> {
        let rows = SalvageRows::begin_at(alloc, form, strips, row, bits, before)?;
        match row_for_exchange(alloc, &form) {
            Ok(exchanged) => Ok(ShownRows { rows, exchanged }),
            Err(_memory) => Err(PlaceFault::Memory),
        }
    }

    /// What becomes of the next row, or `None` after the page's last one.
    // ensures { Spec.IsShownPart self.old result self.new }
    pub fn next_part(&mut self) -> Option<SalvagedPart> {
        let part = self.rows.next_part();
        if let Some(row) = &mut self.exchanged {
            set_exchanged(row, self.rows.reference());
        }
        part
    }

    /// Where the next row is read in its strip, as `SalvageRows::place` has it.
    // requires { length self.now.rows.directory.file ≤ 536870911 }
    // ensures { RowSource.IsPlaceOf self.now.rows result }
    pub fn place(&self) -> Option<StripPositionRef<'_>> {
        self.rows.place()
    }

    /// The row that was found last, as it is returned.
    // ensures pels { result.now ≡ self.now.shown }
    // ensures width { length result.now ≡ self.now.rows.form.width }
    pub fn row(&self) -> &Row {
        match &self.exchanged {
            Some(row) => row,
            None => self.rows.reference(),
        }
    }

    /// Rows are left of the page, or none: it computes nothing.
    // ensures { (rows : List PageRow) × RowSource.AreRowsLeft self.now.rows rows }
    pub fn lemma_rows_left(&self) {
        self.rows.lemma_rows_left();
    }
}
