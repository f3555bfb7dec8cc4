// Made by tools/plain-rust of crates/fax_walk/src/rows_from.rt: change that.
//! The rows that are left of a page from a place on, one after another.

use crate::salvage_rows::{SalvagedPart, StripPositionRef};
use crate::shown_rows::ShownRows;
use fax_files::{PageForm, Strips};
use fax_page::{PlaceFault, ReferenceRow};
use fax_rows::Row;
use kit_std::alloc::Global;
use kit_std::marker::Model;

/// Goes through the rows of a page from a place on, and says of each whether it is found or lost.
/// Contracts see the page, and how far it is gone through.
pub struct RowsFrom<'a> {
    rows: ShownRows<'a>,
}

impl<'a> Model for RowsFrom<'a> {}

impl<'a> RowsFrom<'a> {
    /// Before row `row` of a page, after so many bits of its strip, with this row before it. It
    /// takes all the memory that the page needs.
    // requires form { form_of strips.directory ≡ Ok form }
    // requires limits { IsPageForm form }
    // requires count { strips.count ≡ form.strips }
    // requires upcoming { row < form.rows }
    // ensures ok { IfOk result (Spec.IsStartedFrom (Code.page_of strips.entry.directory form) row bits
    //     before.entry) }
    // ensures err { IfErr result (Spec.IsNotStartedFrom (Code.page_of strips.entry.directory form) row
    //     bits before.entry) }
    pub(crate) fn open(
        alloc: Global,
        form: PageForm,
        strips: Strips<'a>,
        row: u32,
        bits: u32,
        before: ReferenceRow,
    ) -> Result<Self, PlaceFault> {
        let rows = ShownRows::open_at(alloc, form, strips, row, bits, before)?;
        Ok(RowsFrom { rows })
    }

    /// What became of the next row, and of those that are lost with it, or `None` after the page's
    /// last one. It takes no memory.
    // ensures { Spec.IsNextFrom self.old result self.new }
    pub fn next_part(&mut self) -> Option<SalvagedPart> {
        self.rows.next_part()
    }

    /// Where the next row is read in its strip, where the row before it is found; or `None` where
    /// its strip begins with it, or the page has no more. Then what is left from that place on is
    /// what is left now.
    // requires { length self.now.file ≤ 536870911 }
    // ensures { Spec.IsPlaceNow self.now result }
    pub fn place(&self) -> Option<StripPositionRef<'_>> {
        self.rows.place()
    }

    /// The row of the last part, where that is `Found`.
    // ensures pels { result.now ≡ self.now.last }
    // ensures width { length result.now ≡ self.now.here.form.width }
    pub fn row(&self) -> &Row {
        self.rows.row()
    }

    /// Rows are left of the page, or none: it computes nothing.
    // ensures { (rows : List PageRow) × Spec.AreLeftNow self.now rows }
    pub fn lemma_rows_left(&self) {
        self.rows.lemma_rows_left();
    }
}
