// Made by tools/plain-rust of crates/fax_rows/src/change_list.rt: change that.
//! Rows that are lent as their places of change, and b1 on a reference row (ITU-T T.4, section
//! 4.2.1.3.1).

use crate::changes_of_row::{changes_up_to, colour_after};
use fax_bits::Colour;

/// A row: a 0, the changing elements in ascending order, and at least three times the width.
#[derive(Clone, Copy)]
pub(crate) struct ChangingElements<'a> {
    pub changes: &'a [u32],
    /// The index after the last change.
    pub end: usize,
    pub width: u32,
}

impl ChangingElements<'_> {
    /// The index of the next changing element right of a place, where `None` is just before the
    /// first pel.
    // ensures { IsFrom self.entry.changes.now self.entry.end from result }
    pub fn change_after(self, from: Option<u32>) -> usize {
        match from {
            None => 1,
            Some(column) => changes_up_to(self.changes, self.end, column),
        }
    }

    /// The index of b1 as seen from a0 of this colour, where `None` is just before the first pel.
    // ensures { IsB1At self.entry a0 colour result }
    pub fn b1_from(self, a0: Option<u32>, colour: Colour) -> usize {
        let next = self.change_after(a0);
        if colour_after(next) == colour {
            next
        } else {
            next + 1
        }
    }

    /// The index of b1 as seen from the pel `column`, from an index on that is not after it.
    // requires inside { column < self.width }
    // requires within { from ≤ self.end + 1 }
    // ensures { (colour : Colour) → IsBeforeB1 self.entry column colour from
    //     → IsB1At self.entry (Some column) colour result }
    pub fn find_b1(self, from: usize, column: u32) -> usize {
        let mut b1 = from;
        while self.changes[b1] <= column {
            b1 += 2;
        }
        b1
    }

    /// What `find_b1` answers from the index before that of a b1 right of the pel: the changing
    /// element there, or the one right of that b1.
    #[inline(always)]
    // requires some { 0 < b1 }
    // requires within { b1 ≤ self.end + 1 }
    // requires left_hand { column < slice_index self.changes.now b1 }
    // ensures { (colour : Colour) → IsBeforeB1 self.entry column colour (b1 - 1)
    //     → IsB1At self.entry (Some column) colour result }
    pub fn b1_before(self, b1: usize, column: u32) -> usize {
        // Nothing is searched: the next b1 is the changing element before the old one, or the one
        // after it.
        if self.changes[b1 - 1] > column {
            b1 - 1
        } else {
            b1 + 1
        }
    }

    /// What `find_b1` answers where the pel is in the row; there is no b1 at the row's end.
    #[inline(always)]
    // requires within { column < self.width → from ≤ self.end + 1 }
    // ensures { column < self.entry.width → (colour : Colour)
    //     → IsBeforeB1 self.entry column colour from
    //     → IsB1At self.entry (Some column) colour result }
    pub fn b1_after(self, from: usize, column: u32) -> usize {
        if column < self.width {
            self.find_b1(from, column)
        } else {
            0
        }
    }

    /// The index of b1 as seen from the pel `column`, where the colour turned, from that of the b1
    /// before.
    // requires some { 0 < b1 }
    // requires within { b1 ≤ self.end + 1 }
    // ensures { column < self.entry.width → (a0 : Option ℕ) (colour : Colour)
    //     → IsB1At self.entry a0 colour b1 → is_right_of a0 column ≡ true
    //     → IsB1At self.entry (Some column) (other colour) result }
    pub fn b1_after_vertical(self, b1: usize, column: u32) -> usize {
        if self.changes[b1] > column {
            return self.b1_before(b1, column);
        }
        self.b1_after(b1 + 1, column)
    }
}

/// The row that is written, and its reference row.
#[derive(Clone, Copy)]
pub(crate) struct RowPair<'a> {
    pub reference: ChangingElements<'a>,
    pub row: ChangingElements<'a>,
}
