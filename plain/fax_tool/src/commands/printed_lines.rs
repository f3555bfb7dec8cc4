// Made by tools/plain-rust of crates/fax_tool/src/commands/printed_lines.rt: change that.
//! What is printed line by line: the rows of a file, or its pages.

use crate::text::output_buffer::OutputBuffer;
use crate::text::page_line::put_page_line;
use crate::text::row_line::put_row_line;
use fax_bits::Memory;
use fax_walk::{Cursor, End, LongCursor, Pages, Walk, WalkFault};
use kit_std::alloc::Global;

/// Lines that are printed one after another. Contracts see all of them and the end after them,
/// which no call changes, what they began with, how many were collected, and a number that each
/// line makes less.
pub trait Lines {
    /// The cursor after what the last line reported, or the one that the lines began with.
    // ensures { (next : WalkStart)
    //     × IsNextAfter (tail self.now) (origin self.now) (yielded self.now) next
    //     × (result ≡ start_cursor next) }
    fn cursor(&self) -> Cursor;

    /// The place inside a strip after what the last line reported, or the one that the lines began
    /// with, if there is one.
    // ensures { IfOk result (λ place. (next : WalkStart)
    //     × IsNextAfter (tail self.now) (origin self.now) (yielded self.now) next
    //     × (place ≡ start_place next)) }
    fn long_cursor(&self, alloc: Global) -> Result<Option<LongCursor>, Memory>;

    /// Collects the next line after the text, or answers how the lines ended. Where memory is
    /// refused the text is as it was.
    // ensures tail { (lines : List PrintedLine) (end : TheEnd) → tail self.old lines end
    //     ↔ tail self.new lines end }
    // ensures origin { origin self.new ≡ origin self.old }
    // ensures fewer { IfOk result (λ end. end ≡ None → remaining self.new < remaining self.old) }
    // ensures put { IsLinePut (tail self.old) (yielded self.old) text.old result (yielded self.new)
    //     text.new }
    fn put_next(&mut self, text: &mut OutputBuffer) -> Result<Option<End>, Memory>;

    /// The lines and the end after them are one. It computes nothing.
    // ensures { IsOne (tail self.now) }
    fn lemma_one(&self);
}

/// How lines end where a walk or a reader of pages answers so; want of memory is no end.
// ensures { IfOk result (λ end. Spec.end_of fault ≡ Some end) }
pub fn end_of(fault: WalkFault) -> Result<End, Memory> {
    match fault {
        WalkFault::AtRow { page, row, cause } => Ok(End::Fault { page, row, cause }),
        WalkFault::CursorOutside => Ok(End::Outside),
        WalkFault::Memory => Err(Memory),
    }
}

/// A line for each row.
impl Lines for Walk<'_> {
    fn cursor(&self) -> Cursor {
        Walk::cursor(self)
    }

    fn long_cursor(&self, alloc: Global) -> Result<Option<LongCursor>, Memory> {
        Walk::long_cursor(self, alloc)
    }

    fn put_next(&mut self, text: &mut OutputBuffer) -> Result<Option<End>, Memory> {
        match self.next_row() {
            Ok(Some((place, row))) => {
                put_row_line(text, place, row)?;
                Ok(None)
            }
            Ok(None) => Ok(Some(End::EndOfPages)),
            Err(fault) => Ok(Some(end_of(fault)?)),
        }
    }

    fn lemma_one(&self) {}
}

/// A line for each page.
impl Lines for Pages<'_> {
    fn cursor(&self) -> Cursor {
        Pages::cursor(self)
    }

    fn long_cursor(&self, _alloc: Global) -> Result<Option<LongCursor>, Memory> {
        // For the proof: what a cursor says is known of the pages.
        let _after = Pages::cursor(self);
        Ok(None)
    }

    fn put_next(&mut self, text: &mut OutputBuffer) -> Result<Option<End>, Memory> {
        match self.next_page() {
            Ok(Some((page, form))) => {
                put_page_line(text, page, &form)?;
                Ok(None)
            }
            Ok(None) => Ok(Some(End::EndOfPages)),
            Err(fault) => Ok(Some(end_of(fault)?)),
        }
    }

    fn lemma_one(&self) {}
}
