// Made by tools/plain-rust of crates/fax_c/src/page_raster.rt: change that.
//! A page, read into a raster.

use crate::fill::{Filled, Stop};
use crate::forms::{FaxForm, next_form};
use crate::raster::{packed_len, put_padded};
use crate::told::FaxTold;
use fax_walk::{Cursor, End, Pages, Walk};
use kit_std::alloc::Global;

/// Writes the next row of a walk at a place of a raster, and returns where it ends.
// requires { at ≤ length out.old }
// ensures { Code.IsPutTo (Raster.padded_row stride) walk.old out.old at result walk.new out.new }
fn put_next_padded(walk: &mut Walk, stride: usize, out: &mut [u8], at: usize) -> Result<usize, Stop> {
    match walk.next_row() {
        Ok(Some((_, row))) => match put_padded(row, stride, out, at) {
            Some(to) => Ok(to),
            None => Err(Stop::NoRoom),
        },
        Ok(None) => Err(Stop::Ended(End::EndOfPages)),
        Err(fault) => Err(Stop::of_fault(fault)),
    }
}

/// Writes the first rows of a walk into a raster, as many as are asked for and have room.
// requires { walk.old.yielded ≡ 0 }
// ensures { Spec.IsRasterFilled walk.old.file walk.old.origin asked stride out.old result out.new }
fn fill_raster(walk: &mut Walk, asked: u32, stride: usize, out: &mut [u8]) -> Filled {
    let mut count = 0;
    let mut used = 0;
    while count < asked {
        let cursor = walk.cursor();
        match put_next_padded(walk, stride, out, used) {
            Ok(to) => {
                count += 1;
                used = to;
            }
            Err(stop) => {
                return Filled {
                    cursor,
                    count: count as usize,
                    used,
                    stop,
                };
            }
        }
    }
    Filled {
        cursor: walk.cursor(),
        count: count as usize,
        used,
        stop: Stop::Done,
    }
}

/// Writes the rows of a file's page into a raster, each so many bytes after the one above it, and
/// says its form.
// ensures { Spec.TellsPage file.now page stride form.old form.new out.old out.new told.new result }
pub fn faxpages_page(
    alloc: Global,
    file: &[u8],
    page: u32,
    form: &mut FaxForm,
    out: &mut [u8],
    stride: usize,
    told: &mut FaxTold,
) -> u32 {
    let cursor = Cursor { page, row: 0 };
    let mut pages = Pages::resume(file, cursor);
    let found = match next_form(&mut pages) {
        Ok(found) => found,
        Err(end) => return Filled::nothing(cursor, Stop::Ended(end)).fill_result(told),
    };
    *form = FaxForm::of(&found);
    if stride < packed_len(found.width) {
        return Filled::nothing(cursor, Stop::NoRoom).fill_result(told);
    }
    let mut walk = Walk::resume(alloc, file, cursor);
    fill_raster(&mut walk, found.rows, stride, out).fill_result(told)
}
