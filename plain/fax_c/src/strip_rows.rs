// Made by tools/plain-rust of crates/fax_c/src/strip_rows.rt: change that.
//! Strips with no file around them, read.

use crate::fill::{Filled, Stop};
use crate::format::put_all_runs;
use crate::places::{FaxPlace, MOST_RUNS};
use crate::raster::{packed_len, put_in_stride};
use crate::status;
use crate::strip_form::FaxStrip;
use crate::told::FaxTold;
use crate::uncounted_strip::{end_at, form_of_rows, tell_read};
use fax_files::Cause;
use fax_page::{PlaceFault, ReferenceRow, StripFault, StripForm, StripReader};
use fax_walk::{Cursor, End};
use kit_std::alloc::Global;

/// The most bytes of a strip that is read: so each place of a bit in it has 32 bits.
pub(crate) const MOST_BYTES: usize = 536_870_911;

/// The form in which a strip of so many bytes is read, if these numbers are one.
// ensures { MatchOption result ((form : Form) → Spec.IsReadable strip.now given.now form → ⊥)
//     (Spec.IsReadable strip.now given.now) }
pub(crate) fn readable_form(strip: &[u8], given: &FaxStrip) -> Option<StripForm> {
    if strip.len() > MOST_BYTES {
        return None;
    }
    given.form()
}

/// The row before a place: white where it has no runs. `None` where they are not in their room.
// ensures { Code.IsRowBefore place.now runs.now result }
pub(crate) fn row_before<'a>(place: &FaxPlace, runs: &'a [u32]) -> Option<ReferenceRow<'a>> {
    if place.runs == 0 {
        Some(ReferenceRow::White)
    } else if place.lacks_runs(runs) {
        None
    } else {
        Some(ReferenceRow::Runs(&runs[..place.runs as usize]))
    }
}

/// A reader of a strip before the next row at a place, or why there is none.
// requires count { length strip.now ≤ 536870911 }
// requires limits { IsStripForm form }
// requires upcoming { place.now.row < form.rows }
// ensures { Code.IsReaderAt form strip.now place.now runs.now result }
fn reader_at<'a>(
    alloc: Global,
    strip: &'a [u8],
    form: StripForm,
    place: &FaxPlace,
    runs: &[u32],
) -> Result<StripReader<'a>, Stop> {
    let Some(before) = row_before(place, runs) else {
        return Err(Stop::Ended(End::Outside));
    };
    match StripReader::inside(alloc, strip, form, place.row, place.bits, before) {
        Ok(reader) => Ok(reader),
        Err(PlaceFault::Memory) => Err(Stop::Memory),
        Err(PlaceFault::Outside) => Err(Stop::Ended(End::Outside)),
    }
}

/// Why a strip has no row after those that were read.
// ensures { result ≡ Spec.stop_in_strip page row fault }
fn stop_of(page: u32, row: u32, fault: Option<StripFault>) -> Stop {
    match fault {
        None => Stop::Ended(End::EndOfPages),
        Some(fault) => Stop::Ended(End::Fault {
            page,
            row,
            cause: Cause::Strip(fault),
        }),
    }
}

/// Reads the next row of a strip, and answers why there is none, if there is none.
// requires { reader.old.fault ≡ None }
// ensures { Code.IsReadNext page reader.old result reader.new }
fn read_next(reader: &mut StripReader, page: u32) -> Option<Stop> {
    match reader.advance() {
        Ok(true) => None,
        Ok(false) => Some(stop_of(page, reader.row(), None)),
        Err(fault) => Some(stop_of(page, reader.row(), Some(fault))),
    }
}

/// Reads the rows of a strip into a raster from the next row on, as many as have room.
// requires no_fault { reader.old.fault ≡ None }
// requires stride { Coded.packed_len reader.old.form.width ≤ stride }
// requires some { 0 < stride }
// ensures { Code.AreStripRowsFilled page stride reader.old out.old result reader.new out.new }
fn fill_strip(reader: &mut StripReader, page: u32, stride: usize, out: &mut [u8]) -> Filled {
    let mut count = 0;
    let mut used = 0;
    while out.len() - used >= stride {
        if let Some(stop) = read_next(reader, page) {
            let row = reader.row();
            return Filled {
                cursor: Cursor { page, row },
                count,
                used,
                stop,
            };
        }
        used = put_in_stride(reader.reference(), stride, out, used);
        count += 1;
    }
    let row = reader.row();
    Filled {
        cursor: Cursor { page, row },
        count,
        used,
        stop: Stop::Done,
    }
}

/// Reports the place of the next row, after so many rows: where they are none, it stays.
// requires room { 65536 ≤ length runs.old }
// requires few { length reader.now.bytes ≤ 536870911 }
// ensures { Code.IsUpcomingTold reader.now count place.old runs.old place.new runs.new }
fn tell_upcoming(reader: &StripReader, count: usize, place: &mut FaxPlace, runs: &mut [u32]) {
    if count == 0 {
        return;
    }
    let its = put_all_runs(reader.reference(), runs);
    *place = FaxPlace {
        page: place.page,
        row: reader.row(),
        bits: reader.bit_place() as u32,
        runs: its,
    };
}

/// Why no row is looked for at a place: none has room, or the strip has no row there.
// ensures { Code.IsStopBefore form place.now stride room result }
fn stop_before(form: StripForm, place: &FaxPlace, stride: usize, room: usize) -> Option<Stop> {
    if stride < packed_len(form.width) || room < stride {
        Some(Stop::NoRoom)
    } else if place.row == form.rows {
        Some(Stop::Ended(End::EndOfPages))
    } else if place.row > form.rows {
        Some(Stop::Ended(End::Outside))
    } else {
        None
    }
}

/// Reads rows of a strip into a raster from a place on, which is then the one after them.
// requires count { length strip.now ≤ 536870911 }
// requires limits { IsStripForm form }
// requires room { 65536 ≤ length runs.old }
// ensures { Spec.ReadsOn form strip.now stride
//     (record { place = place.old; runs = runs.old; raster = out.old }) result
//     (record { place = place.new; runs = runs.new; raster = out.new }) }
pub(crate) fn read_strip(
    alloc: Global,
    strip: &[u8],
    form: StripForm,
    place: &mut FaxPlace,
    runs: &mut [u32],
    stride: usize,
    out: &mut [u8],
) -> Filled {
    if let Some(stop) = stop_before(form, place, stride, out.len()) {
        return Filled::nothing(place.cursor(), stop);
    }
    match reader_at(alloc, strip, form, place, runs) {
        Ok(mut reader) => {
            let filled = fill_strip(&mut reader, place.page, stride, out);
            tell_upcoming(&reader, filled.count, place, runs);
            filled
        }
        Err(stop) => Filled::nothing(place.cursor(), stop),
    }
}

/// Reads rows of a strip into a raster, each so many bytes after the one above it, from a place on,
/// which is then the one after them.
// ensures { Spec.TellsStripRows
//     (record { strip = strip.now; form = form.now; stride = stride })
//     (record { place = place.old; runs = runs.old; raster = out.old })
//     (record { place = place.new; runs = runs.new; raster = out.new }) told.old told.new result }
pub fn faxpages_strip_rows(
    alloc: Global,
    strip: &[u8],
    form: &FaxStrip,
    place: &mut FaxPlace,
    runs: &mut [u32],
    out: &mut [u8],
    stride: usize,
    told: &mut FaxTold,
) -> u32 {
    if runs.len() < MOST_RUNS {
        return status::NO_OPTIONS;
    }
    let Some(its) = form_of_rows(strip, form) else {
        return status::NO_OPTIONS;
    };
    let filled = read_strip(alloc, strip, its, place, runs, stride, out);
    let end = end_at(strip, form, its, place, filled.stop);
    tell_read(&filled, place, end, told)
}
