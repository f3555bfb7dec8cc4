// Made by tools/plain-rust of crates/fax_c/src/writing.rt: change that.
//! Files that are written page by page, in memory of the caller.

use kit_std::prelude::Vec;

use crate::bytes::{put_bytes, put_four, two_at};
use crate::coding::code_strip;
use crate::file_conversion::order_of;
use crate::forms::FaxForm;
use crate::raster::holds_raster;
use crate::status;
use crate::strip_form::{coding_of, has_eols};
use fax_files::{PageForm, WriteFault, write_page};
use fax_page::Memory;
use kit_std::alloc::Global;

/// How far a file is written.
#[repr(C)]
#[derive(Clone, Copy)]
pub struct FaxWritten {
    /// How many bytes it has.
    pub len: usize,
    /// Where in it the offset of the next page's directory stands.
    pub link: u32,
    /// How many pages it is to have, 1 to 65,535; or 0, where that is not known.
    pub total: u32,
    /// How many were added.
    pub added: u32,
}

/// The most bytes of a file, and the most pages.
pub(crate) const MOST_BYTES: usize = 268_435_456;

pub(crate) const MOST_PAGES: u32 = 65_535;

/// Whether a fraction is one of numbers above 0.
// ensures some { result ≡ true → IsGoodRational (numerator, denominator) }
// ensures none { result ≡ false → IsGoodRational (numerator, denominator) → ⊥ }
fn is_good(numerator: u32, denominator: u32) -> bool {
    numerator > 0 && denominator > 0
}

/// The form that these numbers are, if a page can be written in it.
// ensures { MatchOption result ((form : Form) → Spec.IsFormGiven given.now form → ⊥)
//     (Spec.IsFormGiven given.now) }
fn page_form_of(given: &FaxForm) -> Option<PageForm> {
    let coding = coding_of(given.coding)?;
    let order = order_of(given.order)?;
    if given.width == 0 || given.width > 65_535 || given.rows == 0 || given.rows > 1_000_000 {
        return None;
    }
    if given.rows_per_strip == 0 || given.rows_per_strip > given.rows {
        return None;
    }
    if given.strips != given.rows.div_ceil(given.rows_per_strip) || given.exchanged != 0 {
        return None;
    }
    if given.aligned > 1 || (given.aligned == 1 && !has_eols(coding)) {
        return None;
    }
    if given.unit == 0 || given.unit > 3 {
        return None;
    }
    if !is_good(given.x_numerator, given.x_denominator)
        || !is_good(given.y_numerator, given.y_denominator)
    {
        return None;
    }
    Some(PageForm {
        width: given.width,
        rows: given.rows,
        coding,
        order,
        aligned: given.aligned == 1,
        exchanged: false,
        rows_per_strip: given.rows_per_strip,
        strips: given.strips,
        x: (given.x_numerator, given.x_denominator),
        y: (given.y_numerator, given.y_denominator),
        unit: given.unit as u16,
    })
}

/// The strips of a page, whose rows are those of a raster.
// requires limits { IsPageForm form.now }
// requires some_k { 0 < k }
// requires raster { Raster.HoldsRaster (length raster.now) form.now.width form.now.rows stride }
// ensures { IfOk result (λ strips. contents strips.items
//     ≡ Raster.page_strips form.now k stride raster.now) }
fn code_strips(
    alloc: Global,
    form: &PageForm,
    k: u32,
    raster: &[u8],
    stride: usize,
) -> Result<Vec<Vec<u8>>, Memory> {
    let mut strips = Vec::new(alloc);
    for s in 0..form.strips {
        let strip = form.strip_form(s);
        let first = s * form.rows_per_strip;
        let coded = code_strip(alloc, strip, k, raster, stride, first)?;
        let Ok(()) = strips.push(coded) else {
            return Err(Memory);
        };
    }
    Ok(strips)
}

/// Whether a page can be added to a file that is written so far.
// ensures some { result ≡ true → Spec.IsWriting written.now }
// ensures none { result ≡ false → Spec.IsWriting written.now → ⊥ }
fn is_writing(written: &FaxWritten) -> bool {
    // A link before byte 4 is NO_OPTIONS, since the page's directory would be written over the
    // header. That the numbers are those that a call reported is the caller's to see to.
    if written.total > MOST_PAGES || written.added >= MOST_PAGES {
        return false;
    }
    if written.total != 0 && written.added >= written.total {
        return false;
    }
    if written.added == 0 {
        return true;
    }
    written.len >= 8
        && written.len <= MOST_BYTES
        && written.link >= 4
        && written.link as usize <= written.len - 4
}

/// Whether a file that is written so far has at most so many bytes.
// ensures held { result ≡ true → Spec.IsHeld written.now room }
// ensures more { result ≡ false → Spec.IsHeld written.now room → ⊥ }
fn is_held(written: &FaxWritten, room: usize) -> bool {
    written.added == 0 || written.len <= room
}

/// Whether the last page of a file that is written so far, if there is one, says its total.
// requires writing { Spec.IsWriting written.now }
// requires held { Spec.IsHeld written.now (length file.now) }
// ensures some { result ≡ true → Spec.IsTotalSaid written.now file.now }
// ensures none { result ≡ false → Spec.IsTotalSaid written.now file.now → ⊥ }
fn is_total_said(written: &FaxWritten, file: &[u8]) -> bool {
    // The numbers of a caller are believed but for this, since a mistake here would give pages that
    // contradict each other.
    written.added == 0 || u32::from(two_at(file, written.link as usize - 2)) == written.total
}

/// Where a file that is written continues, and where the offset of the next directory stands: after
/// its header, or after the pages that were added.
// requires { Spec.IsWriting written.now }
// ensures { result ≡ Code.place_of written.now }
fn place_of(written: &FaxWritten) -> (u32, u32) {
    if written.added == 0 {
        (8, 4)
    } else {
        (written.len as u32, written.link)
    }
}

/// Whether so many bytes have room after a place.
// ensures some { result ≡ true → start + count ≤ len }
// ensures none { result ≡ false → len < start + count }
fn has_room(len: usize, start: usize, count: usize) -> bool {
    start <= len && count <= len - start
}

/// Writes the header of a file, where no page was added.
// requires { (Code.place_of written.now).0 ≤ length file.old }
// ensures front { take (Code.place_of written.now).0 file.new
//     ≡ (Spec.file_so_far written.now file.old).bytes }
// ensures rest { drop (Code.place_of written.now).0 file.new
//     ≡ drop (Code.place_of written.now).0 file.old }
// ensures len { length file.new ≡ length file.old }
fn put_header(file: &mut [u8], written: &FaxWritten) {
    if written.added == 0 {
        put_bytes(file, 0, &[b'I', b'I', 42, 0, 0, 0, 0, 0]);
    }
}

/// Adds a page to a file, which has room for it: its bytes after the file's, and the place of its
/// directory, where the last page has the offset of the next one.
// requires link { link + 4 ≤ start }
// requires room { start + length page.now ≤ length file.old }
// ensures { file.new ≡ take link (take start file.old) ++ four directory
//     ++ drop (link + 4) (take start file.old) ++ page.now
//     ++ drop (start + length page.now) file.old }
fn put_page(file: &mut [u8], start: usize, link: usize, page: &[u8], directory: u32) {
    put_bytes(file, start, page);
    put_four(file, link, directory);
}

/// Adds a page to a file of the caller, where it has room, and returns how that ended.
// requires limits { IsPageForm form.now }
// requires exchanged { form.now.exchanged ≡ false }
// requires some_k { 0 < k }
// requires raster { Raster.HoldsRaster (length raster.now) form.now.width form.now.rows stride }
// requires writing { Spec.IsWriting written.old }
// requires held { Spec.IsHeld written.old (length file.old) }
// ensures { Spec.AddsPage
//     (record { form = form.now; k = k; raster = raster.now; stride = stride }) file.old file.new
//     written.old written.new result }
fn add_page(
    alloc: Global,
    form: &PageForm,
    k: u32,
    raster: &[u8],
    stride: usize,
    file: &mut [u8],
    written: &mut FaxWritten,
) -> u32 {
    let (start, link) = place_of(written);
    let Ok(strips) = code_strips(alloc, form, k, raster, stride) else {
        return status::MEMORY;
    };
    let number = written.added as u16;
    let total = written.total as u16;
    let page = match write_page(alloc, form, &strips, start, number, total) {
        Ok(page) => page,
        Err(WriteFault::OutputTooLarge) => return status::TOO_LARGE,
        Err(WriteFault::Memory) => return status::MEMORY,
    };
    let bytes = &page.bytes;
    if !has_room(file.len(), start as usize, bytes.len()) {
        return status::NO_ROOM;
    }
    put_header(file, written);
    put_page(file, start as usize, link as usize, bytes, page.directory);
    *written = FaxWritten {
        len: start as usize + bytes.len(),
        link: page.link,
        total: written.total,
        added: written.added + 1,
    };
    status::DONE
}

/// Adds a page of the form that these numbers are, if it can be added, and returns how that ended.
// ensures { Spec.TellsPageAdded
//     (record { form = form.now; k = k; raster = raster.now; stride = stride }) file.old file.new
//     written.old written.new result }
fn add_given(
    alloc: Global,
    form: &FaxForm,
    k: u32,
    raster: &[u8],
    stride: usize,
    file: &mut [u8],
    written: &mut FaxWritten,
) -> u32 {
    let Some(form) = page_form_of(form) else {
        return status::NO_OPTIONS;
    };
    if k == 0 || !holds_raster(raster.len(), form.width, form.rows, stride) {
        return status::NO_OPTIONS;
    }
    if !is_writing(written) {
        return status::NO_OPTIONS;
    }
    if !is_held(written, file.len()) {
        return status::NO_ROOM;
    }
    if !is_total_said(written, file) {
        return status::NO_OPTIONS;
    }
    add_page(alloc, &form, k, raster, stride, file, written)
}

/// Codes the rows of a raster as a page, and adds it to a file of the caller, which is then a whole
/// file of the pages so far, where it has room.
// ensures told { Spec.TellsPageAdded
//     (record { form = form.now; k = k; raster = raster.now; stride = stride }) file.old file.new
//     written.old written.new result }
// ensures pages { AddsToPages
//     (record { form = form.now; k = k; raster = raster.now; stride = stride }) file.old file.new
//     written.old written.new result }
pub fn faxpages_add_page(
    alloc: Global,
    form: &FaxForm,
    k: u32,
    raster: &[u8],
    stride: usize,
    file: &mut [u8],
    written: &mut FaxWritten,
) -> u32 {
    add_given(alloc, form, k, raster, stride, file, written)
}
