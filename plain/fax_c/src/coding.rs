// Made by tools/plain-rust of crates/fax_c/src/coding.rt: change that.
//! Rows of a raster, coded as a strip.

use kit_std::prelude::Vec;

use crate::cursors::put_counted;
use crate::raster::{holds_raster, packed_len};
use crate::status;
use crate::strip_form::FaxStrip;
use fax_page::{Memory, StripForm, StripWriter};
use fax_rows::Row;
use kit_std::alloc::Global;

/// The rows of a raster from one on, coded as a strip.
// requires limits { IsStripForm form }
// requires some_k { 0 < k }
// requires raster { Raster.HoldsRaster (length raster.now) form.width (first + form.rows) stride }
// ensures { IfOk result (λ bytes. bytes.items
//     ≡ coded_strip form k (Raster.rows_of_raster form.width stride raster.now first form.rows)) }
pub(crate) fn code_strip(
    alloc: Global,
    form: StripForm,
    k: u32,
    raster: &[u8],
    stride: usize,
    first: u32,
) -> Result<Vec<u8>, Memory> {
    let len = packed_len(form.width);
    let mut row = Row::white(alloc, form.width)?;
    let mut writer = StripWriter::new(alloc, form, k)?;
    for i in 0..form.rows {
        let at = (first as usize + i as usize) * stride;
        row.set_packed(&raster[at..at + len]);
        writer.put_row(&row)?;
    }
    writer.finish()
}

/// Codes the rows of a raster as a strip, writes it where it has room, and says how many bytes it
/// has.
// ensures { Spec.TellsStrip
//     (record { form = form.now; k = k; raster = raster.now; stride = stride }) out.old out.new
//     len.new result }
pub fn faxpages_strip_code(
    alloc: Global,
    form: &FaxStrip,
    k: u32,
    raster: &[u8],
    stride: usize,
    out: &mut [u8],
    len: &mut usize,
) -> u32 {
    *len = 0;
    let Some(form) = form.form() else {
        return status::NO_OPTIONS;
    };
    if k == 0 || !holds_raster(raster.len(), form.width, form.rows, stride) {
        return status::NO_OPTIONS;
    }
    match code_strip(alloc, form, k, raster, stride, 0) {
        Ok(strip) => put_counted(&strip, out, len),
        Err(_) => status::MEMORY,
    }
}
