// Made by tools/plain-rust of crates/fax_c/src: change that.
//! The calls, over slices and structs of the caller.

pub use crate::faults::FaxFault;
pub use crate::file_conversion::FaxConverted;
pub use crate::file_conversion::FaxOptions;
pub use crate::file_report::FaxNote;
pub use crate::file_report::FaxReport;
pub use crate::forms::FaxForm;
pub use crate::places::FaxPlace;
pub use crate::received::FaxReceived;
pub use crate::rows::FaxRow;
pub use crate::salvaged_raster::FaxLost;
pub use crate::strip_form::FaxStrip;
pub use crate::strip_report::FaxStripReport;
pub use crate::told::FaxTold;
pub use crate::writing::FaxWritten;
use kit_std::alloc::Global;

/// As the header says.
pub fn faxpages_strip_code(
    form: &FaxStrip,
    k: u32,
    raster: &[u8],
    stride: usize,
    out: &mut [u8],
    len: &mut usize,
) -> u32 {
    crate::coding::faxpages_strip_code(Global, form, k, raster, stride, out, len)
}

/// As the header says.
pub fn faxpages_strip_code_runs(
    form: &FaxStrip,
    k: u32,
    rows: &[FaxRow],
    runs: &[u32],
    out: &mut [u8],
    len: &mut usize,
) -> u32 {
    crate::coding_runs::faxpages_strip_code_runs(Global, form, k, rows, runs, out, len)
}

/// As the header says.
pub fn faxpages_place_text(
    place: &FaxPlace,
    runs: &[u32],
    text: &mut [u8],
    len: &mut usize,
) -> u32 {
    crate::cursors::faxpages_place_text(Global, place, runs, text, len)
}

/// As the header says.
pub fn faxpages_place_parse(text: &[u8], place: &mut FaxPlace, runs: &mut [u32]) -> u32 {
    crate::cursors::faxpages_place_parse(Global, text, place, runs)
}

/// As the header says.
pub fn faxpages_convert(
    file: &[u8],
    options: &FaxOptions,
    out: &mut [u8],
    converted: &mut FaxConverted,
) -> u32 {
    crate::file_conversion::faxpages_convert(Global, file, options, out, converted)
}

/// As the header says.
pub fn faxpages_check(file: &[u8], notes: &mut [FaxNote], report: &mut FaxReport) -> u32 {
    crate::file_report::faxpages_check(Global, file, notes, report)
}

/// As the header says.
pub fn faxpages_forms(file: &[u8], page: u32, forms: &mut [FaxForm], told: &mut FaxTold) -> u32 {
    crate::forms::faxpages_forms(file, page, forms, told)
}

/// As the header says.
pub fn faxpages_version() -> u32 {
    crate::library_version::faxpages_version()
}

/// As the header says.
pub fn faxpages_version_text(text: &mut [u8]) -> usize {
    crate::library_version::faxpages_version_text(text)
}

/// As the header says.
pub fn faxpages_fault_name(number: u32, name: &mut [u8]) -> usize {
    crate::names::faxpages_fault_name(number, name)
}

/// As the header says.
pub fn faxpages_status_name(number: u32, name: &mut [u8]) -> usize {
    crate::names::faxpages_status_name(number, name)
}

/// As the header says.
pub fn faxpages_note_name(number: u32, name: &mut [u8]) -> usize {
    crate::names::faxpages_note_name(number, name)
}

/// As the header says.
pub fn faxpages_page(
    file: &[u8],
    page: u32,
    form: &mut FaxForm,
    out: &mut [u8],
    stride: usize,
    told: &mut FaxTold,
) -> u32 {
    crate::page_raster::faxpages_page(Global, file, page, form, out, stride, told)
}

/// As the header says.
pub fn faxpages_end_pages(file: &mut [u8], written: &mut FaxWritten) -> u32 {
    crate::page_total::faxpages_end_pages(file, written)
}

/// As the header says.
pub fn faxpages_received(file: &[u8], page: u32, received: &mut FaxReceived) -> u32 {
    crate::received::faxpages_received(file, page, received)
}

/// As the header says.
pub fn faxpages_runs(
    file: &[u8],
    page: u32,
    row: u32,
    rows: &mut [FaxRow],
    out: &mut [u32],
    told: &mut FaxTold,
) -> u32 {
    crate::row_runs::faxpages_runs(Global, file, page, row, rows, out, told)
}

/// As the header says.
pub fn faxpages_runs_from(
    file: &[u8],
    place: &mut FaxPlace,
    runs: &mut [u32],
    rows: &mut [FaxRow],
    out: &mut [u32],
    told: &mut FaxTold,
) -> u32 {
    crate::row_runs::faxpages_runs_from(Global, file, place, runs, rows, out, told)
}

/// As the header says.
pub fn faxpages_changes(
    file: &[u8],
    page: u32,
    row: u32,
    rows: &mut [FaxRow],
    out: &mut [u32],
    told: &mut FaxTold,
) -> u32 {
    crate::row_runs::faxpages_changes(Global, file, page, row, rows, out, told)
}

/// As the header says.
pub fn faxpages_changes_from(
    file: &[u8],
    place: &mut FaxPlace,
    runs: &mut [u32],
    rows: &mut [FaxRow],
    out: &mut [u32],
    told: &mut FaxTold,
) -> u32 {
    crate::row_runs::faxpages_changes_from(Global, file, place, runs, rows, out, told)
}

/// As the header says.
pub fn faxpages_rows(
    file: &[u8],
    page: u32,
    row: u32,
    rows: &mut [FaxRow],
    out: &mut [u8],
    told: &mut FaxTold,
) -> u32 {
    crate::rows::faxpages_rows(Global, file, page, row, rows, out, told)
}

/// As the header says.
pub fn faxpages_rows_from(
    file: &[u8],
    place: &mut FaxPlace,
    runs: &mut [u32],
    rows: &mut [FaxRow],
    out: &mut [u8],
    told: &mut FaxTold,
) -> u32 {
    crate::rows::faxpages_rows_from(Global, file, place, runs, rows, out, told)
}

/// As the header says.
pub fn faxpages_salvage_convert(
    file: &[u8],
    options: &FaxOptions,
    out: &mut [u8],
    converted: &mut FaxConverted,
) -> u32 {
    crate::salvage_conversion::faxpages_salvage_convert(Global, file, options, out, converted)
}

/// As the header says.
pub fn faxpages_salvage_from(
    file: &[u8],
    place: &mut FaxPlace,
    runs: &mut [u32],
    out: &mut [u8],
    stride: usize,
    lost: &mut [FaxLost],
    told: &mut FaxTold,
) -> u32 {
    crate::salvage_from::faxpages_salvage_from(Global, file, place, runs, out, stride, lost, told)
}

/// As the header says.
pub fn faxpages_salvage(
    file: &[u8],
    page: u32,
    form: &mut FaxForm,
    out: &mut [u8],
    stride: usize,
    lost: &mut [FaxLost],
    told: &mut FaxTold,
) -> u32 {
    crate::salvaged_raster::faxpages_salvage(Global, file, page, form, out, stride, lost, told)
}

/// As the header says.
pub fn faxpages_salvage_strip(
    strip: &[u8],
    form: &FaxStrip,
    out: &mut [u8],
    stride: usize,
    lost: &mut [FaxLost],
    told: &mut FaxTold,
) -> u32 {
    crate::salvaged_raster::faxpages_salvage_strip(Global, strip, form, out, stride, lost, told)
}

/// As the header says.
pub fn faxpages_strip_part(
    strip: &[u8],
    form: &FaxStrip,
    place: &mut FaxPlace,
    runs: &mut [u32],
    out: &mut [u8],
    stride: usize,
    told: &mut FaxTold,
) -> u32 {
    crate::strip_part::faxpages_strip_part(Global, strip, form, place, runs, out, stride, told)
}

/// As the header says.
pub fn faxpages_strip_check(strip: &[u8], form: &FaxStrip, report: &mut FaxStripReport) -> u32 {
    crate::strip_report::faxpages_strip_check(Global, strip, form, report)
}

/// As the header says.
pub fn faxpages_strip_rows(
    strip: &[u8],
    form: &FaxStrip,
    place: &mut FaxPlace,
    runs: &mut [u32],
    out: &mut [u8],
    stride: usize,
    told: &mut FaxTold,
) -> u32 {
    crate::strip_rows::faxpages_strip_rows(Global, strip, form, place, runs, out, stride, told)
}

/// As the header says.
pub fn faxpages_add_page(
    form: &FaxForm,
    k: u32,
    raster: &[u8],
    stride: usize,
    file: &mut [u8],
    written: &mut FaxWritten,
) -> u32 {
    crate::writing::faxpages_add_page(Global, form, k, raster, stride, file, written)
}
