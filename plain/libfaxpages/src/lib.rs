// Made by tools/plain-rust of crates/fax_c/src: change that.
//! The calls from C, whose pointers and lengths become slices.
#![allow(unsafe_code)]

use fax_c::calls::{
    self,
    FaxConverted,
    FaxForm,
    FaxLost,
    FaxNote,
    FaxOptions,
    FaxPlace,
    FaxReceived,
    FaxReport,
    FaxRow,
    FaxStrip,
    FaxStripReport,
    FaxTold,
    FaxWritten,
};

/// # Safety
///
/// The header says what the caller owes.
#[no_mangle]
pub unsafe extern "C" fn faxpages_strip_code(
    form: *const FaxStrip,
    k: u32,
    raster: *const u8,
    raster_len: usize,
    stride: usize,
    out: *mut u8,
    out_len: usize,
    len: *mut usize,
) -> u32 {
    // SAFETY: as above.
    unsafe {
        calls::faxpages_strip_code(
            &*form,
            k,
            kit_std::c::items(raster, raster_len),
            stride,
            kit_std::c::items_mut(out, out_len),
            &mut *len,
        )
    }
}

/// # Safety
///
/// The header says what the caller owes.
#[no_mangle]
pub unsafe extern "C" fn faxpages_strip_code_runs(
    form: *const FaxStrip,
    k: u32,
    rows: *const FaxRow,
    rows_len: usize,
    runs: *const u32,
    runs_len: usize,
    out: *mut u8,
    out_len: usize,
    len: *mut usize,
) -> u32 {
    // SAFETY: as above.
    unsafe {
        calls::faxpages_strip_code_runs(
            &*form,
            k,
            kit_std::c::items(rows, rows_len),
            kit_std::c::items(runs, runs_len),
            kit_std::c::items_mut(out, out_len),
            &mut *len,
        )
    }
}

/// # Safety
///
/// The header says what the caller owes.
#[no_mangle]
pub unsafe extern "C" fn faxpages_place_text(
    place: *const FaxPlace,
    runs: *const u32,
    runs_len: usize,
    text: *mut u8,
    text_len: usize,
    len: *mut usize,
) -> u32 {
    // SAFETY: as above.
    unsafe {
        calls::faxpages_place_text(
            &*place,
            kit_std::c::items(runs, runs_len),
            kit_std::c::items_mut(text, text_len),
            &mut *len,
        )
    }
}

/// # Safety
///
/// The header says what the caller owes.
#[no_mangle]
pub unsafe extern "C" fn faxpages_place_parse(
    text: *const u8,
    text_len: usize,
    place: *mut FaxPlace,
    runs: *mut u32,
    runs_len: usize,
) -> u32 {
    // SAFETY: as above.
    unsafe {
        calls::faxpages_place_parse(
            kit_std::c::items(text, text_len),
            &mut *place,
            kit_std::c::items_mut(runs, runs_len),
        )
    }
}

/// # Safety
///
/// The header says what the caller owes.
#[no_mangle]
pub unsafe extern "C" fn faxpages_convert(
    file: *const u8,
    file_len: usize,
    options: *const FaxOptions,
    out: *mut u8,
    out_len: usize,
    converted: *mut FaxConverted,
) -> u32 {
    // SAFETY: as above.
    unsafe {
        calls::faxpages_convert(
            kit_std::c::items(file, file_len),
            &*options,
            kit_std::c::items_mut(out, out_len),
            &mut *converted,
        )
    }
}

/// # Safety
///
/// The header says what the caller owes.
#[no_mangle]
pub unsafe extern "C" fn faxpages_check(
    file: *const u8,
    file_len: usize,
    notes: *mut FaxNote,
    notes_len: usize,
    report: *mut FaxReport,
) -> u32 {
    // SAFETY: as above.
    unsafe {
        calls::faxpages_check(
            kit_std::c::items(file, file_len),
            kit_std::c::items_mut(notes, notes_len),
            &mut *report,
        )
    }
}

/// # Safety
///
/// The header says what the caller owes.
#[no_mangle]
pub unsafe extern "C" fn faxpages_forms(
    file: *const u8,
    file_len: usize,
    page: u32,
    forms: *mut FaxForm,
    forms_len: usize,
    told: *mut FaxTold,
) -> u32 {
    // SAFETY: as above.
    unsafe {
        calls::faxpages_forms(
            kit_std::c::items(file, file_len),
            page,
            kit_std::c::items_mut(forms, forms_len),
            &mut *told,
        )
    }
}

#[no_mangle]
pub extern "C" fn faxpages_version() -> u32 {
    calls::faxpages_version()
}

/// # Safety
///
/// The header says what the caller owes.
#[no_mangle]
pub unsafe extern "C" fn faxpages_version_text(text: *mut u8, text_len: usize) -> usize {
    // SAFETY: as above.
    unsafe {
        calls::faxpages_version_text(kit_std::c::items_mut(text, text_len))
    }
}

/// # Safety
///
/// The header says what the caller owes.
#[no_mangle]
pub unsafe extern "C" fn faxpages_fault_name(number: u32, name: *mut u8, name_len: usize) -> usize {
    // SAFETY: as above.
    unsafe {
        calls::faxpages_fault_name(number, kit_std::c::items_mut(name, name_len))
    }
}

/// # Safety
///
/// The header says what the caller owes.
#[no_mangle]
pub unsafe extern "C" fn faxpages_status_name(
    number: u32,
    name: *mut u8,
    name_len: usize,
) -> usize {
    // SAFETY: as above.
    unsafe {
        calls::faxpages_status_name(number, kit_std::c::items_mut(name, name_len))
    }
}

/// # Safety
///
/// The header says what the caller owes.
#[no_mangle]
pub unsafe extern "C" fn faxpages_note_name(number: u32, name: *mut u8, name_len: usize) -> usize {
    // SAFETY: as above.
    unsafe {
        calls::faxpages_note_name(number, kit_std::c::items_mut(name, name_len))
    }
}

/// # Safety
///
/// The header says what the caller owes.
#[no_mangle]
pub unsafe extern "C" fn faxpages_page(
    file: *const u8,
    file_len: usize,
    page: u32,
    form: *mut FaxForm,
    out: *mut u8,
    out_len: usize,
    stride: usize,
    told: *mut FaxTold,
) -> u32 {
    // SAFETY: as above.
    unsafe {
        calls::faxpages_page(
            kit_std::c::items(file, file_len),
            page,
            &mut *form,
            kit_std::c::items_mut(out, out_len),
            stride,
            &mut *told,
        )
    }
}

/// # Safety
///
/// The header says what the caller owes.
#[no_mangle]
pub unsafe extern "C" fn faxpages_end_pages(
    file: *mut u8,
    file_len: usize,
    written: *mut FaxWritten,
) -> u32 {
    // SAFETY: as above.
    unsafe {
        calls::faxpages_end_pages(kit_std::c::items_mut(file, file_len), &mut *written)
    }
}

/// # Safety
///
/// The header says what the caller owes.
#[no_mangle]
pub unsafe extern "C" fn faxpages_received(
    file: *const u8,
    file_len: usize,
    page: u32,
    received: *mut FaxReceived,
) -> u32 {
    // SAFETY: as above.
    unsafe {
        calls::faxpages_received(kit_std::c::items(file, file_len), page, &mut *received)
    }
}

/// # Safety
///
/// The header says what the caller owes.
#[no_mangle]
pub unsafe extern "C" fn faxpages_runs(
    file: *const u8,
    file_len: usize,
    page: u32,
    row: u32,
    rows: *mut FaxRow,
    rows_len: usize,
    out: *mut u32,
    out_len: usize,
    told: *mut FaxTold,
) -> u32 {
    // SAFETY: as above.
    unsafe {
        calls::faxpages_runs(
            kit_std::c::items(file, file_len),
            page,
            row,
            kit_std::c::items_mut(rows, rows_len),
            kit_std::c::items_mut(out, out_len),
            &mut *told,
        )
    }
}

/// # Safety
///
/// The header says what the caller owes.
#[no_mangle]
pub unsafe extern "C" fn faxpages_runs_from(
    file: *const u8,
    file_len: usize,
    place: *mut FaxPlace,
    runs: *mut u32,
    runs_len: usize,
    rows: *mut FaxRow,
    rows_len: usize,
    out: *mut u32,
    out_len: usize,
    told: *mut FaxTold,
) -> u32 {
    // SAFETY: as above.
    unsafe {
        calls::faxpages_runs_from(
            kit_std::c::items(file, file_len),
            &mut *place,
            kit_std::c::items_mut(runs, runs_len),
            kit_std::c::items_mut(rows, rows_len),
            kit_std::c::items_mut(out, out_len),
            &mut *told,
        )
    }
}

/// # Safety
///
/// The header says what the caller owes.
#[no_mangle]
pub unsafe extern "C" fn faxpages_changes(
    file: *const u8,
    file_len: usize,
    page: u32,
    row: u32,
    rows: *mut FaxRow,
    rows_len: usize,
    out: *mut u32,
    out_len: usize,
    told: *mut FaxTold,
) -> u32 {
    // SAFETY: as above.
    unsafe {
        calls::faxpages_changes(
            kit_std::c::items(file, file_len),
            page,
            row,
            kit_std::c::items_mut(rows, rows_len),
            kit_std::c::items_mut(out, out_len),
            &mut *told,
        )
    }
}

/// # Safety
///
/// The header says what the caller owes.
#[no_mangle]
pub unsafe extern "C" fn faxpages_changes_from(
    file: *const u8,
    file_len: usize,
    place: *mut FaxPlace,
    runs: *mut u32,
    runs_len: usize,
    rows: *mut FaxRow,
    rows_len: usize,
    out: *mut u32,
    out_len: usize,
    told: *mut FaxTold,
) -> u32 {
    // SAFETY: as above.
    unsafe {
        calls::faxpages_changes_from(
            kit_std::c::items(file, file_len),
            &mut *place,
            kit_std::c::items_mut(runs, runs_len),
            kit_std::c::items_mut(rows, rows_len),
            kit_std::c::items_mut(out, out_len),
            &mut *told,
        )
    }
}

/// # Safety
///
/// The header says what the caller owes.
#[no_mangle]
pub unsafe extern "C" fn faxpages_rows(
    file: *const u8,
    file_len: usize,
    page: u32,
    row: u32,
    rows: *mut FaxRow,
    rows_len: usize,
    out: *mut u8,
    out_len: usize,
    told: *mut FaxTold,
) -> u32 {
    // SAFETY: as above.
    unsafe {
        calls::faxpages_rows(
            kit_std::c::items(file, file_len),
            page,
            row,
            kit_std::c::items_mut(rows, rows_len),
            kit_std::c::items_mut(out, out_len),
            &mut *told,
        )
    }
}

/// # Safety
///
/// The header says what the caller owes.
#[no_mangle]
pub unsafe extern "C" fn faxpages_rows_from(
    file: *const u8,
    file_len: usize,
    place: *mut FaxPlace,
    runs: *mut u32,
    runs_len: usize,
    rows: *mut FaxRow,
    rows_len: usize,
    out: *mut u8,
    out_len: usize,
    told: *mut FaxTold,
) -> u32 {
    // SAFETY: as above.
    unsafe {
        calls::faxpages_rows_from(
            kit_std::c::items(file, file_len),
            &mut *place,
            kit_std::c::items_mut(runs, runs_len),
            kit_std::c::items_mut(rows, rows_len),
            kit_std::c::items_mut(out, out_len),
            &mut *told,
        )
    }
}

/// # Safety
///
/// The header says what the caller owes.
#[no_mangle]
pub unsafe extern "C" fn faxpages_salvage_convert(
    file: *const u8,
    file_len: usize,
    options: *const FaxOptions,
    out: *mut u8,
    out_len: usize,
    converted: *mut FaxConverted,
) -> u32 {
    // SAFETY: as above.
    unsafe {
        calls::faxpages_salvage_convert(
            kit_std::c::items(file, file_len),
            &*options,
            kit_std::c::items_mut(out, out_len),
            &mut *converted,
        )
    }
}

/// # Safety
///
/// The header says what the caller owes.
#[no_mangle]
pub unsafe extern "C" fn faxpages_salvage_from(
    file: *const u8,
    file_len: usize,
    place: *mut FaxPlace,
    runs: *mut u32,
    runs_len: usize,
    out: *mut u8,
    out_len: usize,
    stride: usize,
    lost: *mut FaxLost,
    lost_len: usize,
    told: *mut FaxTold,
) -> u32 {
    // SAFETY: as above.
    unsafe {
        calls::faxpages_salvage_from(
            kit_std::c::items(file, file_len),
            &mut *place,
            kit_std::c::items_mut(runs, runs_len),
            kit_std::c::items_mut(out, out_len),
            stride,
            kit_std::c::items_mut(lost, lost_len),
            &mut *told,
        )
    }
}

/// # Safety
///
/// The header says what the caller owes.
#[no_mangle]
pub unsafe extern "C" fn faxpages_salvage(
    file: *const u8,
    file_len: usize,
    page: u32,
    form: *mut FaxForm,
    out: *mut u8,
    out_len: usize,
    stride: usize,
    lost: *mut FaxLost,
    lost_len: usize,
    told: *mut FaxTold,
) -> u32 {
    // SAFETY: as above.
    unsafe {
        calls::faxpages_salvage(
            kit_std::c::items(file, file_len),
            page,
            &mut *form,
            kit_std::c::items_mut(out, out_len),
            stride,
            kit_std::c::items_mut(lost, lost_len),
            &mut *told,
        )
    }
}

/// # Safety
///
/// The header says what the caller owes.
#[no_mangle]
pub unsafe extern "C" fn faxpages_salvage_strip(
    strip: *const u8,
    strip_len: usize,
    form: *const FaxStrip,
    out: *mut u8,
    out_len: usize,
    stride: usize,
    lost: *mut FaxLost,
    lost_len: usize,
    told: *mut FaxTold,
) -> u32 {
    // SAFETY: as above.
    unsafe {
        calls::faxpages_salvage_strip(
            kit_std::c::items(strip, strip_len),
            &*form,
            kit_std::c::items_mut(out, out_len),
            stride,
            kit_std::c::items_mut(lost, lost_len),
            &mut *told,
        )
    }
}

/// # Safety
///
/// The header says what the caller owes.
#[no_mangle]
pub unsafe extern "C" fn faxpages_strip_part(
    strip: *const u8,
    strip_len: usize,
    form: *const FaxStrip,
    place: *mut FaxPlace,
    runs: *mut u32,
    runs_len: usize,
    out: *mut u8,
    out_len: usize,
    stride: usize,
    told: *mut FaxTold,
) -> u32 {
    // SAFETY: as above.
    unsafe {
        calls::faxpages_strip_part(
            kit_std::c::items(strip, strip_len),
            &*form,
            &mut *place,
            kit_std::c::items_mut(runs, runs_len),
            kit_std::c::items_mut(out, out_len),
            stride,
            &mut *told,
        )
    }
}

/// # Safety
///
/// The header says what the caller owes.
#[no_mangle]
pub unsafe extern "C" fn faxpages_strip_check(
    strip: *const u8,
    strip_len: usize,
    form: *const FaxStrip,
    report: *mut FaxStripReport,
) -> u32 {
    // SAFETY: as above.
    unsafe {
        calls::faxpages_strip_check(kit_std::c::items(strip, strip_len), &*form, &mut *report)
    }
}

/// # Safety
///
/// The header says what the caller owes.
#[no_mangle]
pub unsafe extern "C" fn faxpages_strip_rows(
    strip: *const u8,
    strip_len: usize,
    form: *const FaxStrip,
    place: *mut FaxPlace,
    runs: *mut u32,
    runs_len: usize,
    out: *mut u8,
    out_len: usize,
    stride: usize,
    told: *mut FaxTold,
) -> u32 {
    // SAFETY: as above.
    unsafe {
        calls::faxpages_strip_rows(
            kit_std::c::items(strip, strip_len),
            &*form,
            &mut *place,
            kit_std::c::items_mut(runs, runs_len),
            kit_std::c::items_mut(out, out_len),
            stride,
            &mut *told,
        )
    }
}

/// # Safety
///
/// The header says what the caller owes.
#[no_mangle]
pub unsafe extern "C" fn faxpages_add_page(
    form: *const FaxForm,
    k: u32,
    raster: *const u8,
    raster_len: usize,
    stride: usize,
    file: *mut u8,
    file_len: usize,
    written: *mut FaxWritten,
) -> u32 {
    // SAFETY: as above.
    unsafe {
        calls::faxpages_add_page(
            &*form,
            k,
            kit_std::c::items(raster, raster_len),
            stride,
            kit_std::c::items_mut(file, file_len),
            &mut *written,
        )
    }
}
