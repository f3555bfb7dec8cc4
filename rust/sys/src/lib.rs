//! The calls of `faxpages.h`, linked from `libfaxpages.a`, the library for C that is proved: each with the name and the
//! numbers that the header has, over slices in place of pointers and lengths.
//!
//! The crate `faxpages` is what programs in Rust use: it is of plain Rust, for each target. This one is for those that
//! want the proved library itself, on x86-64 Linux. The declarations here are tested, and not proved.
//!
//! ```no_run
//! # use faxpages_sys::{faxpages_forms, FaxForm, FaxTold};
//! let file = std::fs::read("fax.tif")?;
//! let (mut forms, mut told) = ([FaxForm::default(); 16], FaxTold::default());
//! let status = faxpages_forms(&file, 0, &mut forms, &mut told);
//! println!("{} pages, status {status}", told.count);
//! # Ok::<(), std::io::Error>(())
//! ```
#![deny(missing_debug_implementations)]

#[cfg(not(all(target_arch = "x86_64", target_os = "linux")))]
compile_error!("libfaxpages.a is for x86-64 Linux: use the crate `faxpages`, which is of plain Rust");

/// The calls that are declared, each as a function that is safe.
macro_rules! calls {
    ($(fn $name:ident($($parameters:tt)*) -> $answer:ty;)*) => {
        $(call! { $name, $answer, [$($parameters)*], [], [], [] })*
    };
}

/// A call, of whose parameters these are left: what C has of those before them, what Rust has, and what is given.
macro_rules! call {
    ($name:ident, $answer:ty, [], [$($c:tt)*], [$($r:tt)*], [$($given:tt)*]) => {
        /// As the header says.
        pub fn $name($($r)*) -> $answer {
            extern "C" {
                fn $name($($c)*) -> $answer;
            }
            // SAFETY: each length is that of the slice of its pointer, and what is written is borrowed alone.
            unsafe { $name($($given)*) }
        }
    };
    ($name:ident, $answer:ty, [$it:ident: &[$of:ty]$(, $($left:tt)*)?], [$($c:tt)*], [$($r:tt)*], [$($given:tt)*]) => {
        call! { $name, $answer, [$($($left)*)?], [$($c)* $it: *const $of, _: usize,], [$($r)* $it: &[$of],],
                [$($given)* $it.as_ptr(), $it.len(),] }
    };
    ($name:ident, $answer:ty, [$it:ident: &mut [$of:ty]$(, $($left:tt)*)?], [$($c:tt)*], [$($r:tt)*], [$($given:tt)*]) => {
        call! { $name, $answer, [$($($left)*)?], [$($c)* $it: *mut $of, _: usize,], [$($r)* $it: &mut [$of],],
                [$($given)* $it.as_mut_ptr(), $it.len(),] }
    };
    ($name:ident, $answer:ty, [$it:ident: &mut $of:ty$(, $($left:tt)*)?], [$($c:tt)*], [$($r:tt)*], [$($given:tt)*]) => {
        call! { $name, $answer, [$($($left)*)?], [$($c)* $it: *mut $of,], [$($r)* $it: &mut $of,], [$($given)* $it,] }
    };
    ($name:ident, $answer:ty, [$it:ident: &$of:ty$(, $($left:tt)*)?], [$($c:tt)*], [$($r:tt)*], [$($given:tt)*]) => {
        call! { $name, $answer, [$($($left)*)?], [$($c)* $it: *const $of,], [$($r)* $it: &$of,], [$($given)* $it,] }
    };
    ($name:ident, $answer:ty, [$it:ident: $of:ty$(, $($left:tt)*)?], [$($c:tt)*], [$($r:tt)*], [$($given:tt)*]) => {
        call! { $name, $answer, [$($($left)*)?], [$($c)* $it: $of,], [$($r)* $it: $of,], [$($given)* $it,] }
    };
}

/// The fault that a call met: all 0 where it met none.
#[repr(C)]
#[derive(Clone, Copy, Debug, Default)]
pub struct FaxFault {
    /// Its number, which never changes.
    pub number: u32,
    /// The tag of the field at fault, or 0.
    pub tag: u32,
    /// The page of the next row at the fault.
    pub page: u32,
    /// That row, 0 for a fault of the header, of a directory or of a field.
    pub row: u32,
}

/// What a call wrote, where to go on, and the fault that it met.
#[repr(C)]
#[derive(Clone, Copy, Debug, Default)]
pub struct FaxTold {
    /// How many pages or rows were written.
    pub count: usize,
    /// How many numbers of `out` were written.
    pub used: usize,
    /// The cursor after them, or the one that the call began with.
    pub page: u32,
    pub row: u32,
    /// The fault that was met.
    pub fault: FaxFault,
}

/// The form of a page.
#[repr(C)]
#[derive(Clone, Copy, Debug, Default)]
pub struct FaxForm {
    /// The pels of a row, 1 to 65,535.
    pub width: u32,
    /// The rows of the page, 1 to 1,000,000.
    pub rows: u32,
    /// How the rows are coded: 1 in MH, 2 in MR, 3 in MMR.
    pub coding: u32,
    /// Which bit of a byte is first: 1 for the highest, 2 for the lowest.
    pub order: u32,
    /// 1 where each EOL ends on a byte boundary of its strip, else 0.
    pub aligned: u32,
    /// 1 where black is coded as white, and white as black, else 0.
    pub exchanged: u32,
    /// The rows of each strip but the last, which may have fewer.
    pub rows_per_strip: u32,
    /// The number of strips.
    pub strips: u32,
    /// Pels of a row in each unit, as a fraction of numbers above 0.
    pub x_numerator: u32,
    pub x_denominator: u32,
    /// Rows in each unit, as a fraction of numbers above 0.
    pub y_numerator: u32,
    pub y_denominator: u32,
    /// The unit of the resolution: 1 for none, 2 for an inch, 3 for a centimetre.
    pub unit: u32,
}

/// A row that was written: where its numbers lie, and its place.
#[repr(C)]
#[derive(Clone, Copy, Debug, Default)]
pub struct FaxRow {
    /// Where its numbers begin in `out`.
    pub at: usize,
    /// How many numbers it has there.
    pub len: u32,
    /// Its page and its number there, both from 0.
    pub page: u32,
    pub row: u32,
    /// How many pels it has.
    pub width: u32,
}

/// Rows of a page or of a strip that are lost, one after another.
#[repr(C)]
#[derive(Clone, Copy, Debug, Default)]
pub struct FaxLost {
    /// The first of them, from 0.
    pub row: u32,
    /// How many they are.
    pub rows: u32,
    /// The number of the fault for which the first of them is lost.
    pub fault: u32,
}

/// What the receiver of a page counted of bad rows, those that it could not read: each number, and
/// before it whether the page has it. A number that it has not is 0.
#[repr(C)]
#[derive(Clone, Copy, Debug, Default)]
pub struct FaxReceived {
    /// 1 where the page has field 326, BadFaxLines, else 0; and how many rows were bad.
    pub has_bad_rows: u32,
    pub bad_rows: u32,
    /// 1 where the page has field 327, CleanFaxData, else 0; and what became of the bad rows.
    pub has_clean: u32,
    pub clean: u32,
    /// 1 where the page has field 328, ConsecutiveBadFaxLines, else 0; and how many bad rows came
    /// one after another at most.
    pub has_consecutive: u32,
    pub consecutive: u32,
    pub fault: FaxFault,
}

/// Where to go on: a cursor; and where `runs` is not 0 a place inside a strip, after so many bits
/// of it, whose row before it has so many runs, which stand apart.
#[repr(C)]
#[derive(Clone, Copy, Debug, Default)]
pub struct FaxPlace {
    pub page: u32,
    pub row: u32,
    pub bits: u32,
    pub runs: u32,
}

/// The form of a strip.
#[repr(C)]
#[derive(Clone, Copy, Debug, Default)]
pub struct FaxStrip {
    /// The pels of a row, 1 to 65,535.
    pub width: u32,
    /// The rows, 1 to 1,000,000, or 0 where the height is unknown.
    pub rows: u32,
    /// How the rows are coded: 1 in MH, 2 in MR, 3 in MMR.
    pub coding: u32,
    /// Which bit of a byte is first: 1 for the highest, 2 for the lowest.
    pub order: u32,
    /// In MH and MR, 1 where each EOL ends on a byte boundary, else 0.
    pub aligned: u32,
}

/// What was found in a strip, and after its last row.
#[repr(C)]
#[derive(Clone, Copy, Debug, Default)]
pub struct FaxStripReport {
    /// How many rows were read.
    pub rows: u32,
    /// 1 in MMR where no end of the facsimile block stands after the last row, else 0.
    pub no_end_of_block: u32,
    /// 1 in MH and MR where a return to control stands after the last row, else 0.
    pub return_to_control: u32,
    /// 1 where a 1 stands after the last row and its end mark, else 0.
    pub data_after_end: u32,
    /// 1 where the codes of some row are others than T.4 chooses, else 0.
    pub not_t4_choice: u32,
    pub fault: FaxFault,
}

/// How far a file is written.
#[repr(C)]
#[derive(Clone, Copy, Debug, Default)]
pub struct FaxWritten {
    /// How many bytes it has.
    pub len: usize,
    /// Where in it the offset of the next page's directory stands.
    pub link: u32,
    /// How many pages it is to have, 1 to 65,535; or 0, where that is not known.
    pub total: u32,
    /// How many were added.
    pub added: u32,
}

/// A note on a page, or on a strip of it.
#[repr(C)]
#[derive(Clone, Copy, Debug, Default)]
pub struct FaxNote {
    /// The page, from 0.
    pub page: u32,
    /// The strip of the page, from 0, or 4,294,967,295 where the note is on the page's directory.
    pub strip: u32,
    /// What is noted: 1 to 5, as N1 to N5.
    pub kind: u32,
}

/// What was found in a file up to its first fault.
#[repr(C)]
#[derive(Clone, Copy, Debug, Default)]
pub struct FaxReport {
    /// How many pages were read wholly.
    pub pages: u64,
    /// How many rows were read.
    pub rows: u64,
    /// How many notes there are.
    pub notes: usize,
    pub fault: FaxFault,
}

/// How a file is written.
#[repr(C)]
#[derive(Clone, Copy, Debug, Default)]
pub struct FaxOptions {
    /// 0 for PBM, 1 for MH, 2 for MR, 3 for MMR.
    pub target: u32,
    /// Which bit of a byte is first: 1 for the highest, 2 for the lowest.
    pub order: u32,
    /// In MR, a row in this many is coded by itself; at least 1.
    pub k: u32,
    /// The rows of a strip, or 0 where a page is one strip.
    pub strip: u32,
    /// 1 where each EOL of MH and MR ends on a byte boundary, else 0.
    pub aligned: u32,
}

/// How long the output is, or why there is none.
#[repr(C)]
#[derive(Clone, Copy, Debug, Default)]
pub struct FaxConverted {
    /// How many bytes the output has.
    pub len: usize,
    /// The image of a PBM at fault, from 0.
    pub image: u64,
    pub fault: FaxFault,
}

calls! {
    fn faxpages_check(file: &[u8], notes: &mut [FaxNote], report: &mut FaxReport) -> u32;
    fn faxpages_strip_code(
        form: &FaxStrip, k: u32, raster: &[u8], stride: usize, out: &mut [u8], len: &mut usize,
    ) -> u32;
    fn faxpages_strip_code_runs(
        form: &FaxStrip, k: u32, rows: &[FaxRow], runs: &[u32], out: &mut [u8], len: &mut usize,
    ) -> u32;
    fn faxpages_convert(file: &[u8], options: &FaxOptions, out: &mut [u8], converted: &mut FaxConverted) -> u32;
    fn faxpages_salvage_convert(
        file: &[u8], options: &FaxOptions, out: &mut [u8], converted: &mut FaxConverted,
    ) -> u32;
    fn faxpages_place_text(place: &FaxPlace, runs: &[u32], text: &mut [u8], len: &mut usize) -> u32;
    fn faxpages_place_parse(text: &[u8], place: &mut FaxPlace, runs: &mut [u32]) -> u32;
    fn faxpages_forms(file: &[u8], page: u32, forms: &mut [FaxForm], told: &mut FaxTold) -> u32;
    fn faxpages_fault_name(number: u32, name: &mut [u8]) -> usize;
    fn faxpages_page(
        file: &[u8], page: u32, form: &mut FaxForm, out: &mut [u8], stride: usize, told: &mut FaxTold,
    ) -> u32;
    fn faxpages_salvage(
        file: &[u8], page: u32, form: &mut FaxForm, out: &mut [u8], stride: usize, lost: &mut [FaxLost],
        told: &mut FaxTold,
    ) -> u32;
    fn faxpages_salvage_from(
        file: &[u8], place: &mut FaxPlace, runs: &mut [u32], out: &mut [u8], stride: usize, lost: &mut [FaxLost],
        told: &mut FaxTold,
    ) -> u32;
    fn faxpages_salvage_strip(
        strip: &[u8], form: &FaxStrip, out: &mut [u8], stride: usize, lost: &mut [FaxLost], told: &mut FaxTold,
    ) -> u32;
    fn faxpages_received(file: &[u8], page: u32, received: &mut FaxReceived) -> u32;
    fn faxpages_rows_from(
        file: &[u8], place: &mut FaxPlace, runs: &mut [u32], rows: &mut [FaxRow], out: &mut [u8], told: &mut FaxTold,
    ) -> u32;
    fn faxpages_runs_from(
        file: &[u8], place: &mut FaxPlace, runs: &mut [u32], rows: &mut [FaxRow], out: &mut [u32], told: &mut FaxTold,
    ) -> u32;
    fn faxpages_changes_from(
        file: &[u8], place: &mut FaxPlace, runs: &mut [u32], rows: &mut [FaxRow], out: &mut [u32], told: &mut FaxTold,
    ) -> u32;
    fn faxpages_strip_check(strip: &[u8], form: &FaxStrip, report: &mut FaxStripReport) -> u32;
    fn faxpages_strip_part(
        strip: &[u8], form: &FaxStrip, place: &mut FaxPlace, runs: &mut [u32], out: &mut [u8], stride: usize,
        told: &mut FaxTold,
    ) -> u32;
    fn faxpages_strip_rows(
        strip: &[u8], form: &FaxStrip, place: &mut FaxPlace, runs: &mut [u32], out: &mut [u8], stride: usize,
        told: &mut FaxTold,
    ) -> u32;
    fn faxpages_version() -> u32;
    fn faxpages_add_page(
        form: &FaxForm, k: u32, raster: &[u8], stride: usize, file: &mut [u8], written: &mut FaxWritten,
    ) -> u32;
    fn faxpages_end_pages(file: &mut [u8], written: &mut FaxWritten) -> u32;
    fn faxpages_rows(
        file: &[u8], page: u32, row: u32, rows: &mut [FaxRow], out: &mut [u8], told: &mut FaxTold,
    ) -> u32;
    fn faxpages_runs(
        file: &[u8], page: u32, row: u32, rows: &mut [FaxRow], out: &mut [u32], told: &mut FaxTold,
    ) -> u32;
    fn faxpages_changes(
        file: &[u8], page: u32, row: u32, rows: &mut [FaxRow], out: &mut [u32], told: &mut FaxTold,
    ) -> u32;
    fn faxpages_status_name(status: u32, name: &mut [u8]) -> usize;
    fn faxpages_note_name(kind: u32, name: &mut [u8]) -> usize;
    fn faxpages_version_text(text: &mut [u8]) -> usize;
}
