// Made by tools/plain-rust of crates/fax_walk/src/conversion.rt: change that.
//! A file of pages turned into another: raw PBM or TIFF, into either of them.

use kit_std::prelude::Vec;

use crate::image_conversion::ImageConversion;
use crate::options::{ConvertFault, Options};
use crate::output::Output;
use crate::page_size::PageSize;
use crate::parts::SparseBytes;
use crate::walk::LastRow;
use crate::{Walk, WalkFault};
use fax_bits::Memory;
use kit_std::alloc::Global;

/// Converts images.
// requires { StartsWith bytes.now (codes "P4") }
// ensures ok { IfOk result (λ output. Spec.IsConverted bytes.now options.now output) }
// ensures err { IfErr result (λ fault. fault ≢ ConvertFault.Memory
//     → Spec.IsNotConverted bytes.now options.now fault) }
fn convert_images(
    alloc: Global,
    bytes: &[u8],
    options: &Options,
) -> Result<SparseBytes, ConvertFault> {
    ImageConversion::new(alloc, *options)?.finish(bytes)
}

/// Why the rows of a TIFF file have ended. A walk from its first row on does not begin outside it.
// ensures { result ≡ Reads.source_fault fault }
fn source_fault(fault: WalkFault) -> ConvertFault {
    match fault {
        WalkFault::Memory => ConvertFault::Memory,
        WalkFault::AtRow { page, row, cause } => ConvertFault::Source { page, row, cause },
        WalkFault::CursorOutside => ConvertFault::UnknownInput,
    }
}

/// Begins the page of a row that is its first one.
#[inline(always)]
// requires limits { IsPageForm last.now.form.now }
// requires upcoming { (part : Part) × Reads.IsLentUpcoming options.now output.old last.now part }
// ensures { OnOk result ((part : Part) → Reads.IsLentUpcoming options.now output.old last.now part
//     → IsPartWritten output.new part) }
fn begin_page(
    alloc: Global,
    last: &LastRow,
    options: &Options,
    output: &mut Output,
) -> Result<(), Memory> {
    if last.place.row > 0 {
        return Ok(());
    }
    output.begin(alloc, options, &PageSize::of_form(last.form))
}

/// Puts a row that is lent on its page.
#[inline(always)]
// requires limits { IsPageForm last.now.form.now }
// requires upcoming { (part : Part) × Reads.IsLentUpcoming options.now output.old last.now part }
// ensures { OnOk result ((part : Part) → Reads.IsLentUpcoming options.now output.old last.now part
//     → IsPutTo output.new (with_row part last.now.row.now)) }
fn put_lent(
    alloc: Global,
    last: &LastRow,
    options: &Options,
    output: &mut Output,
) -> Result<(), Memory> {
    begin_page(alloc, last, options, output)?;
    output.put_row(last.row)?;
    if last.place.row + 1 == last.form.rows {
        output.end(None)?;
    }
    Ok(())
}

/// Puts the row that a walk returned last on its page.
#[inline(always)]
// requires untold { walk.now.final_end ≡ None }
// requires upcoming { (item : RowItem) × (part : Part)
//     × Reads.IsUpcomingItem options.now walk.now output.old item part }
// ensures { OnOk result (Reads.PutsLast options.now walk.now output.old output.new) }
fn put_last_row(
    alloc: Global,
    walk: &Walk,
    options: &Options,
    output: &mut Output,
) -> Result<(), Memory> {
    // A reader of pages beside the walk would give the page's form too, but reads each directory
    // once more, and it has to be proved that the two stay on one page.
    let Some(last) = walk.last_row() else {
        return Ok(());
    };
    put_lent(alloc, &last, options, output)
}

/// Converts a TIFF file.
// requires { Spec.IsTiff file.now }
// ensures ok { IfOk result (λ output. Spec.IsConverted file.now options.now output) }
// ensures err { IfErr result (λ fault. fault ≢ ConvertFault.Memory
//     → Spec.IsNotConverted file.now options.now fault) }
fn convert_file(alloc: Global, file: &[u8], options: &Options) -> Result<SparseBytes, ConvertFault> {
    let mut output = Output::new(alloc, options)?;
    let mut walk = Walk::start(alloc, file);
    loop {
        match walk.next_row() {
            Ok(Some(_)) => put_last_row(alloc, &walk, options, &mut output)?,
            Ok(None) => return output.finish(alloc),
            Err(fault) => return Err(source_fault(fault)),
        }
    }
}

/// The file turned into what the options say: raw PBM where it begins with `P4`, TIFF where it
/// begins with `II` or `MM`.
///
/// # Errors
///
/// `UnknownInput` where it begins with none of them; else the first fault of the source, and then
/// `OutputTooLarge`. `Memory` where a growth was refused.
// ensures ok { IfOk result (λ output. Spec.IsConverted bytes.now options.now output) }
// ensures err { IfErr result (λ fault. fault ≢ ConvertFault.Memory
//     → Spec.IsNotConverted bytes.now options.now fault) }
pub fn convert_sparse(
    alloc: Global,
    bytes: &[u8],
    options: &Options,
) -> Result<SparseBytes, ConvertFault> {
    if bytes.starts_with(b"P4") {
        convert_images(alloc, bytes, options)
    } else if bytes.starts_with(b"II") || bytes.starts_with(b"MM") {
        convert_file(alloc, bytes, options)
    } else {
        Err(ConvertFault::UnknownInput)
    }
}

/// The bytes of what `convert_sparse` answers, all of them held.
///
/// # Errors
///
/// As `convert_sparse`.
// ensures ok { IfOk result (λ output. Spec.IsConverted bytes.now options.now output.items) }
// ensures err { IfErr result (λ fault. fault ≢ ConvertFault.Memory
//     → Spec.IsNotConverted bytes.now options.now fault) }
pub fn convert(alloc: Global, bytes: &[u8], options: &Options) -> Result<Vec<u8>, ConvertFault> {
    let parts = convert_sparse(alloc, bytes, options)?;
    Ok(parts.into_bytes(alloc)?)
}
