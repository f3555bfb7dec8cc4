// Made by tools/plain-rust of crates/fax_c/src/salvage_conversion.rt: change that.
//! A damaged file written anew.

use crate::file_conversion::{FaxConverted, FaxOptions, options_of, put_output};
use crate::status;
use fax_files::WriteFault;
use fax_walk::{ConvertFault, salvage_file};
use kit_std::alloc::Global;

/// Writes the pages of a damaged file as the options say, where that has room: the rows that are
/// found, and white ones where rows are lost, which are counted in the fields 326 to 328
/// (RFC 2306).
// ensures { Spec.TellsSalvagedFile file.now options.now out.old out.new converted.new result }
pub fn faxpages_salvage_convert(
    alloc: Global,
    file: &[u8],
    options: &FaxOptions,
    out: &mut [u8],
    converted: &mut FaxConverted,
) -> u32 {
    *converted = FaxConverted::none();
    let Some(options) = options_of(options) else {
        return status::NO_OPTIONS;
    };
    match salvage_file(alloc, file, &options) {
        Ok(Some(output)) => put_output(&output, out, converted),
        Ok(None) => status::END,
        Err(WriteFault::OutputTooLarge) => {
            *converted = FaxConverted::refused(ConvertFault::OutputTooLarge);
            status::FAULT
        }
        Err(WriteFault::Memory) => status::MEMORY,
    }
}
