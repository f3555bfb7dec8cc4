// Made by tools/plain-rust of crates/fax_c/src/lib.rt: change that.
//! Calls for C: over bytes and numbers in memory of the caller. Nothing is kept from one call to
//! the next.
#![forbid(unsafe_code)]

pub mod calls;

mod bytes;
mod caller_text;
mod coding;
mod coding_runs;
mod cursors;
mod faults;
mod file_conversion;
mod file_report;
mod fill;
mod format;
mod forms;
mod library_version;
mod names;
mod page_raster;
mod page_total;
mod places;
mod raster;
mod received;
mod row_runs;
mod rows;
mod salvage_conversion;
mod salvage_from;
mod salvaged_raster;
mod status;
mod strip_form;
mod strip_part;
mod strip_report;
mod strip_rows;
mod told;
mod uncounted_strip;
mod writing;
