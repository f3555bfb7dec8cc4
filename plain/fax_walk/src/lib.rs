// Made by tools/plain-rust of crates/fax_walk/src/lib.rt: change that.
//! The walk over the rows of a TIFF-F file, from its bytes to rows with their places.
#![forbid(unsafe_code)]

mod checking;
mod conversion;
mod cursor;
mod end;
mod image_conversion;
mod long_cursor;
mod open_page;
mod open_strips;
mod opening;
mod options;
mod output;
mod page_size;
mod pages;
mod parts;
mod rows_from;
mod rows_left;
mod salvage;
mod salvage_page;
mod salvage_rows;
mod salvaged_file;
mod shown_rows;
mod walk;
mod walk_start;

pub use checking::{Note, NoteKind, Report, check, check_received};
pub use conversion::{convert, convert_sparse};
pub use cursor::{Cursor, NotACursor};
pub use end::{End, WalkFault};
pub use fax_bits::{FillOrder, Memory};
pub use fax_files::{Cause, FileFault, PageForm, PbmFault};
pub use fax_page::StripFault;
pub use fax_rows::Row;
pub use image_conversion::ImageConversion;
pub use long_cursor::{LongCursor, LongFault};
pub use options::{ConvertFault, Options, Target};
pub use pages::Pages;
pub use parts::{Part, SparseBytes, SparseParts};
pub use rows_from::RowsFrom;
pub use rows_left::{DamagedPage, SalvagedRows, UncountedRows};
pub use salvage::{LostRows, Salvage, SalvageItem};
pub use salvage_rows::{SalvagedPart, StripPositionRef};
pub use salvaged_file::salvage_file;
pub use walk::{LongCursorRef, Place, Walk};
pub use walk_start::WalkStart;
