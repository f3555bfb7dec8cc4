// Made by tools/plain-rust of crates/fax_tool/src/commands.rt: change that.
//! What each command does: `rows` and `list` print lines, the others write a whole text.

pub mod check;
pub mod convert;
pub mod print;
pub mod printed_lines;
pub mod salvage_file;
pub mod salvage_lines;
pub mod version;
