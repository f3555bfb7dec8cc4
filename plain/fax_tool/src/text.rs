// Made by tools/plain-rust of crates/fax_tool/src/text.rt: change that.
//! The text that is written: lines of rows, of pages and of faults, and numbers in them.

pub mod fault;
pub mod lost_line;
pub mod number_cache;
pub mod output_buffer;
pub mod page_line;
pub mod row_line;

use arrayvec::ArrayString;
use itoa::{Buffer, Integer};

/// Appends a blank and a number in decimals. There must be room for the longest such number.
// requires { array_string_len line.old + (N.MAX_STR_LEN + 1) ≤ CAP }
// ensures text { line.new.bytes ≡ line.old.bytes ++ (codes " " ++ N.text number) }
// ensures len { array_string_len line.new ≤ array_string_len line.old + (N.MAX_STR_LEN + 1) }
pub fn push_number<N: Integer, const CAP: usize>(line: &mut ArrayString<CAP>, number: N) {
    let mut digits = Buffer::new();
    line.push_str(" ");
    line.push_str(digits.format(number));
}
