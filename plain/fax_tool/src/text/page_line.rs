// Made by tools/plain-rust of crates/fax_tool/src/text/page_line.rt: change that.
//! The line of a page.

use crate::text::output_buffer::OutputBuffer;
use crate::text::push_number;
use arrayvec::ArrayString;
use fax_bits::Memory;
use fax_files::{Coding, FillOrder, PageForm};
use itoa::Buffer;

/// The line of a page, which is made without memory.
type PageLine = ArrayString<136>;

/// A coding's name, after a blank.
// ensures { result.now ≡ and_coding coding }
fn coding_text(coding: Coding) -> &'static str {
    match coding {
        Coding::Mh => " mh",
        Coding::Mr => " mr",
        Coding::Mmr => " mmr",
    }
}

/// A fill order's number.
// ensures { result ≡ fill_order_of order }
fn order_number(order: FillOrder) -> u32 {
    match order {
        FillOrder::MsbFirst => 1,
        FillOrder::LsbFirst => 2,
    }
}

/// Appends a blank and a fraction: two numbers in decimals with a stroke between them.
// requires { array_string_len line.old + 22 ≤ 136 }
// ensures text { line.new.bytes ≡ line.old.bytes ++ and_fraction value }
// ensures len { array_string_len line.new ≤ array_string_len line.old + 22 }
fn push_fraction(line: &mut PageLine, value: (u32, u32)) {
    let (over, under) = value;
    let mut digits = Buffer::new();
    push_number(line, over);
    line.push_str("/");
    line.push_str(digits.format(under));
}

/// The line of a page: `page P`, the numbers of its form, and its resolution.
// ensures { result.bytes ≡ page_line_of page form.now }
fn page_line(page: u32, form: &PageForm) -> PageLine {
    let mut line = PageLine::new();
    line.push_str("page");
    push_number(&mut line, page);
    push_number(&mut line, form.width);
    push_number(&mut line, form.rows);
    line.push_str(coding_text(form.coding));
    push_number(&mut line, order_number(form.order));
    push_number(&mut line, u32::from(form.exchanged));
    push_number(&mut line, form.strips);
    push_fraction(&mut line, form.x);
    push_fraction(&mut line, form.y);
    push_number(&mut line, u32::from(form.unit));
    line.push_str("\n");
    line
}

/// Appends the line of a page.
// ensures ok { OnOk result (text.new ≡ text.old ++ page_line_of page form.now) }
// ensures err { OnErr result (text.new ≡ text.old) }
pub fn put_page_line(text: &mut OutputBuffer, page: u32, form: &PageForm) -> Result<(), Memory> {
    text.put(page_line(page, form).as_str())
}
