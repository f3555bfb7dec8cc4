//! What answers look like.

use crate::table::WrongLine;
use fax_files::{PageForm, Received};
use fax_rows::{BitSink, Row};
use kit_std::alloc::Global;

/// An `x` and two hexadecimal digits for each byte.
pub fn digits(bytes: &[u8]) -> String {
    let mut text = "x".to_owned();
    for byte in bytes {
        text.push_str(&format!("{byte:02X}"));
    }
    text
}

/// Appends the first `len` bits of some bytes, the highest of each first.
pub fn push_bits(text: &mut String, bytes: &[u8], len: u128) {
    for place in 0..len as usize {
        let is_one = bytes[place / 8] & (0x80 >> (place % 8)) != 0;
        text.push(if is_one { '1' } else { '0' });
    }
}

/// The bits that were put.
pub fn bits(mut sink: BitSink) -> String {
    let mut text = String::new();
    let len = sink.len();
    sink.pad();
    push_bits(&mut text, &sink.into_bytes(), len);
    text
}

/// Numbers with commas between them, or `-` for none.
pub fn numbers(numbers: &[u32]) -> String {
    if numbers.is_empty() {
        return "-".to_owned();
    }
    let texts: Vec<String> = numbers.iter().map(u32::to_string).collect();
    texts.join(",")
}

/// The lengths of a row's runs.
pub fn runs(row: &Row) -> Result<String, WrongLine> {
    Ok(numbers(row.runs(Global)?.as_slice()))
}

/// The form of a page.
pub fn form(form: &PageForm) -> String {
    let size = format!(
        "{}x{} {:?} {:?}",
        form.width, form.rows, form.coding, form.order
    );
    let strips = format!("{} of {}", form.strips, form.rows_per_strip);
    let (x, y) = (form.x, form.y);
    let inch = format!("{}/{} {}/{} {}", x.0, x.1, y.0, y.1, form.unit);
    let aligned = if form.aligned { " aligned" } else { "" };
    let exchanged = if form.exchanged { " exchanged" } else { "" };
    format!("{size} {strips} {inch}{aligned}{exchanged}")
}

/// What the receiver of a page counted of bad rows: three numbers, of which one that the page has not is `-`.
pub fn received(received: &Received) -> String {
    let found = [received.bad_rows, received.clean, received.consecutive];
    found.map(|number| numbers(number.as_slice())).join(" ")
}
