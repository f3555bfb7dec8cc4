// Made by tools/plain-rust of crates/fax_tool/src/text/lost_line.rt: change that.
//! The lines of what is lost: of rows, and of a page whose form is refused.

use crate::text::output_buffer::OutputBuffer;
use crate::text::push_number;
use arrayvec::ArrayString;
use fax_bits::Memory;
use fax_walk::{Cause, FileFault, LostRows};

/// A line of what is lost, which is made without memory.
type LostLine = ArrayString<80>;

/// Appends a fault after a blank, the tag of the field at fault after it, and the line's end.
// requires { array_string_len line.old + 37 ≤ 80 }
// ensures { line.new.bytes ≡ line.old.bytes ++ Spec.and_fault cause }
fn push_fault(line: &mut LostLine, cause: Cause) {
    let (name, tag) = cause.name();
    line.push_str(" ");
    line.push_str(name);
    if let Some(tag) = tag {
        push_number(line, u32::from(tag));
    }
    line.push_str("\n");
}

/// The line of rows that are lost: `lost P R N`, the first of them, how many, and the first one's
/// fault.
// ensures { result.bytes ≡ Spec.lost_line lost.page lost.row lost.rows lost.cause }
fn lost_line(lost: LostRows) -> LostLine {
    let mut line = LostLine::new();
    line.push_str("lost");
    push_number(&mut line, lost.page);
    push_number(&mut line, lost.row);
    push_number(&mut line, lost.rows);
    push_fault(&mut line, lost.cause);
    line
}

/// The line of a page whose form is refused: `lost P` and the fault.
// ensures { result.bytes ≡ Spec.refused_line page (File fault) }
fn refused_line(page: u32, fault: FileFault) -> LostLine {
    let mut line = LostLine::new();
    line.push_str("lost");
    push_number(&mut line, page);
    push_fault(&mut line, Cause::File(fault));
    line
}

/// Appends the line of rows that are lost.
// ensures ok { OnOk result
//     (text.new ≡ text.old ++ Spec.lost_line lost.page lost.row lost.rows lost.cause) }
// ensures err { OnErr result (text.new ≡ text.old) }
pub fn put_lost_line(text: &mut OutputBuffer, lost: LostRows) -> Result<(), Memory> {
    text.put(lost_line(lost).as_str())
}

/// Appends the line of a page whose form is refused.
// ensures ok { OnOk result (text.new ≡ text.old ++ Spec.refused_line page (File fault)) }
// ensures err { OnErr result (text.new ≡ text.old) }
pub fn put_refused_line(text: &mut OutputBuffer, page: u32, fault: FileFault) -> Result<(), Memory> {
    text.put(refused_line(page, fault).as_str())
}
