// Made by tools/plain-rust of crates/fax_tool/src/commands/version.rt: change that.
//! `--version`: which version the program is.

use crate::refusal::Refusal;
use crate::streams::Sink;
use crate::streams::transfer::{RetryCount, write_all};

/// The program's name and the version, which is that of the file `VERSION`.
const VERSION_TEXT: &str = "faxpages 1.15.0\n";

/// Writes the version.
// requires { W.counts out.old ≡ no_faults }
// ensures ok { OnOk result (Appends (W.written out.old) (W.written out.new) version_text) }
// ensures worked { OnOk result (HasWorked (W.counts out.new)) }
// ensures err { IfErr result (IsGivenInPart (W.written out.old) (W.written out.new) version_text
//     (W.counts out.new)) }
pub fn version<W: Sink>(out: &mut W) -> Result<(), Refusal> {
    let mut interruptions = RetryCount::NONE;
    write_all(out, &mut interruptions, VERSION_TEXT.as_bytes())
}
