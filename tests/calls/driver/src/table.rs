//! The lines of a table.
use fax_rows::Memory;
use kit_std::alloc::AllocError;
use std::fmt;

/// Why a line has no call that could be made.
#[derive(Clone, Copy, Debug, PartialEq, Eq)]
pub enum WrongLine {
    NoAnswer,
    UnknownCall,
    BadWord,
    OutOfLimits,
    Memory,
}

impl fmt::Display for WrongLine {
    fn fmt(&self, out: &mut fmt::Formatter) -> fmt::Result {
        out.write_str(match self {
            WrongLine::NoAnswer => "it does not say what is wanted",
            WrongLine::UnknownCall => "no call has this name and so many words",
            WrongLine::BadWord => "a word is not what it has to be",
            WrongLine::OutOfLimits => "a number or a row is out of the limits of the call",
            WrongLine::Memory => "out of memory",
        })
    }
}

impl From<AllocError> for WrongLine {
    fn from(_: AllocError) -> WrongLine {
        WrongLine::Memory
    }
}

impl From<Memory> for WrongLine {
    fn from(_: Memory) -> WrongLine {
        WrongLine::Memory
    }
}

/// A line: its call as it stands there and word by word, and the answer that it wants.
pub struct Line<'a> {
    pub call: &'a str,
    pub words: Vec<&'a str>,
    pub wanted: &'a str,
}

impl<'a> Line<'a> {
    /// Reads a line, or answers `None` where it has no call. What stands after ` # ` says why the
    /// line is there.
    pub fn read(text: &'a str) -> Result<Option<Line<'a>>, WrongLine> {
        if text.is_empty() || text.starts_with('#') {
            return Ok(None);
        }
        let line = text.split_once(" # ").map_or(text, |(line, _)| line);
        let (call, wanted) = line.split_once(" = ").ok_or(WrongLine::NoAnswer)?;
        Ok(Some(Line {
            call,
            words: call.split_whitespace().collect(),
            wanted: wanted.trim(),
        }))
    }
}
