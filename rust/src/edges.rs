//! `Read` and `Write` of std, where files and lines are.

use crate::{Error, StripReader, Writer};
use std::io::{self, ErrorKind, Read, Write};

/// The most bytes of a file, as the program faxpages takes them.
const MOST_INPUT: u64 = 1 << 28;

/// All bytes of a file or a stream, for [`Fax::new`](crate::Fax::new): at most 268,435,456, as the program faxpages takes.
///
/// # Errors
///
/// Those of the reader, and `InvalidData` where it has more bytes.
///
/// ```
/// let file = faxpages::read_file(&b"II*\0\0\0\0\0"[..])?;
/// assert_eq!(faxpages::Fax::new(&file).page(0).unwrap_err().to_string(), "page 0 row 0: NoDirectory");
/// # Ok::<(), std::io::Error>(())
/// ```
pub fn read_file(from: impl Read) -> io::Result<Vec<u8>> {
    read_at_most(MOST_INPUT, from)
}

fn read_at_most(most: u64, from: impl Read) -> io::Result<Vec<u8>> {
    let mut file = Vec::new();
    from.take(most + 1).read_to_end(&mut file)?;
    if file.len() as u64 > most {
        return Err(io::Error::new(ErrorKind::InvalidData, format!("a file has at most {most} bytes")));
    }
    Ok(file)
}

/// What is written is fed: `io::copy` brings a line or a file here. Its rows are taken in between or at the end, after
/// [`StripReader::close`].
///
/// ```
/// use faxpages::{Coding, StripForm, StripReader};
/// let mut reader = StripReader::new(StripForm { rows: Some(2), ..StripForm::new(8, Coding::Mmr) });
/// std::io::copy(&mut &[0x2F, 0xF8][..], &mut reader)?;
/// assert_eq!(reader.next_row().unwrap().unwrap().runs(), [2, 2, 4]);
/// # Ok::<(), std::io::Error>(())
/// ```
impl Write for StripReader {
    fn write(&mut self, bytes: &[u8]) -> io::Result<usize> {
        self.feed(bytes);
        Ok(bytes.len())
    }

    fn flush(&mut self) -> io::Result<()> {
        Ok(())
    }
}

impl Writer {
    /// Writes the file, as [`Writer::finish`] has it, all of it or up to an error of what it is written to.
    ///
    /// # Errors
    ///
    /// That of [`Writer::finish`], before anything is written, or those of `out`.
    ///
    /// ```
    /// use faxpages::{Coding, Form, Writer};
    /// let mut writer = Writer::new(1)?;
    /// writer.add(&Form::new(8, 1, Coding::Mmr), None, &[0x18], 1)?;
    /// let mut out = Vec::new(); // or std::fs::File::create("fax.tif")?
    /// writer.write_to(&mut out)?;
    /// assert!(out.starts_with(b"II*\0"));
    /// # Ok::<(), std::io::Error>(())
    /// ```
    pub fn write_to(self, mut out: impl Write) -> io::Result<()> {
        out.write_all(&self.finish()?)
    }
}

/// So that `?` takes both where files are read and written. The text is that of the error.
impl From<Error> for io::Error {
    fn from(error: Error) -> Self {
        let kind = match error {
            Error::Memory => ErrorKind::OutOfMemory,
            Error::Invalid(_) | Error::Outside | Error::NotACursor | Error::NoRoom => ErrorKind::InvalidInput,
            _ => ErrorKind::InvalidData,
        };
        io::Error::new(kind, error)
    }
}

#[cfg(test)]
mod tests {
    use super::read_at_most;
    use crate::{Error, Fault, Invalid, Writer};
    use std::io::{self, ErrorKind};

    #[test]
    fn a_file_has_so_many_bytes_at_most() {
        assert_eq!(read_at_most(4, &[1, 2, 3, 4][..]).unwrap(), [1, 2, 3, 4]);
        let refused = read_at_most(4, io::repeat(0)).unwrap_err();
        assert_eq!((refused.kind(), refused.to_string()), (ErrorKind::InvalidData, "a file has at most 4 bytes".to_string()));
    }

    #[test]
    fn errors_are_of_a_kind_and_keep_their_text() {
        let fault = Error::Fault { page: 1, row: 2, fault: Fault::DataEnds };
        for (error, kind) in [
            (Error::Memory, ErrorKind::OutOfMemory),
            (Invalid::K.into(), ErrorKind::InvalidInput),
            (Error::Outside, ErrorKind::InvalidInput),
            (fault, ErrorKind::InvalidData),
            (Error::UnknownInput, ErrorKind::InvalidData),
        ] {
            let made = io::Error::from(error.clone());
            assert_eq!((made.kind(), made.to_string()), (kind, error.to_string()));
            assert_eq!(made.get_ref().and_then(|inner| inner.downcast_ref()), Some(&error));
        }
        let mut out = Vec::new();
        let refused = Writer::new(1).unwrap().write_to(&mut out).unwrap_err();
        assert_eq!((refused.kind(), out.len()), (ErrorKind::InvalidInput, 0));
    }
}
