//! Calls of `fax_files` that read and write raw PBM.

use crate::table::WrongLine;
use crate::{text, words};
use fax_files::{put_pbm_head, put_pbm_row, PbmReader};
use kit_std::alloc::{Global, Vec};

/// What a call of this file answers, or `None` where it has none of that name.
pub fn answer(words: &[&str]) -> Result<Option<String>, WrongLine> {
    let answer = match *words {
        ["next_image", bytes, calls] => images(bytes, calls)?,
        ["image_row", bytes, row] => row_of_image(bytes, row)?,
        ["put_image", row] => written(row)?,
        _ => return Ok(None),
    };
    Ok(Some(answer))
}

/// What the next image is: its size and its bytes, the end, or a fault.
fn next(reader: &mut PbmReader) -> Result<String, WrongLine> {
    match reader.next_image() {
        Ok(Some(image)) => {
            let digits = text::digits(image.raster);
            Ok(format!("{}x{}:{digits} ", image.width, image.rows))
        }
        Ok(None) => Ok("end ".to_owned()),
        Err(fault) => Ok(format!("{} ", fault.name())),
    }
}

/// What so many calls of a reader answer.
fn images(bytes: &str, calls: &str) -> Result<String, WrongLine> {
    let bytes = words::bytes(bytes)?;
    let mut reader = PbmReader::new(&bytes);
    let mut text = String::new();
    for _ in 0..words::number(calls)? {
        text.push_str(&next(&mut reader)?);
    }
    Ok(text)
}

/// The bytes of a row of the first image.
fn row_of_image(bytes: &str, row: &str) -> Result<String, WrongLine> {
    let bytes = words::bytes(bytes)?;
    let row = words::number(row)?;
    match PbmReader::new(&bytes).next_image() {
        Ok(Some(image)) if row < image.rows => Ok(text::digits(image.row(row))),
        _ => Err(WrongLine::OutOfLimits),
    }
}

/// An image of one row.
fn written(row: &str) -> Result<String, WrongLine> {
    let row = words::row(row)?;
    let mut out = Vec::new(Global);
    put_pbm_head(&mut out, row.width(), 1)?;
    put_pbm_row(&mut out, &row)?;
    Ok(text::digits(&out))
}
