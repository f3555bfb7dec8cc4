//! Receives a page as it comes on a line, and writes it as a TIFF-F file: receive WIDTH FILE <data
//!
//! The data is MR (T.4, two-dimensional), the lowest bit of a byte first, of rows of WIDTH pels, up to its return to
//! control or to where it ends. Rows are read as they come. What was received before a fault is written too, and the
//! status is then 1. A file that is there is left.
use faxpages::{Coding, FillOrder, Form, StripForm, StripReader, Writer};
use std::error::Error;
use std::fs::OpenOptions;
use std::io::{Read, Write};
use std::{env, io, process};

/// Reads rows from a line, up to its end or its fault: their packed bytes, and the fault.
fn receive(line: &mut impl Read, width: u32) -> io::Result<(Vec<u8>, Option<faxpages::Error>)> {
    let form = StripForm { order: FillOrder::LsbFirst, ..StripForm::new(width, Coding::Mr) };
    let (mut reader, mut raster, mut piece) = (StripReader::new(form), Vec::new(), [0; 256]);
    while !reader.is_ended() {
        match line.read(&mut piece)? {
            0 => reader.close(),
            count => reader.feed(&piece[..count]),
        }
        while let Some(Ok(row)) = reader.next_row() {
            raster.extend(row.packed);
        }
    }
    Ok((raster, reader.error().cloned()))
}

fn main() -> Result<(), Box<dyn Error>> {
    let mut words = env::args_os().skip(1);
    let (Some(width), Some(file)) = (words.next().and_then(|word| word.to_str()?.parse().ok()), words.next()) else {
        return Err("usage: receive WIDTH FILE <data".into());
    };
    let (raster, fault) = receive(&mut io::stdin().lock(), width)?;
    let mut form = Form::new(width, 0, Coding::Mmr);
    form.rows = (raster.len() / form.stride().max(1)).try_into()?;
    if form.rows > 0 {
        let mut writer = Writer::new(1)?;
        writer.add(&form, 1, &raster, form.stride())?;
        OpenOptions::new().write(true).create_new(true).open(file)?.write_all(&writer.finish()?)?;
    }
    if let Some(fault) = fault {
        eprintln!("{} rows, then {fault}", form.rows);
        process::exit(1);
    }
    Ok(())
}
