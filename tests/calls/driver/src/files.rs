//! Calls of `fax_files`: TIFF files read and written.

use crate::table::WrongLine;
use crate::{text, words};
use fax_files::{Cause, FileFault, FillOrder, PageForm, Received, Tiff, TiffWriter};
use kit_std::alloc::Global;

/// Bytes as the libraries take them.
type Bytes = kit_std::alloc::Vec<u8>;

/// What a call of this file answers, or `None` where it has none of that name.
pub fn answer(words: &[&str]) -> Result<Option<String>, WrongLine> {
    let answer = match *words {
        ["directory", file] => directory(file)?,
        ["page", file] => page(file)?,
        ["strip", file] => strip(file)?,
        ["received", file] => received(file)?,
        ["write_page", page] => written(page)?,
        ["write_pages", first, second, third] => three_written(first, second, third)?,
        ["write_large", count] => large(count)?,
        _ => return Ok(None),
    };
    Ok(Some(answer))
}

/// The name of a fault, with the tag of its field.
pub fn fault_name(cause: Cause) -> String {
    match cause.name() {
        (name, Some(tag)) => format!("{name} {tag}"),
        (name, None) => name.to_owned(),
    }
}

/// Where the first directory and the next one stand, and whether the entries are in order.
fn places_of_first(file: &[u8]) -> Result<(u32, u32, bool), FileFault> {
    let tiff = Tiff::read_header(file)?;
    let first = tiff.first();
    let directory = tiff.directory(first)?;
    Ok((first, directory.next_offset(), directory.in_order()))
}

/// The form of the first page.
fn first_page(file: &[u8]) -> Result<PageForm, FileFault> {
    let tiff = Tiff::read_header(file)?;
    tiff.directory(tiff.first())?.page()
}

/// The bytes of the first page's first strip.
fn first_strip(file: &[u8]) -> Result<&[u8], FileFault> {
    let tiff = Tiff::read_header(file)?;
    let directory = tiff.directory(tiff.first())?;
    let form = directory.page()?;
    tiff.strip(&form, &directory, 0)
}

fn directory(file: &str) -> Result<String, WrongLine> {
    let file = words::bytes(file)?;
    match places_of_first(&file) {
        Ok((first, next, true)) => Ok(format!("{first} {next} in order")),
        Ok((first, next, false)) => Ok(format!("{first} {next} out of order")),
        Err(fault) => Ok(fault_name(Cause::File(fault))),
    }
}

fn page(file: &str) -> Result<String, WrongLine> {
    let file = words::bytes(file)?;
    match first_page(&file) {
        Ok(form) => Ok(text::form(&form)),
        Err(fault) => Ok(fault_name(Cause::File(fault))),
    }
}

fn strip(file: &str) -> Result<String, WrongLine> {
    let file = words::bytes(file)?;
    match first_strip(&file) {
        Ok(bytes) => Ok(text::digits(bytes)),
        Err(fault) => Ok(fault_name(Cause::File(fault))),
    }
}

/// What the receiver of the first page counted of bad rows.
fn first_received(file: &[u8]) -> Result<Received, FileFault> {
    let tiff = Tiff::read_header(file)?;
    Ok(tiff.directory(tiff.first())?.received())
}

fn received(file: &str) -> Result<String, WrongLine> {
    let file = words::bytes(file)?;
    match first_received(&file) {
        Ok(received) => Ok(text::received(&received)),
        Err(fault) => Ok(fault_name(Cause::File(fault))),
    }
}

/// A page that is written.
struct PageToWrite {
    form: PageForm,
    strips: Vec<Bytes>,
}

/// The form of a page of one inch in which nothing is exchanged or aligned.
fn form_of(coding: &str, width: &str, rows: &str, of_strip: &str) -> Result<PageForm, WrongLine> {
    let coding = words::coding(coding)?;
    let width = words::width(width)?;
    let rows = words::number(rows)?;
    let rows_per_strip = words::number(of_strip)?;
    if rows == 0 || rows > 1_000_000 || rows_per_strip == 0 || rows_per_strip > rows {
        return Err(WrongLine::OutOfLimits);
    }
    Ok(PageForm {
        width,
        rows,
        coding,
        order: FillOrder::MsbFirst,
        aligned: false,
        exchanged: false,
        rows_per_strip,
        strips: rows.div_ceil(rows_per_strip),
        x: (204, 1),
        y: (196, 1),
        unit: 2,
    })
}

/// The strips of a word, with commas between them.
fn strips_of(word: &str) -> Result<Vec<Bytes>, WrongLine> {
    let mut strips = Vec::new();
    for strip in word.split(',') {
        let bytes = words::bytes(strip)?;
        let mut strip = Bytes::filled(Global, 0, bytes.len())?;
        strip.copy_from_slice(&bytes);
        strips.push(strip);
    }
    Ok(strips)
}

/// The page of a word: its coding, width, rows, rows of a strip, and its strips.
fn page_of(word: &str) -> Result<PageToWrite, WrongLine> {
    let words: Vec<&str> = word.split(':').collect();
    let [coding, width, rows, of_strip, strips] = *words.as_slice() else {
        return Err(WrongLine::BadWord);
    };
    let form = form_of(coding, width, rows, of_strip)?;
    let strips = strips_of(strips)?;
    if strips.len() != form.strips as usize {
        return Err(WrongLine::OutOfLimits);
    }
    Ok(PageToWrite { form, strips })
}

/// The file of one page.
fn written(page: &str) -> Result<String, WrongLine> {
    let page = page_of(page)?;
    let mut writer = TiffWriter::new(Global, 1)?;
    match writer.add_page(&page.form, &page.strips) {
        Ok(()) => Ok(text::digits(&writer.finish())),
        Err(fault) => Ok(format!("{fault:?}")),
    }
}

/// The file of three pages. One that was begun for more pages is the same.
fn three_written(first: &str, second: &str, third: &str) -> Result<String, WrongLine> {
    let file = three_of(3, first, second, third)?;
    let other = three_of(u16::MAX, first, second, third)?;
    if other != file {
        return Ok(format!("{other} where more were to come"));
    }
    Ok(file)
}

/// The file of three pages that was begun for so many.
fn three_of(pages: u16, first: &str, second: &str, third: &str) -> Result<String, WrongLine> {
    let first = page_of(first)?;
    let second = page_of(second)?;
    let third = page_of(third)?;
    let mut writer = TiffWriter::new(Global, pages)?;
    if writer.add_page(&first.form, &first.strips).is_err()
        || writer.add_page(&second.form, &second.strips).is_err()
    {
        return Err(WrongLine::OutOfLimits);
    }
    match writer.add_page(&third.form, &third.strips) {
        Ok(()) => Ok(text::digits(&writer.finish())),
        Err(fault) => Ok(format!("{fault:?}")),
    }
}

/// What the writer answers to a page whose strip has so many bytes.
fn large(count: &str) -> Result<String, WrongLine> {
    let form = form_of("mh", "8", "1", "1")?;
    let strip = Bytes::filled(Global, 0, words::number(count)? as usize)?;
    if form.strips != 1 {
        return Err(WrongLine::OutOfLimits);
    }
    let mut writer = TiffWriter::new(Global, 1)?;
    match writer.add_page(&form, &[strip]) {
        Ok(()) => Ok(format!("{} bytes", writer.finish().len())),
        Err(fault) => Ok(format!("{fault:?}")),
    }
}
