//! Calls of `fax_walk`: walks, cursors, conversions and reports.

use crate::files::fault_name;
use crate::table::WrongLine;
use crate::{text, words};
use fax_walk::{
    check, check_received, convert, ConvertFault, Cursor, ImageConversion, LongCursor, NoteKind, Options, Pages, Report,
    Target, Walk, WalkFault,
};
use kit_std::alloc::Global;

/// In pieces of so many bytes images come, where they are not too many pieces.
const PIECES: [usize; 4] = [1, 2, 7, 65_536];
const MOST_PIECES: usize = 3_000;

/// A text as the libraries append to it.
type Text = kit_std::alloc::String;

/// What a call of this file answers, or `None` where it has none of that name.
pub fn answer(words: &[&str]) -> Result<Option<String>, WrongLine> {
    let answer = match *words {
        ["walk", begun, calls, file] => rows(begun, calls, file)?,
        ["count", file] => counted(file)?,
        ["pages", calls, file] => pages(calls, file)?,
        ["cursor", text] => cursor(text)?,
        ["cursor_text", page, row] => cursor_text(page, row)?,
        ["long_cursor", text] => long_cursor(text)?,
        ["check", file] => report_text(&check(Global, &words::bytes(file)?)?)?,
        ["check_received", file] => report_text(&check_received(Global, &words::bytes(file)?)?)?,
        ["convert", target, order, k, strip, aligned, bytes] => {
            let options = options(target, order, k, strip, aligned)?;
            converted(&words::bytes(bytes)?, &options)?
        }
        ["there_and_back", target, order, k, strip, aligned, bytes] => {
            let options = options(target, order, k, strip, aligned)?;
            there_and_back(&words::bytes(bytes)?, &options)?
        }
        _ => return Ok(None),
    };
    Ok(Some(answer))
}

/// The walk over a file from its start or from a cursor on.
fn begin<'a>(file: &'a [u8], begun: &str) -> Result<Walk<'a>, WrongLine> {
    if begun == "start" {
        return Ok(Walk::start(Global, file));
    }
    if begun.starts_with("2:") {
        let place = LongCursor::parse(Global, begun).map_err(|_| WrongLine::BadWord)?;
        return Ok(Walk::resume_long(Global, file, place));
    }
    let cursor = Cursor::parse(begun).map_err(|_| WrongLine::BadWord)?;
    Ok(Walk::resume(Global, file, cursor))
}

/// What a fault of a walk is.
fn fault_text(fault: WalkFault) -> Result<String, WrongLine> {
    match fault {
        WalkFault::Memory => Err(WrongLine::Memory),
        WalkFault::CursorOutside => Ok("CursorOutside".to_owned()),
        WalkFault::AtRow { page, row, cause } => Ok(format!("{page}:{row}:{}", fault_name(cause))),
    }
}

/// What the next call of a walk answers.
fn next_row(walk: &mut Walk) -> Result<String, WrongLine> {
    match walk.next_row() {
        Ok(Some((place, row))) => {
            let runs = text::runs(row)?;
            Ok(format!("{}:{}:{runs}", place.page, place.row))
        }
        Ok(None) => Ok("end".to_owned()),
        Err(fault) => fault_text(fault),
    }
}

/// A text, and the cursor's text that is put after it.
fn with_cursor(before: &str, cursor: &Cursor) -> Result<String, WrongLine> {
    let mut text = Text::from_str(Global, before)?;
    cursor.put_text(&mut text)?;
    Ok(text.as_str().to_owned())
}

/// A text, and the long cursor's text that is put after it.
fn with_long_cursor(before: &str, cursor: &LongCursor) -> Result<String, WrongLine> {
    let mut text = Text::from_str(Global, before)?;
    cursor.put_text(&mut text)?;
    Ok(text.as_str().to_owned())
}

/// The cursors after what a walk has handed out, and how many rows it has read.
fn place_of(walk: &Walk) -> Result<String, WrongLine> {
    let text = with_cursor("next ", &walk.cursor())? + " ";
    let text = match walk.long_cursor(Global)? {
        Some(place) => with_long_cursor(&text, &place)?,
        None => text + "-",
    };
    Ok(format!("{text} read {}", walk.rows_read()))
}

/// What so many calls of a walk answer, and where it stands before them and after them.
fn rows(begun: &str, calls: &str, file: &str) -> Result<String, WrongLine> {
    let file = words::bytes(file)?;
    let mut walk = begin(&file, begun)?;
    let mut text = place_of(&walk)?;
    for _ in 0..words::number(calls)? {
        text.push(' ');
        text.push_str(&next_row(&mut walk)?);
    }
    text.push(' ');
    text.push_str(&place_of(&walk)?);
    Ok(text)
}

/// How many rows a walk hands out one after another on the first page, and where it stands then.
fn counted(file: &str) -> Result<String, WrongLine> {
    let file = words::bytes(file)?;
    let mut walk = Walk::start(Global, &file);
    let mut count: u32 = 0;
    for due in 0..u32::MAX {
        match walk.next_row() {
            Ok(Some((place, _))) if place.page == 0 && place.row == due => {
                count = count.saturating_add(1);
            }
            _ => break,
        }
    }
    Ok(format!("{count} {}", place_of(&walk)?))
}

/// What the next call of a reader of pages answers.
fn next_page(pages: &mut Pages) -> Result<String, WrongLine> {
    match pages.next_page() {
        Ok(Some((page, form))) => Ok(format!("{page}:{}", text::form(&form))),
        Ok(None) => Ok("end".to_owned()),
        Err(fault) => fault_text(fault),
    }
}

/// What so many calls of a reader of pages answer, and its cursor after them.
fn pages(calls: &str, file: &str) -> Result<String, WrongLine> {
    let file = words::bytes(file)?;
    let mut pages = Pages::start(&file);
    let mut text = String::new();
    for _ in 0..words::number(calls)? {
        text.push_str(&next_page(&mut pages)?);
        text.push(' ');
    }
    with_cursor(&text, &pages.cursor())
}

/// The cursor of a text.
fn cursor(text: &str) -> Result<String, WrongLine> {
    Ok(format!("{:?}", Cursor::parse(text)))
}

/// The text of a cursor, after another text.
fn cursor_text(page: &str, row: &str) -> Result<String, WrongLine> {
    let cursor = Cursor {
        page: words::number(page)?,
        row: words::number(row)?,
    };
    with_cursor("next ", &cursor)
}

/// The long cursor of a text, and its text; `-` stands for none.
fn long_cursor(word: &str) -> Result<String, WrongLine> {
    let word = if word == "-" { "" } else { word };
    match LongCursor::parse(Global, word) {
        Ok(place) => with_long_cursor(&format!("{place:?} "), &place),
        Err(fault) => Ok(format!("{fault:?}")),
    }
}

/// The report of a check.
fn report_text(report: &Report) -> Result<String, WrongLine> {
    let mut text = format!("pages {} rows {}", report.pages, report.rows);
    for note in report.notes.iter() {
        let number = note.kind.number();
        let name = note.kind.name();
        text.push_str(&format!(" {}:{:?}:{number}:{name}", note.page, note.strip));
        if let NoteKind::BadFaxLines(counts) = note.kind {
            let numbers = [counts.bad_rows, counts.clean, counts.consecutive];
            text.push_str(&format!(":{numbers:?}").replace(", ", ","));
        }
    }
    if let Some((place, cause)) = report.fault {
        let name = fault_name(cause);
        text.push_str(&format!(" fault {}:{}:{name}", place.page, place.row));
    }
    Ok(text)
}

fn target(word: &str) -> Result<Target, WrongLine> {
    match word {
        "pbm" => Ok(Target::Pbm),
        "mh" => Ok(Target::Mh),
        "mr" => Ok(Target::Mr),
        "mmr" => Ok(Target::Mmr),
        _ => Err(WrongLine::BadWord),
    }
}

/// The rows of a strip, or none where a page is one strip.
fn rows_of_strip(word: &str) -> Result<Option<u32>, WrongLine> {
    if word == "whole" {
        return Ok(None);
    }
    Ok(Some(words::number(word)?.max(1)))
}

/// How a file is written.
fn options(
    to: &str,
    order: &str,
    k: &str,
    strip: &str,
    aligned: &str,
) -> Result<Options, WrongLine> {
    let target = target(to)?;
    let order = words::order(order)?;
    let k = words::number(k)?.max(1);
    let strip = rows_of_strip(strip)?;
    let aligned = words::alignment(aligned)?;
    if aligned && matches!(target, Target::Pbm | Target::Mmr) {
        return Err(WrongLine::OutOfLimits);
    }
    Ok(Options {
        target,
        order,
        k,
        strip,
        aligned,
    })
}

/// The bytes of an answer, or the fault.
fn conversion_text(answer: Result<&[u8], ConvertFault>) -> Result<String, WrongLine> {
    match answer {
        Ok(file) => Ok(text::digits(file)),
        Err(ConvertFault::Memory) => Err(WrongLine::Memory),
        Err(fault) => Ok(format!("{fault:?}")),
    }
}

/// What images become that come in pieces of so many bytes.
fn in_pieces(bytes: &[u8], options: &Options, piece: usize) -> Result<Vec<u8>, ConvertFault> {
    let mut conversion = ImageConversion::new(Global, *options)?;
    let (mut held, mut file) = (Vec::new(), Vec::new());
    for part in bytes.chunks(piece) {
        held.extend_from_slice(part);
        let taken = conversion.take_images(&held)?;
        held.drain(..taken);
    }
    let output = conversion.finish(&held)?;
    let mut left = output.parts();
    while let Some(part) = left.next_part() {
        file.extend_from_slice(part.held);
        file.resize(file.len() + part.zeros, 0);
    }
    Ok(file)
}

/// The bytes that a file is converted to, or the fault. Images that come in pieces become the same.
fn converted(bytes: &[u8], options: &Options) -> Result<String, WrongLine> {
    let file = convert(Global, bytes, options);
    let whole = conversion_text(file.as_ref().map(|file| &file[..]).map_err(|fault| *fault))?;
    if bytes.starts_with(b"P4") {
        for piece in PIECES.into_iter().filter(|piece| bytes.len() / piece < MOST_PIECES) {
            let file = in_pieces(bytes, options, piece);
            let other = conversion_text(file.as_ref().map(|file| &file[..]).map_err(|fault| *fault))?;
            if other != whole {
                return Ok(format!("{other} in pieces of {piece}"));
            }
        }
    }
    Ok(whole)
}

/// The images that a file is converted to which images were converted to.
fn there_and_back(bytes: &[u8], options: &Options) -> Result<String, WrongLine> {
    let file = convert(Global, bytes, options).map_err(|_| WrongLine::OutOfLimits)?;
    let back = Options {
        target: Target::Pbm,
        order: options.order,
        k: 1,
        strip: None,
        aligned: false,
    };
    converted(&file, &back)
}
