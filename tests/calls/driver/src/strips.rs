//! Calls of `fax_page`: strips read, written and noted.

use crate::table::WrongLine;
use crate::{text, words};
use fax_page::{
    may_be_end_mark, strip_notes, Coding, NotesFault, PlaceFault, Row, ReferenceRow, SalvageReader, Salvaged,
    StripForm, StripReader, StripWriter, UncountedSalvage,
};
use fax_rows::BitSource;
use kit_std::alloc::Global;

/// What a call of this file answers, or `None` where it has none of that name.
pub fn answer(words: &[&str]) -> Result<Option<String>, WrongLine> {
    let answer = match *words {
        ["read_strip", coding, order, size, bytes] => {
            read(form(coding, order, size, "plain")?, bytes)?
        }
        ["read_rows", coding, order, size, bytes] => {
            read_rows(form(coding, order, size, "plain")?, bytes)?
        }
        ["restart", coding, rows, bytes, calls, more_rows, more] => {
            let form = form(coding, "msb", rows, "plain")?;
            restarted(form, bytes, calls, more_rows, more)?
        }
        ["restart_at", coding, rows, bytes, row, place, reference] => {
            let form = form(coding, "msb", rows, "plain")?;
            restarted_at(form, bytes, row, place, reference)?
        }
        ["inside", coding, rows, bytes, row, place, before] => {
            let form = form(coding, "msb", rows, "plain")?;
            read_inside(form, bytes, row, place, before)?
        }
        ["salvage_strip", coding, order, size, bytes] => {
            salvaged(form(coding, order, size, "plain")?, bytes)?
        }
        ["salvage_uncounted", coding, order, width, bytes] => {
            let size = format!("{width}x1");
            salvaged_uncounted(form(coding, order, &size, "plain")?, bytes)?
        }
        ["may_be_end_mark", coding, order, bytes] => may_be_mark(coding, order, bytes)?,
        ["strip_notes", coding, order, size, bytes] => {
            notes(form(coding, order, size, "plain")?, bytes)?
        }
        ["write_strip", coding, order, aligned, k, ref rows @ ..] => {
            written(coding, order, aligned, k, rows)?
        }
        _ => return Ok(None),
    };
    Ok(Some(answer))
}

/// Whether an end mark stands where these bytes begin, or may where more follow.
fn may_be_mark(coding: &str, order: &str, bytes: &str) -> Result<String, WrongLine> {
    let bytes = words::bytes(bytes)?;
    let source = BitSource::new(&bytes, words::order(order)?);
    Ok(format!("{}", may_be_end_mark(&source, words::coding(coding)?)))
}

/// The form of a strip whose size is the width, an `x` and the number of rows.
pub fn form(coding: &str, order: &str, size: &str, aligned: &str) -> Result<StripForm, WrongLine> {
    let Some((width, rows)) = size.split_once('x') else {
        return Err(WrongLine::BadWord);
    };
    let coding = words::coding(coding)?;
    let order = words::order(order)?;
    let width = words::width(width)?;
    let rows = words::number(rows)?;
    let aligned = words::alignment(aligned)?;
    if rows == 0 || rows > 1_000_000 || (aligned && matches!(coding, Coding::Mmr)) {
        return Err(WrongLine::OutOfLimits);
    }
    Ok(StripForm {
        coding,
        order,
        width,
        rows,
        aligned,
    })
}

/// What the next call of a reader answers, and how many bits stand before the row that is due then.
fn next(reader: &mut StripReader) -> Result<String, WrongLine> {
    let answer = match reader.next_row() {
        Ok(Some(row)) => text::runs(row)?,
        Ok(None) => "end".to_owned(),
        Err(fault) => format!("{fault:?}"),
    };
    Ok(format!("{answer}@{} ", reader.bit_place()))
}

/// What so many calls of a reader answer; then its reference, the number of the row that is due, and
/// how many rows it has read.
fn calls(reader: &mut StripReader, count: u32) -> Result<String, WrongLine> {
    let mut text = String::new();
    for _ in 0..count {
        text.push_str(&next(reader)?);
    }
    let reference = text::runs(reader.reference())?;
    let (row, read) = (reader.row(), reader.rows_read());
    text.push_str(&format!("over {reference} row {row} read {read}"));
    Ok(text)
}

/// The rows of a strip, and two answers more.
fn read(form: StripForm, bytes: &str) -> Result<String, WrongLine> {
    let bytes = words::bytes(bytes)?;
    let mut reader = StripReader::new(Global, &bytes, form)?;
    calls(&mut reader, form.rows.saturating_add(2))
}

/// The rows of a strip alone.
fn read_rows(form: StripForm, bytes: &str) -> Result<String, WrongLine> {
    let bytes = words::bytes(bytes)?;
    let mut reader = StripReader::new(Global, &bytes, form)?;
    let mut text = String::new();
    for _ in 0..form.rows {
        if reader.advance() != Ok(true) {
            break;
        }
        text.push_str(&text::runs(reader.reference())?);
        text.push(' ');
    }
    Ok(text)
}

/// What became of a row, and of those that are lost with it.
fn part(salvaged: Salvaged, row: &Row) -> Result<String, WrongLine> {
    Ok(match salvaged {
        Salvaged::Found => text::runs(row)?,
        Salvaged::Lost { fault, rows } => format!("lost:{rows}:{fault:?}"),
        Salvaged::Unterminated { rows } => format!("unended:{rows}"),
    })
}

/// What is left of a strip, and once more after the reader is taken to its first row again.
fn salvaged(form: StripForm, bytes: &str) -> Result<String, WrongLine> {
    let bytes = words::bytes(bytes)?;
    let mut reader = SalvageReader::new(Global, &bytes, form)?;
    let mut text = String::new();
    for turn in 0..2 {
        for _ in 0..form.rows {
            let Some(salvaged) = reader.next_salvaged() else {
                break;
            };
            text.push_str(&part(salvaged, reader.reference())?);
            text.push(' ');
        }
        text.push_str(&format!("row {}", reader.row()));
        if turn == 0 {
            reader.restart(&bytes, form.rows);
            text.push_str(" | ");
        }
    }
    Ok(text)
}

/// What is left of rows that nobody counted, and how they end; and how many they are.
fn salvaged_uncounted(form: StripForm, bytes: &str) -> Result<String, WrongLine> {
    let bytes = words::bytes(bytes)?;
    let mut reader = UncountedSalvage::new(Global, &bytes, form)?;
    let end = reader.pass_all();
    let rows = reader.row();
    reader.restart(&bytes);
    let mut text = String::new();
    for _ in 0..rows {
        let Ok(salvaged) = reader.next_salvaged() else {
            break;
        };
        text.push_str(&part(salvaged, reader.reference())?);
        text.push(' ');
    }
    Ok(format!("{text}{end:?} rows {rows}"))
}

/// The rows of a strip, as `read` answers them, that a reader is taken to after so many calls.
fn restarted(
    form: StripForm,
    bytes: &str,
    before: &str,
    rows: &str,
    more: &str,
) -> Result<String, WrongLine> {
    let before = words::number(before)?;
    let rows = words::number(rows)?;
    let bytes = words::bytes(bytes)?;
    let more = words::bytes(more)?;
    let mut reader = StripReader::new(Global, &bytes, form)?;
    let first = calls(&mut reader, before)?;
    if rows == 0 || rows > 1_000_000 {
        return Err(WrongLine::OutOfLimits);
    }
    reader.restart(&more, rows);
    let second = calls(&mut reader, rows.saturating_add(2))?;
    Ok(format!("{first} | {second}"))
}

/// The rows of a strip from one inside it on, which begins at a place, over a reference row, and
/// two answers more.
fn restarted_at(
    form: StripForm,
    bytes: &str,
    row: &str,
    place: &str,
    reference: &str,
) -> Result<String, WrongLine> {
    let row = words::number(row)?;
    let place = u64::from(words::number(place)?);
    let reference = words::row(reference)?;
    let bytes = words::bytes(bytes)?;
    let mut reader = StripReader::new(Global, &[], form)?;
    if row >= form.rows || place > 8 * bytes.len() as u64 || reference.width() != form.width {
        return Err(WrongLine::OutOfLimits);
    }
    reader.restart_at(&bytes, form.rows, row, place, &reference);
    calls(&mut reader, (form.rows - row).saturating_add(2))
}

/// The rows of a strip from a place inside it on, after this row, and two answers more; or that
/// there is no such place.
fn read_inside(
    form: StripForm,
    bytes: &str,
    row: &str,
    place: &str,
    before: &str,
) -> Result<String, WrongLine> {
    let row = words::number(row)?;
    let place = words::number(place)?;
    let runs = words::row(before)?.runs(Global)?;
    let bytes = words::bytes(bytes)?;
    if row >= form.rows {
        return Err(WrongLine::OutOfLimits);
    }
    match StripReader::inside(Global, &bytes, form, row, place, ReferenceRow::Runs(&runs)) {
        Ok(mut reader) => calls(&mut reader, (form.rows - row).saturating_add(2)),
        Err(PlaceFault::Memory) => Err(WrongLine::Memory),
        Err(PlaceFault::Outside) => Ok("outside".to_owned()),
    }
}

/// The notes on a strip, or its fault.
fn notes(form: StripForm, bytes: &str) -> Result<String, WrongLine> {
    let bytes = words::bytes(bytes)?;
    let notes = match strip_notes(Global, &bytes, form) {
        Ok(notes) => notes,
        Err(NotesFault::Memory) => return Err(WrongLine::Memory),
        Err(NotesFault::Strip { row, fault }) => {
            return Ok(format!("{fault:?} in row {row}"));
        }
    };
    let mut text = "notes".to_owned();
    for (is_noted, name) in [
        (notes.no_end_of_block, " no_end_of_block"),
        (notes.return_to_control, " return_to_control"),
        (notes.data_after_end, " data_after_end"),
        (notes.not_t4_choice, " not_t4_choice"),
    ] {
        if is_noted {
            text.push_str(name);
        }
    }
    Ok(text)
}

/// The rows of these words.
fn rows_of(words: &[&str]) -> Result<Vec<Row>, WrongLine> {
    let mut rows = Vec::new();
    for word in words {
        rows.push(words::row(word)?);
    }
    Ok(rows)
}

/// The bytes of the strip of these rows.
fn written(
    coding: &str,
    order: &str,
    aligned: &str,
    k: &str,
    words: &[&str],
) -> Result<String, WrongLine> {
    let rows = rows_of(words)?;
    let Some(first) = rows.first() else {
        return Err(WrongLine::BadWord);
    };
    let form = StripForm {
        coding: words::coding(coding)?,
        order: words::order(order)?,
        width: first.width(),
        rows: u32::try_from(rows.len()).map_err(|_| WrongLine::OutOfLimits)?,
        aligned: words::alignment(aligned)?,
    };
    let bytes = write(form, words::number(k)?, &rows)?;
    Ok(text::digits(&bytes))
}

/// The strip of these rows.
fn write(form: StripForm, k: u32, rows: &[Row]) -> Result<Vec<u8>, WrongLine> {
    if form.width == 0
        || form.width > 65_535
        || form.rows == 0
        || form.rows > 1_000_000
        || rows.len() != form.rows as usize
        || k == 0
        || (form.aligned && matches!(form.coding, Coding::Mmr))
    {
        return Err(WrongLine::OutOfLimits);
    }
    let mut writer = StripWriter::new(Global, form, k)?;
    for row in rows {
        if row.width() != form.width {
            return Err(WrongLine::OutOfLimits);
        }
        writer.put_row(row)?;
    }
    Ok(writer.finish()?.to_vec())
}
