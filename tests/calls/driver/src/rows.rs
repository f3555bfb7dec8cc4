//! Calls of `fax_rows`: rows read and written, and places in them.

use crate::table::WrongLine;
use crate::{text, words};
use fax_rows::{
    BitSink, BitSource, FillOrder, LongestRuns, Row, RowFault, b1_b2, first_other, put_1d, put_2d,
    read_1d, read_2d, skip_white_1d, skip_white_2d,
};
use kit_std::alloc::Global;

/// The widest rows of which all are written.
const MOST_PELS: u32 = 10;

/// What a call of this file answers, or `None` where it has none of that name.
pub fn answer(words: &[&str]) -> Result<Option<String>, WrongLine> {
    if let Some(answer) = coded(words)? {
        return Ok(Some(answer));
    }
    let answer = match *words {
        ["runs", row] => text::runs(&words::row(row)?)?,
        ["changes", row] => text::numbers(words::row(row)?.changes()),
        ["to_packed", row] => packed(&words::row(row)?)?,
        ["set_packed", row, bytes] => set(row, bytes)?,
        ["set_runs", row, runs] => set_runs(row, runs)?,
        ["has_runs", width, runs] => has_runs(width, runs)?,
        ["is_white", row] => format!("{}", words::row(row)?.is_white()),
        ["exchange", row] => exchanged(row)?,
        ["eight_ahead", row, skip] => eight_ahead(row, skip)?,
        ["next_runs", row, skip] => next_runs(row, skip)?,
        ["first_other", colour, bytes, from] => first_of(colour, bytes, from)?,
        ["first_others", colour, bytes] => first_of_each(colour, bytes)?,
        ["b1_b2", reference, a0, colour] => places(reference, a0, colour)?,
        _ => return Ok(None),
    };
    Ok(Some(answer))
}

/// What a call that reads or writes a row answers.
fn coded(words: &[&str]) -> Result<Option<String>, WrongLine> {
    let answer = match *words {
        ["read_1d", width, bits] => read_runs(width, bits)?,
        ["changes_1d", width, bits] => changes_read(width, bits)?,
        ["read_2d", reference, bits] => read_steps(reference, bits)?,
        ["take_white", dimension, row, bits] => take_white(dimension, row, bits)?,
        ["put_1d", row] => put_runs(row)?,
        ["put_2d", reference, row] => put_steps(reference, row)?,
        ["put_each", reference] => put_each(reference)?,
        _ => return Ok(None),
    };
    Ok(Some(answer))
}

/// The runs of a row that was read and the place after it, or the fault.
fn row_or_fault(read: Result<(), RowFault>, row: &Row, place: u64) -> Result<String, WrongLine> {
    match read {
        Ok(()) => Ok(format!("{} {place}", text::runs(row)?)),
        Err(fault) => Ok(format!("{fault:?}")),
    }
}

/// After one bit, which loads more: whether a row that is white as this one is was gone past, and
/// the place after it.
fn take_white(dimension: &str, row: &str, bits: &str) -> Result<String, WrongLine> {
    let row = words::row(row)?;
    let bytes = words::bytes(bits)?;
    let mut source = BitSource::new(&bytes, FillOrder::MsbFirst);
    if source.remaining() == 0 {
        return Err(WrongLine::OutOfLimits);
    }
    source.skip(1);
    let taken = match dimension {
        "1d" => skip_white_1d(&mut source, &row),
        "2d" => skip_white_2d(&mut source, &row),
        _ => return Err(WrongLine::BadWord),
    };
    Ok(format!("{taken} {}", source.place()))
}

/// A row in one-dimensional coding.
fn read_runs(width: &str, bits: &str) -> Result<String, WrongLine> {
    let mut row = Row::white(Global, words::width(width)?)?;
    let bytes = words::bytes(bits)?;
    let mut source = BitSource::new(&bytes, FillOrder::MsbFirst);
    let read = read_1d(&mut source, &mut row);
    row_or_fault(read, &row, source.place())
}

/// The changing elements of a row in one-dimensional coding.
fn changes_read(width: &str, bits: &str) -> Result<String, WrongLine> {
    let mut row = Row::white(Global, words::width(width)?)?;
    let bytes = words::bytes(bits)?;
    let mut source = BitSource::new(&bytes, FillOrder::MsbFirst);
    match read_1d(&mut source, &mut row) {
        Ok(()) => Ok(text::numbers(row.changes())),
        Err(fault) => Ok(format!("{fault:?}")),
    }
}

/// A row over a reference row.
fn read_steps(reference: &str, bits: &str) -> Result<String, WrongLine> {
    let reference = words::row(reference)?;
    let mut row = words::white(&reference)?;
    let bytes = words::bytes(bits)?;
    let mut source = BitSource::new(&bytes, FillOrder::MsbFirst);
    let read = read_2d(&mut source, &reference, &mut row);
    row_or_fault(read, &row, source.place())
}

/// The bits of a row in one-dimensional coding.
fn put_runs(row: &str) -> Result<String, WrongLine> {
    let row = words::row(row)?;
    let mut sink = BitSink::new(Global, FillOrder::MsbFirst);
    put_1d(&row, &mut sink)?;
    Ok(text::bits(sink))
}

/// The bits of a row over a reference row.
fn put_steps(reference: &str, row: &str) -> Result<String, WrongLine> {
    let reference = words::row(reference)?;
    let row = words::row(row)?;
    let mut sink = BitSink::new(Global, FillOrder::MsbFirst);
    if reference.width() != row.width() {
        return Err(WrongLine::OutOfLimits);
    }
    put_2d(&reference, &row, &mut sink)?;
    Ok(text::bits(sink))
}

/// Sees that these bytes begin with a row over a reference row, up to a place.
fn is_read_back(bytes: &[u8], reference: &Row, row: &Row, again: &mut Row, end: u64) -> bool {
    if bytes.len() > 1000 || reference.width() != again.width() {
        return false;
    }
    let mut source = BitSource::new(bytes, FillOrder::MsbFirst);
    let read = read_2d(&mut source, reference, again);
    read.is_ok() && again.changes() == row.changes() && source.place() == end
}

/// Appends the bits of a row over a reference row, and reads them back.
fn push_steps(text: &mut String, reference: &Row, row: &Row) -> Result<(), WrongLine> {
    let mut sink = BitSink::new(Global, FillOrder::MsbFirst);
    if reference.width() != row.width() {
        return Err(WrongLine::OutOfLimits);
    }
    put_2d(reference, row, &mut sink)?;
    let len = sink.len();
    sink.pad();
    let bytes = sink.into_bytes();
    text::push_bits(text, &bytes, len);
    let end = u64::try_from(len).map_err(|_| WrongLine::OutOfLimits)?;
    let mut again = words::white(reference)?;
    if !is_read_back(&bytes, reference, row, &mut again, end) {
        text.push('!');
    }
    Ok(())
}

/// The row of few pels that the highest bits of a number spell.
fn few_pels(width: u32, pels: u16) -> Result<Row, WrongLine> {
    let [first, second] = pels.to_be_bytes();
    if width > 8 {
        words::packed_row(width, &[first, second])
    } else {
        words::packed_row(width, &[first])
    }
}

/// The bits of each row over a reference row of few pels, by the number that the pels spell, with
/// a `!` after those that are not read back.
fn put_each(reference: &str) -> Result<String, WrongLine> {
    let reference = words::row(reference)?;
    let width = reference.width();
    if width > MOST_PELS {
        return Err(WrongLine::OutOfLimits);
    }
    let mut text = String::new();
    for number in 0..1u16 << width {
        let row = few_pels(width, number << (16 - width))?;
        push_steps(&mut text, &reference, &row)?;
        text.push('.');
    }
    Ok(text)
}

/// The bytes of a row.
fn packed(row: &Row) -> Result<String, WrongLine> {
    let len = row.width().div_ceil(8) as usize;
    let mut bytes = vec![0xFFu8; len];
    row.to_packed(&mut bytes);
    Ok(text::digits(&bytes))
}

/// A row that is set to the pels of these bytes.
fn set(row: &str, bytes: &str) -> Result<String, WrongLine> {
    let mut row = words::row(row)?;
    let bytes = words::bytes(bytes)?;
    if bytes.len() != row.width().div_ceil(8) as usize {
        return Err(WrongLine::OutOfLimits);
    }
    row.set_packed(&bytes);
    Ok(text::numbers(row.changes()))
}

/// A row that is set to these runs, or not.
fn set_runs(row: &str, runs: &str) -> Result<String, WrongLine> {
    let mut row = words::row(row)?;
    let set = row.set_runs(&words::numbers(runs)?);
    Ok(format!("{set} {}", packed(&row)?))
}

/// Whether a row of a width has these runs.
fn has_runs(width: &str, runs: &str) -> Result<String, WrongLine> {
    let runs = words::numbers(runs)?;
    Ok(format!("{}", Row::has_runs(&runs, words::width(width)?)))
}

/// The runs of a row whose colours are exchanged.
fn exchanged(row: &str) -> Result<String, WrongLine> {
    let mut row = words::row(row)?;
    row.exchange();
    text::runs(&row)
}

/// The runs of a row after so many.
fn runs_after<'a>(row: &'a Row, skip: &str) -> Result<LongestRuns<'a>, WrongLine> {
    let skip = words::number(skip)? as usize;
    let mut runs = LongestRuns::of_row(row);
    if skip > runs.len() {
        return Err(WrongLine::OutOfLimits);
    }
    runs.skip(skip);
    Ok(runs)
}

/// The eight runs after so many.
fn eight_ahead(row: &str, skip: &str) -> Result<String, WrongLine> {
    let row = words::row(row)?;
    Ok(format!("{:?}", runs_after(&row, skip)?.eight_ahead()))
}

/// Each run after so many.
fn next_runs(row: &str, skip: &str) -> Result<String, WrongLine> {
    let row = words::row(row)?;
    let mut runs = runs_after(&row, skip)?;
    let mut left = Vec::new();
    for _ in 0..65_537u32 {
        match runs.next_run() {
            Some(run) => left.push(run),
            None => break,
        }
    }
    Ok(text::numbers(&left))
}

/// The first pel from a place on that is not of a colour.
fn first_of(colour: &str, bytes: &str, from: &str) -> Result<String, WrongLine> {
    let colour = words::colour(colour)?;
    let bytes = words::bytes(bytes)?;
    let from = u64::from(words::number(from)?);
    if from > 8 * bytes.len() as u64 {
        return Err(WrongLine::OutOfLimits);
    }
    Ok(format!("{}", first_other(&bytes, from, colour)))
}

/// The same from each place on, up to the end.
fn first_of_each(colour: &str, bytes: &str) -> Result<String, WrongLine> {
    let colour = words::colour(colour)?;
    let bytes = words::bytes(bytes)?;
    let mut text = String::new();
    for from in 0..8 * bytes.len() as u64 + 1 {
        text.push_str(&format!("{} ", first_other(&bytes, from, colour)));
    }
    Ok(text)
}

/// The places b1 and b2, where a0 is a pel or before the first.
fn places(reference: &str, a0: &str, colour: &str) -> Result<String, WrongLine> {
    let reference = words::row(reference)?;
    let colour = words::colour(colour)?;
    let a0 = match a0 {
        "before" => None,
        place => Some(words::number(place)?),
    };
    let (b1, b2) = b1_b2(&reference, a0, colour);
    Ok(format!("{b1} {b2}"))
}
