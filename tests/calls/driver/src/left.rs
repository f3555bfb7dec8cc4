//! Calls of `fax_walk` for what is left of damaged pages and strips.

use crate::files::fault_name;
use crate::table::WrongLine;
use crate::{strips, text, words};
use fax_files::Cause;
use fax_page::{PlaceFault, ReferenceRow};
use fax_walk::{DamagedPage, SalvagedPart, Row, RowsFrom, SalvagedRows, Salvage, SalvageItem};
use kit_std::alloc::Global;

/// What a call of this file answers, or `None` where it has none of that name.
pub fn answer(words: &[&str]) -> Result<Option<String>, WrongLine> {
    let answer = match *words {
        ["salvage", calls, file] => salvaged(calls, file)?,
        ["left_page", page, file] => left_of_page(page, file)?,
        ["received_page", page, file] => received(page, file)?,
        ["left_from", page, row, bits, runs, file] => {
            left_from_place(page, row, words::number(bits)?, runs, file)?
        }
        ["left_strip", coding, order, size, bytes] => left_of_strip(coding, order, size, bytes)?,
        ["left_uncounted", coding, order, width, bytes] => {
            left_uncounted(coding, order, width, bytes)?
        }
        _ => return Ok(None),
    };
    Ok(Some(answer))
}

/// What is handed out of a file.
fn item(item: SalvageItem, row: Option<&Row>) -> Result<String, WrongLine> {
    match item {
        SalvageItem::Row(place) => {
            let Some(row) = row else {
                return Err(WrongLine::BadWord);
            };
            let runs = text::runs(row)?;
            Ok(format!("{}:{}:{runs}", place.page, place.row))
        }
        SalvageItem::Lost(stretch) => {
            let name = fault_name(stretch.cause);
            Ok(format!(
                "{}:{}+{}:{name}",
                stretch.page, stretch.row, stretch.rows
            ))
        }
        SalvageItem::Refused { page, fault } => {
            let name = fault_name(Cause::File(fault));
            Ok(format!("{page}:{name}"))
        }
    }
}

/// What so many calls of a salvage answer, and whether the file is whole so far.
fn salvaged(calls: &str, file: &str) -> Result<String, WrongLine> {
    let file = words::bytes(file)?;
    let mut salvage = Salvage::begin(Global, &file);
    let mut text = String::new();
    for _ in 0..words::number(calls)? {
        match salvage.next_item()? {
            Some(found) => text.push_str(&item(found, salvage.row())?),
            None => text.push_str("end"),
        }
        text.push(' ');
    }
    text.push_str(if salvage.is_whole() {
        "whole"
    } else {
        "damaged"
    });
    Ok(text)
}

/// What is left, part after part.
fn parts(left: &mut SalvagedRows, most: u32) -> Result<String, WrongLine> {
    let mut text = String::new();
    for _ in 0..most {
        let Some(part) = left.next_part() else {
            break;
        };
        match part {
            SalvagedPart::Found => text.push_str(&text::runs(left.row())?),
            SalvagedPart::Lost { rows, cause } => {
                let name = fault_name(cause);
                text.push_str(&format!("lost:{rows}:{name}"));
            }
        }
        text.push(' ');
    }
    Ok(text)
}

/// What is left of a page by its number, with the page's size.
fn left_of_page(page: &str, file: &str) -> Result<String, WrongLine> {
    let file = words::bytes(file)?;
    let found = match DamagedPage::at(&file, words::number(page)?) {
        Ok(found) => found,
        Err(end) => return Ok(format!("{end:?}")),
    };
    let form = found.form();
    let mut left = found.rows(Global)?;
    let text = parts(&mut left, form.rows.saturating_add(1))?;
    Ok(format!("{}x{} {text}", form.width, form.rows))
}

/// What the receiver of a page counted of bad rows, by the page's number.
fn received(page: &str, file: &str) -> Result<String, WrongLine> {
    let file = words::bytes(file)?;
    match DamagedPage::at(&file, words::number(page)?) {
        Ok(found) => Ok(text::received(&found.received())),
        Err(end) => Ok(format!("{end:?}")),
    }
}

/// What is left, part after part, and after each row that is found the bits before the next one, where that
/// stands inside the strip.
fn parts_from(left: &mut RowsFrom, most: u32) -> Result<String, WrongLine> {
    let mut text = String::new();
    for _ in 0..most {
        let Some(part) = left.next_part() else {
            break;
        };
        match part {
            SalvagedPart::Found => {
                text.push_str(&text::runs(left.row())?);
                if let Some(place) = left.place() {
                    text.push_str(&format!("@{}", place.bits));
                }
            }
            SalvagedPart::Lost { rows, cause } => {
                let name = fault_name(cause);
                text.push_str(&format!("lost:{rows}:{name}"));
            }
        }
        text.push(' ');
    }
    Ok(text)
}

/// What is left of a page from a place on, after a row with these runs, or after none.
fn left_from_place(
    page: &str,
    row: &str,
    bits: u32,
    runs: &str,
    file: &str,
) -> Result<String, WrongLine> {
    let file = words::bytes(file)?;
    if file.len() > 536_870_911 {
        return Err(WrongLine::OutOfLimits);
    }
    let found = match DamagedPage::at(&file, words::number(page)?) {
        Ok(found) => found,
        Err(end) => return Ok(format!("{end:?}")),
    };
    let form = found.form();
    let row = words::number(row)?;
    if row >= form.rows {
        return Err(WrongLine::OutOfLimits);
    }
    let runs = words::numbers(runs)?;
    let before = if runs.is_empty() {
        ReferenceRow::White
    } else {
        ReferenceRow::Runs(&runs)
    };
    match found.rows_from(Global, row, bits, before) {
        Ok(mut left) => parts_from(&mut left, form.rows),
        Err(PlaceFault::Outside) => Ok("outside".to_owned()),
        Err(PlaceFault::Memory) => Err(WrongLine::Memory),
    }
}

/// What is left of a strip whose rows are counted.
fn left_of_strip(coding: &str, order: &str, size: &str, bytes: &str) -> Result<String, WrongLine> {
    let form = strips::form(coding, order, size, "plain")?;
    let bytes = words::bytes(bytes)?;
    let mut left = SalvagedRows::of_strip(Global, &bytes, form)?;
    parts(&mut left, form.rows.saturating_add(1))
}

/// What is left of rows that nobody counted, how many they are, and how they end.
fn left_uncounted(
    coding: &str,
    order: &str,
    width: &str,
    bytes: &str,
) -> Result<String, WrongLine> {
    let size = format!("{width}x1");
    let form = strips::form(coding, order, &size, "plain")?;
    let bytes = words::bytes(bytes)?;
    let mut found = SalvagedRows::of_uncounted(Global, &bytes, form)?;
    let rows = found.rows;
    let text = parts(&mut found.rows_left, rows)?;
    Ok(format!("{text}{:?} rows {rows}", found.end))
}
