//! Reads a page by the crate in one of its ways: crate WAY FILE STRIP [TIMES]. FILE has the page, and STRIP the bytes
//! of its strip. Prints how many runs, or packed bytes, there are, and with TIMES the least seconds of so many readings.
//!
//! The way `walk` is that of the plain crates, with which the others are compared.
use faxpages::{Error, Fax, Strip, StripForm, StripReader};
use std::time::Instant;

/// The runs that the walk of the plain crates lends.
fn walk(file: &[u8]) -> usize {
    let (mut walk, mut count) = (fax_walk::Walk::start(kit_std::alloc::Global, file), 0);
    while let Ok(Some((_, row))) = walk.next_row() {
        let mut runs = fax_rows::LongestRuns::of_row(row);
        while let Some(run) = runs.next_run() {
            count += usize::from(run < 65_536);
        }
    }
    count
}

/// The runs of rows that are lent: each is looked at.
macro_rules! lent {
    ($rows:expr) => {{
        let (mut rows, mut count) = ($rows, 0);
        while let Some(row) = rows.next()? {
            row.runs().for_each(|run| count += usize::from(run < 65_536));
        }
        count
    }};
}

/// What is counted of rows of an iterator.
macro_rules! owned {
    ($rows:expr, $row:ident => $count:expr) => {{
        let mut count = 0;
        for $row in $rows {
            let $row = $row?;
            count += $count;
        }
        count
    }};
}

/// What is counted of rows that an iterator lends in the memory of the one before.
macro_rules! kept {
    ($rows:expr, $row:ident => $count:expr) => {{
        let (mut rows, mut count) = ($rows, 0);
        while let Some($row) = rows.next_row() {
            let $row = $row?;
            count += $count;
        }
        count
    }};
}

/// The same of a strip that comes in pieces.
fn in_pieces(
    bytes: &[u8],
    form: StripForm,
    mut take: impl FnMut(&mut StripReader) -> Result<Option<usize>, Error>,
) -> Result<usize, Error> {
    let (mut reader, mut count) = (StripReader::new(form), 0);
    for piece in bytes.chunks(4096) {
        reader.feed(piece);
        while let Some(more) = take(&mut reader)? {
            count += more;
        }
    }
    reader.close();
    assert!(reader.is_ended());
    Ok(count)
}

fn count(way: &str, file: &[u8], bytes: &[u8]) -> Result<usize, Error> {
    let (fax, mut packed) = (Fax::new(file), vec![0; 8192]);
    let page = fax.form(0)?;
    let form = StripForm { order: page.order, ..StripForm::new(page.width, page.coding) };
    let strip = Strip::new(bytes, form);
    Ok(match way {
        "nothing" => 0,
        "walk" => walk(file),
        "fax.lend_rows" => lent!(fax.lend_rows()),
        "strip.lend_rows" => lent!(strip.lend_rows()),
        "fax.lend_rows.pack" => {
            let (mut rows, mut count) = (fax.lend_rows(), 0);
            while let Some(row) = rows.next()? {
                row.pack_into(&mut packed[..row.stride()]);
                count += row.stride();
            }
            count
        }
        "fax.runs" => owned!(fax.runs(), row => row.runs.len()),
        "fax.rows" => owned!(fax.rows(), row => row.packed.len()),
        "row.runs" => owned!(fax.rows(), row => row.runs().len()),
        "fax.next_row" => kept!(fax.rows(), row => row.packed.len()),
        "fax.next_row.runs" => kept!(fax.runs(), row => row.runs.len()),
        "strip.runs" => owned!(strip.runs(), row => row.runs.len()),
        "strip.row.runs" => owned!(strip.rows(), row => row.runs().len()),
        "strip.next_row" => kept!(strip.runs(), row => row.runs.len()),
        "reader.next" => in_pieces(bytes, form, |reader| Ok(reader.next()?.map(|row| row.runs().count())))?,
        "reader.next_runs" => {
            in_pieces(bytes, form, |reader| Ok(reader.next_runs().transpose()?.map(|row| row.runs.len())))?
        }
        "reader.lend_row.runs" => {
            in_pieces(bytes, form, |reader| Ok(reader.lend_row().transpose()?.map(|row| row.runs().len())))?
        }
        way => panic!("no way {way}"),
    })
}

fn main() -> Result<(), Error> {
    let words: Vec<String> = std::env::args().collect();
    let (file, bytes) = (std::fs::read(&words[2]).unwrap(), std::fs::read(&words[3]).unwrap());
    let times = words.get(4).map_or(1, |word| word.parse().unwrap());
    let mut least = f64::MAX;
    for _ in 1..times {
        let begin = Instant::now();
        count(&words[1], &file, &bytes)?;
        least = least.min(begin.elapsed().as_secs_f64());
    }
    let seconds = if times > 1 { format!(" {least}") } else { String::new() };
    println!("{}{seconds}", count(&words[1], &file, &bytes)?);
    Ok(())
}
