//! Prints a file's rows as `faxpages rows` does, by the crate for Rust: cursors HOW FILE.
//!
//! HOW is `rows`, `runs` or `changes`, all of them by one iterator; `pages`, by whole pages, and the damaged one up to
//! its fault; `numbers`, the same by their numbers; `buffers`, by pages in a buffer; `batches`, a few at a time by
//! cursors that went through their text; `stops`, by iterators that are left inside what they have read ahead;
//! `places`, the rows and the cursors after them; or `wrong`, where nothing is printed, and what is out of range has to
//! be refused.
use faxpages::{
    convert, Cursor, Error, Fax, Form, Invalid, Options, Page, Pages, Report, Row, RowChanges, RowRuns, Rows, Target,
};
use std::process::exit;

type Line = Result<(u32, u32, Vec<u32>), Error>;

fn of_row(row: Result<Row, Error>) -> Line {
    row.map(|row| {
        let pels: Vec<_> = (0..row.width).map(|pel| row.pel(pel)).collect();
        assert!(pels.iter().zip(0..).all(|(pel, number)| *pel == Some(row.is_black(number))));
        (row.page, row.number, row.runs())
    })
}

fn of_runs(row: Result<RowRuns, Error>) -> Line {
    row.map(|row| {
        assert_eq!(row.runs.iter().sum::<u32>(), row.width);
        (row.page, row.number, row.runs)
    })
}

fn of_changes(row: Result<RowChanges, Error>) -> Line {
    row.map(|row| {
        let begins = [0].iter().chain(&row.changes);
        let ends = row.changes.iter().chain([&row.width]);
        (row.page, row.number, ends.zip(begins).map(|(end, begin)| end - begin).collect())
    })
}

/// The rows of a page, and the fault after them.
fn of_page(page: Page) -> Vec<Line> {
    let (number, width) = (page.form.page, page.form.width);
    assert_eq!(page.rows().len() as u32 + page.lost(), page.form.rows);
    assert_eq!((page.fault.is_none(), page.row(page.form.rows)), (page.lost() == 0, None));
    let rows = page.rows().zip(0..);
    let rows = rows.map(|(packed, row)| Ok(Row { page: number, number: row, width, packed: packed.to_vec() }));
    rows.map(of_row).chain(page.fault.clone().map(Err)).collect()
}

/// Rows by whole pages, and those of the damaged one up to its fault.
fn pages(fax: Fax<'_>) -> Vec<Line> {
    let (mut lines, mut number) = (Vec::new(), 0);
    for page in fax.pages() {
        let page = match page {
            Ok(page) => {
                assert_eq!(fax.page(number), Ok(page.clone()));
                page
            }
            Err(error) => {
                assert_eq!(fax.page(number), Err(error.clone()));
                match fax.partial_page(number) {
                    Ok(page) => {
                        assert_eq!(page.fault, Some(error));
                        page
                    }
                    Err(other) => {
                        assert_eq!(other, error);
                        return lines.into_iter().chain([Err(error)]).collect();
                    }
                }
            }
        };
        lines.extend(of_page(page));
        number += 1;
    }
    lines
}

/// The same by their numbers.
fn numbers(fax: Fax<'_>) -> Vec<Line> {
    let mut lines = Vec::new();
    for number in 0.. {
        match fax.partial_page(number) {
            Ok(page) => {
                assert_eq!(fax.form(number), Ok(page.form));
                lines.extend(of_page(page));
            }
            Err(Error::Outside) => break,
            Err(error) => lines.push(Err(error)),
        }
        if matches!(lines.last(), Some(Err(_))) {
            break;
        }
    }
    lines
}

/// The same by a buffer, with bytes after each row.
fn buffers(fax: Fax<'_>) -> Vec<Line> {
    let mut lines = Vec::new();
    for form in fax.forms() {
        let form = match form {
            Ok(form) => form,
            Err(error) => {
                lines.push(Err(error));
                break;
            }
        };
        let Form { page, width, rows, .. } = form;
        let (packed, stride) = (form.stride(), form.stride() + 3);
        let mut out = vec![0xA5; rows as usize * stride + 2];
        let filled = fax.page_into(page, &mut out, stride).unwrap();
        assert_eq!((filled.form, filled.stopped.is_none()), (form, filled.rows == rows as usize));
        assert!(out[filled.rows * stride..].iter().all(|byte| *byte == 0xA5));
        for (row, number) in out.chunks_exact(stride).take(filled.rows).zip(0..) {
            assert_eq!(row[packed..], [0; 3]);
            lines.push(of_row(Ok(Row { page, number, width, packed: row[..packed].to_vec() })));
        }
        let few = fax.page_into(page, &mut out[..stride], stride).unwrap();
        assert_eq!(few.rows, filled.rows.min(1));
        let none = fax.page_into(page, &mut [], stride).unwrap();
        assert!(none.stopped == Some(Error::NoRoom) || filled.rows == 0 && none.stopped == filled.stopped);
        lines.extend(filled.stopped.map(Err));
        if matches!(lines.last(), Some(Err(_))) {
            break;
        }
    }
    lines
}

/// Rows by batches of one to five, of the three formats in turn, each after the cursor of the one before.
fn batches(fax: Fax<'_>) -> impl Iterator<Item = Line> + '_ {
    let (mut cursor, mut round, mut ended) = (Cursor::default(), 0, false);
    std::iter::from_fn(move || {
        round += 1;
        let again: Cursor = cursor.to_string().parse().unwrap();
        assert_eq!(again, cursor);
        let read = match round % 3 {
            0 => fax.read_rows(&again, round % 5 + 1).map(|(rows, after)| (of_all(rows, of_row), after)),
            1 => fax.read_runs(&again, round % 5 + 1).map(|(rows, after)| (of_all(rows, of_runs), after)),
            _ => fax.read_changes(&again, round % 5 + 1).map(|(rows, after)| (of_all(rows, of_changes), after)),
        };
        match read {
            _ if ended => None,
            Ok((lines, after)) => {
                cursor = after;
                (!lines.is_empty()).then_some(lines)
            }
            Err(error) => {
                ended = true;
                Some(vec![Err(error)])
            }
        }
    })
    .flatten()
}

fn of_all<T>(rows: Vec<T>, line: fn(Result<T, Error>) -> Line) -> Vec<Line> {
    rows.into_iter().map(Ok).map(line).collect()
}

/// Rows by iterators that each hand out some, and leave the rest to the next one.
fn stops(fax: Fax<'_>) -> impl Iterator<Item = Line> + '_ {
    let (mut rows, mut left) = (fax.runs(), 0);
    let mut most = 0;
    std::iter::from_fn(move || {
        if left == 0 {
            most = most % 4 + 1;
            (rows, left) = (fax.runs_at(&rows.cursor()), most);
        }
        left -= 1;
        rows.next().map(of_runs)
    })
}

/// Each row, and the cursor after it, by one iterator, by batches of one, and by one that is asked each time.
fn places(fax: Fax<'_>) {
    let (mut rows, mut cursor) = (fax.rows(), Cursor::default());
    while let Some(Ok(row)) = rows.next() {
        let (one, after) = fax.read_rows(&cursor, 1).unwrap();
        assert_eq!((&one, &rows.cursor()), (&vec![row.clone()], &after));
        let again = Cursor::inside_strip(after.page(), after.row(), after.bits(), after.runs()).unwrap();
        assert_eq!((&again, again.is_inside_strip()), (&after, !after.runs().is_empty()));
        println!("row {} {}\nnext {after}", row.page, row.number);
        cursor = after;
    }
}

fn shared<T: Send + Sync>() {}

fn wrong(fax: Fax<'_>) {
    let cursors = ["", "1:0", "1:00:0", "1:-1:0", "1:0:4294967296", "2:0:1:1:", "2:0:1:4294967296:8", "1:0:0 ", "é"];
    for text in cursors.map(String::from).into_iter().chain([format!("2:0:1:1:{}1", "1,".repeat(70_000))]) {
        assert_eq!(text.parse::<Cursor>(), Err(Error::NotACursor), "{text:.30}");
    }
    assert_eq!(Cursor::inside_strip(0, 1, 5, &vec![1; 65_537]), Err(Error::NotACursor));
    assert_eq!(Cursor::inside_strip(0, 1, 5, &[]), Ok(Cursor::new(0, 1)));
    let long = Cursor::inside_strip(u32::MAX, u32::MAX, u32::MAX, &vec![u32::MAX; 65_536]).unwrap();
    assert!(long.to_string().starts_with("2:4294967295:4294967295:4294967295:4294967295,"));
    for cursor in [long, Cursor::new(u32::MAX, 0), Cursor::inside_strip(0, 1, 5, &[8; 65_536]).unwrap()] {
        assert!(matches!(fax.read_runs(&cursor, 3), Err(Error::Outside | Error::Fault { .. })), "{cursor:.30}");
        assert!(matches!(fax.rows_at(&cursor).next(), Some(Err(_))), "{cursor:.30}");
    }
    assert_eq!(fax.read_rows(&Cursor::new(0, 0), 0), Ok((Vec::new(), Cursor::default())));
    assert_eq!(fax.rows_from(u32::MAX, 0).collect::<Vec<_>>(), [Err(Error::Outside)]);
    assert_eq!(fax.forms_from(u32::MAX).collect::<Vec<_>>(), [Err(Error::Outside)]);
    let forms: Vec<_> = fax.forms().collect();
    assert_eq!(fax.forms_from(1).collect::<Vec<_>>(), forms[1..]);
    assert_eq!(fax.page(u32::MAX), Err(Error::Outside));
    assert_eq!(fax.page_into(u32::MAX, &mut [], 0), Err(Error::Outside));
    assert!(fax.form(forms.len() as u32).is_err());
    let row = Row { page: 0, number: 0, width: 70_000, packed: vec![0xF0] };
    assert_eq!((row.pel(7), row.pel(8), row.pel(u32::MAX), row.runs()), (Some(false), None, None, vec![0, 4, 69_996]));
    let mut options = Options::new(Target::Mmr);
    options.k = 0;
    assert_eq!(fax.convert(&options), Err(Invalid::K.into()));
    (options.k, options.aligned) = (1, true);
    assert_eq!(fax.convert(&options), Err(Invalid::Aligned.into()));
    (options.strip, options.aligned) = (Some(0), false);
    assert_eq!(fax.convert(&options), Err(Invalid::StripRows.into()));
    assert_eq!(convert(b"GIF", &Options::new(Target::Pbm)), Err(Error::UnknownInput));
    assert_eq!(Fax::new(b"").rows().count() + Fax::new(b"").forms().count() + Fax::new(b"").pages().count(), 3);
    shared::<(Fax<'_>, Page, Pages<'_>, Cursor, Form, Report, Error)>();
    shared::<(Rows<'_>, Rows<'_, RowRuns>, Rows<'_, RowChanges>)>();
}

fn print(lines: impl Iterator<Item = Line>) {
    let (mut page, mut due) = (0, 0);
    for line in lines {
        match line {
            Ok((at, number, runs)) => {
                let runs: Vec<_> = runs.iter().map(u32::to_string).collect();
                println!("row {at} {number} {}", runs.join(" "));
                (page, due) = (at, number + 1);
            }
            Err(error @ Error::Fault { .. }) => {
                println!("next 1:{page}:{due}");
                eprintln!("fault {error}");
                exit(1);
            }
            Err(error) => {
                eprintln!("{error}");
                exit(3);
            }
        }
    }
    println!("end");
}

fn main() {
    let words: Vec<_> = std::env::args().skip(1).collect();
    let file = std::fs::read(&words[1]).unwrap();
    let fax = Fax::new(&file);
    match words[0].as_str() {
        "rows" => print(fax.rows().map(of_row)),
        "runs" => print(fax.runs().map(of_runs)),
        "changes" => print(fax.changes().map(of_changes)),
        "pages" => print(pages(fax).into_iter()),
        "numbers" => print(numbers(fax).into_iter()),
        "buffers" => print(buffers(fax).into_iter()),
        "batches" => print(batches(fax)),
        "stops" => print(stops(fax)),
        "places" => places(fax),
        _ => wrong(fax),
    }
}
