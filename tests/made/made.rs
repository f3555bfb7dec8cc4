//! Prints the notes of a file, and how many strips a page has that is written by the option that was made.
use faxpages::{convert, Fax, NoteKind, Options, Target};

fn main() -> Result<(), Box<dyn std::error::Error>> {
    let bytes = std::fs::read(std::env::args().nth(1).ok_or("no file")?)?;
    let notes = Fax::new(&bytes).check()?.notes;
    for note in &notes {
        println!("{}", note.kind);
    }
    assert_eq!(notes.last().map(|note| note.kind), Some(NoteKind::DataAfterMark));
    let written = convert(&bytes, &Options { halves: true, ..Options::new(Target::Mh) })?;
    println!("halves: {} strips", Fax::new(&written).form(0)?.strips);
    Ok(())
}
