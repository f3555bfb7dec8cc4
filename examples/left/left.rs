//! Prints the rows of a fax that are found and those that are lost, and writes a copy in MMR: left FAX.tif COPY.tif
use faxpages::{Coding, Fax, Left, Writer};

fn main() -> Result<(), Box<dyn std::error::Error>> {
    let names: Vec<String> = std::env::args().collect();
    let (bytes, mut copy) = (std::fs::read(&names[1])?, Writer::uncounted()?);
    let fax = Fax::new(&bytes);
    for form in fax.forms() {
        let page = form?.page;
        for left in fax.salvaged_rows(page)? {
            match left? {
                Left::Row(row) => println!("row {} {}", row.page, row.number),
                Left::Lost(lost) => println!("lost {page} {} {} {}", lost.first, lost.rows, lost.fault),
            }
        }
        copy.add_salvaged(&fax.salvaged(page)?, Coding::Mmr)?;
    }
    Ok(copy.write_to(std::fs::File::create(&names[2])?)?)
}
