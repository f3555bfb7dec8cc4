//! Makes a picture of each page of a fax, as raw PBM: pictures FILE FOLDER writes FOLDER/page-0.pbm, page-1.pbm ..,
//! and stops at one that is there.
use std::error::Error;
use std::fs::OpenOptions;
use std::io::{BufWriter, Write};
use std::path::Path;
use std::{env, fs};

fn main() -> Result<(), Box<dyn Error>> {
    let mut words = env::args_os().skip(1);
    let (Some(file), Some(folder)) = (words.next(), words.next()) else {
        return Err("usage: pictures FILE FOLDER".into());
    };
    let bytes = fs::read(file)?;
    let fax = faxpages::Fax::new(&bytes);
    let mut rows = fax.rows();
    for form in fax.forms() {
        let form = form?;
        let name = Path::new(&folder).join(format!("page-{}.pbm", form.page));
        let mut picture = BufWriter::new(OpenOptions::new().write(true).create_new(true).open(name)?);
        write!(picture, "P4\n{} {}\n", form.width, form.rows)?;
        for row in rows.by_ref().take(form.rows as usize) {
            picture.write_all(&row?.packed)?;
        }
        picture.flush()?;
    }
    Ok(())
}
