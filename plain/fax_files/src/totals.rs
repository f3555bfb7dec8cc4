// Made by tools/plain-rust of crates/fax_files/src/totals.rt: change that.
//! How many pages a file has that is written page by page, reported in each of them.

use crate::Endian;
use crate::numbers::File;
use crate::written::{FORM_FIELDS, after_fields};
use byteorder::{ByteOrder, LittleEndian};

/// The directory to which a link leads.
struct Linked {
    /// Its offset.
    directory: usize,
    /// Where its own link stands.
    link: usize,
}

/// The directory to which a link leads.
// requires { Spec.IsLinkToPage file.now link }
// ensures directory { result.directory ≡ number_at Little 4 file.now link }
// ensures link { result.link ≡ Spec.next_link file.now link }
fn follow(file: &[u8], link: usize) -> Linked {
    let file = File {
        bytes: file,
        endian: Endian::Little,
    };
    let directory = file.u32_at(link) as usize;
    let fields = file.u16_at(directory);
    Linked {
        directory,
        link: directory + after_fields(fields) as usize,
    }
}

/// Writes a number of two bytes at an offset.
// requires { offset + 2 ≤ length file.old }
// ensures { file.new ≡ take offset file.old ++ two n ++ drop (offset + 2) file.old }
fn set_u16(file: &mut [u8], offset: usize, n: u16) {
    LittleEndian::write_u16(&mut file[offset..offset + 2], n);
}

/// Reports each page of a file how many there are. The file is little-endian, as `TiffWriter` and
/// `write_page` write it, and has so many pages, each after the offset that leads to its directory.
/// TIFF 6.0, PageNumber: the second number, 0 where it is not known.
// requires header { 8 ≤ length file.old }
// requires pages { (last : ℕ) × Spec.ArePagesAfter file.old pages 4 last }
// ensures { file.new ≡ Spec.with_totals pages pages 4 file.old }
pub fn put_totals(file: &mut [u8], pages: u16) {
    // PageNumber is the last of the fields that each page has, and the total its second number.
    let to_total = after_fields(FORM_FIELDS) as usize - 2;
    let mut link = 4;
    for _ in 0..pages {
        let page = follow(file, link);
        set_u16(file, page.directory + to_total, pages);
        link = page.link;
    }
}
