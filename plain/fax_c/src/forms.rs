// Made by tools/plain-rust of crates/fax_c/src/forms.rt: change that.
//! The forms of pages.

use crate::fill::{Filled, Stop};
use crate::told::FaxTold;
use fax_files::{Coding, FillOrder, PageForm};
use fax_walk::{Cursor, End, Pages};

/// The form of a page.
#[repr(C)]
#[derive(Clone, Copy)]
pub struct FaxForm {
    /// The pels of a row, 1 to 65,535.
    pub width: u32,
    /// The rows of the page, 1 to 1,000,000.
    pub rows: u32,
    /// How the rows are coded: 1 in MH, 2 in MR, 3 in MMR.
    pub coding: u32,
    /// Which bit of a byte is first: 1 for the highest, 2 for the lowest.
    pub order: u32,
    /// 1 where each EOL ends on a byte boundary of its strip, else 0.
    pub aligned: u32,
    /// 1 where black is coded as white, and white as black, else 0.
    pub exchanged: u32,
    /// The rows of each strip but the last, which may have fewer.
    pub rows_per_strip: u32,
    /// The number of strips.
    pub strips: u32,
    /// Pels of a row in each unit, as a fraction of numbers above 0.
    pub x_numerator: u32,
    pub x_denominator: u32,
    /// Rows in each unit, as a fraction of numbers above 0.
    pub y_numerator: u32,
    pub y_denominator: u32,
    /// The unit of the resolution: 1 for none, 2 for an inch, 3 for a centimetre.
    pub unit: u32,
}

/// The number of a coding.
// ensures { result ≡ Numbers.coding_number coding }
fn coding_number(coding: Coding) -> u32 {
    match coding {
        Coding::Mh => 1,
        Coding::Mr => 2,
        Coding::Mmr => 3,
    }
}

/// The number of an order of bits.
// ensures { result ≡ Numbers.order_number order }
fn order_number(order: FillOrder) -> u32 {
    match order {
        FillOrder::MsbFirst => 1,
        FillOrder::LsbFirst => 2,
    }
}

impl FaxForm {
    /// A form as it stands in memory of the caller.
    // ensures { result ≡ form_numbers form.now }
    pub(crate) fn of(form: &PageForm) -> Self {
        FaxForm {
            width: form.width,
            rows: form.rows,
            coding: coding_number(form.coding),
            order: order_number(form.order),
            aligned: u32::from(form.aligned),
            exchanged: u32::from(form.exchanged),
            rows_per_strip: form.rows_per_strip,
            strips: form.strips,
            x_numerator: form.x.0,
            x_denominator: form.x.1,
            y_numerator: form.y.0,
            y_denominator: form.y.1,
            unit: u32::from(form.unit),
        }
    }
}

/// The form of the next page, or why there is none.
// ensures { Code.IsFormAnswered pages.old result pages.new }
pub(crate) fn next_form(pages: &mut Pages) -> Result<PageForm, End> {
    match pages.next_page() {
        Ok(Some((_, form))) => Ok(form),
        Ok(None) => Err(End::EndOfPages),
        Err(fault) => match Stop::of_fault(fault) {
            Stop::Ended(end) => Err(end),
            // A reader of pages takes no memory.
            Stop::Done | Stop::Memory | Stop::NoRoom => unreachable!(),
        },
    }
}

/// Writes the forms of the first pages of a reader, as many as have room.
// requires { pages.old.yielded ≡ 0 }
// ensures { Spec.AreFormsFilled pages.old.file pages.old.origin forms.old result forms.new }
fn fill_forms(pages: &mut Pages, forms: &mut [FaxForm]) -> Filled {
    let mut count = 0;
    while count < forms.len() {
        let cursor = pages.cursor();
        match next_form(pages) {
            Ok(form) => {
                forms[count] = FaxForm::of(&form);
                count += 1;
            }
            Err(end) => {
                return Filled {
                    cursor,
                    count,
                    used: 0,
                    stop: Stop::Ended(end),
                };
            }
        }
    }
    Filled {
        cursor: pages.cursor(),
        count,
        used: 0,
        stop: Stop::Done,
    }
}

/// Writes the forms of a file's pages from one on, as many as have room. The chain of directories
/// is followed once.
// ensures { Spec.TellsForms file.now page forms.old forms.new told.new result }
pub fn faxpages_forms(
    file: &[u8],
    page: u32,
    forms: &mut [FaxForm],
    told: &mut FaxTold,
) -> u32 {
    let mut pages = Pages::resume(file, Cursor { page, row: 0 });
    fill_forms(&mut pages, forms).fill_result(told)
}
