// Made by tools/plain-rust of crates/fax_walk/src/page_size.rt: change that.
//! The size and the resolution of a page that is converted.

use crate::options::Options;
use fax_files::{Coding, PageForm, PbmImage};

/// What a page is, but for how it is written: its size and its resolution.
#[derive(Clone, Copy)]
pub(crate) struct PageSize {
    pub(crate) width: u32,
    pub(crate) rows: u32,
    pub(crate) x: (u32, u32),
    pub(crate) y: (u32, u32),
    pub(crate) unit: u16,
}

impl PageSize {
    /// The sheet of an image, which has no resolution of its own.
    // ensures exact { result ≡ Spec.image_sheet image.now.width image.now.rows }
    // ensures limits { Spec.IsSheet result }
    pub(crate) fn of_image(image: &PbmImage) -> Self {
        PageSize {
            width: image.width,
            rows: image.rows,
            x: (204, 1),
            y: (196, 1),
            unit: 2,
        }
    }

    /// The sheet of a page, which keeps its resolution.
    // requires { IsPageForm form.now }
    // ensures exact { result ≡ Spec.form_sheet form.now }
    // ensures limits { Spec.IsSheet result }
    pub(crate) fn of_form(form: &PageForm) -> Self {
        PageSize {
            width: form.width,
            rows: form.rows,
            x: form.x,
            y: form.y,
            unit: form.unit,
        }
    }

    /// The form of the page as it is written.
    // requires limits { Spec.IsSheet self.now }
    // requires has_eols { options.now.aligned ≡ true → coding ≢ Coding.Mmr }
    // ensures exact { result ≡ Spec.sheet_form options.now coding self.now }
    // ensures limits { IsPageForm result }
    pub(crate) fn form(&self, options: &Options, coding: Coding) -> PageForm {
        let rows_per_strip = options.strip.unwrap_or(self.rows).min(self.rows);
        PageForm {
            width: self.width,
            rows: self.rows,
            coding,
            order: options.order,
            aligned: options.aligned,
            exchanged: false,
            rows_per_strip,
            strips: self.rows.div_ceil(rows_per_strip),
            x: self.x,
            y: self.y,
            unit: self.unit,
        }
    }
}
