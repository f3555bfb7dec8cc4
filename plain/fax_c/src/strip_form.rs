// Made by tools/plain-rust of crates/fax_c/src/strip_form.rt: change that.
//! The form of a strip with no file around it.

use crate::file_conversion::order_of;
use fax_page::{Coding, StripForm};

/// The form of a strip.
#[repr(C)]
#[derive(Clone, Copy)]
pub struct FaxStrip {
    /// The pels of a row, 1 to 65,535.
    pub width: u32,
    /// The rows, 1 to 1,000,000, or 0 where the height is unknown those that are read.
    pub rows: u32,
    /// How the rows are coded: 1 in MH, 2 in MR, 3 in MMR.
    pub coding: u32,
    /// Which bit of a byte is first: 1 for the highest, 2 for the lowest.
    pub order: u32,
    /// In MH and MR, 1 where each EOL ends on a byte boundary, else 0.
    pub aligned: u32,
}

/// The coding with a number, if one has it.
// ensures { Code.IsCodingOf number result }
pub(crate) fn coding_of(number: u32) -> Option<Coding> {
    match number {
        1 => Some(Coding::Mh),
        2 => Some(Coding::Mr),
        3 => Some(Coding::Mmr),
        _ => None,
    }
}

/// Whether a coding has EOLs.
// ensures some { result ≡ true → coding ≢ Coding.Mmr }
// ensures none { result ≡ false → coding ≡ Coding.Mmr }
pub(crate) fn has_eols(coding: Coding) -> bool {
    match coding {
        Coding::Mmr => false,
        Coding::Mh | Coding::Mr => true,
    }
}

impl FaxStrip {
    /// The form that these numbers are, if they are one.
    // ensures { MatchOption result ((form : Form) → Spec.IsStripFormGiven self.now form → ⊥)
    //     (Spec.IsStripFormGiven self.now) }
    pub(crate) fn form(&self) -> Option<StripForm> {
        let coding = coding_of(self.coding)?;
        let order = order_of(self.order)?;
        if self.width == 0 || self.width > 65_535 || self.rows == 0 || self.rows > 1_000_000 {
            return None;
        }
        if self.aligned > 1 || (self.aligned == 1 && !has_eols(coding)) {
            return None;
        }
        Some(StripForm {
            coding,
            order,
            width: self.width,
            rows: self.rows,
            aligned: self.aligned == 1,
        })
    }
}
