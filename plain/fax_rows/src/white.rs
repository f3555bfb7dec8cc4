// Made by tools/plain-rust of crates/fax_rows/src/white.rt: change that.
//! White rows after white ones, which are skipped by their few bits (ITU-T T.4, sections 4.1.1 and
//! 4.2.1.3.3).

use kit_std::prelude::prove;

use crate::pels::Row;
use fax_bits::{BitSource, Colour};

/// How many pels the least run has that takes two make-up codes (T.4, section 4.1.1).
const LONG_RUN: u32 = 2560;

/// Skips a row in one-dimensional coding that is white as this one is, where its codes are next and
/// T.4's choice, and returns whether they are seen to be (T.4, section 4.1.1). Else the source
/// stays. It takes no memory.
#[inline(always)]
// ensures row { IsTrue result → read_one_dimensional (length white.now) source.old.remaining
//     ≡ read white.now source.new.remaining }
// ensures chosen { IsTrue result
//     → source.old.remaining ≡ one_dimensional_bits white.now ++ source.new.remaining }
// ensures unchanged { result ≡ false → source.new.remaining ≡ source.old.remaining }
// The source continues in the same bits.
// ensures same_end { KeepsEnd source.old source.new }
pub fn skip_white_1d(source: &mut BitSource, white: &Row) -> bool {
    // Nearly half of the rows of a usual page are white ones after white ones: nothing is put, and
    // the bytes of such a row in a PBM are zeros that are there already. To answer no is always
    // right: then the row is read as any other, and slower.
    if !white.is_white() || white.width >= LONG_RUN {
        return false;
    }
    source.skip_run_if_next(Colour::White, white.width)
}

/// Skips a row in two-dimensional coding that is white as its reference row is, where its code is
/// next, and returns whether that is seen (T.4, section 4.2.1.3.3; T.6, section 2.2.4). Else the
/// source stays. It takes no memory.
#[inline(always)]
// ensures row { IsTrue result → read_two_dimensional reference.now source.old.remaining
//     ≡ read reference.now source.new.remaining }
// ensures chosen { IsTrue result
//     → source.old.remaining ≡ two_dimensional_bits reference.now reference.now ++ source.new.remaining }
// ensures unchanged { result ≡ false → source.new.remaining ≡ source.old.remaining }
// The source continues in the same bits.
// ensures same_end { KeepsEnd source.old source.new }
pub fn skip_white_2d(source: &mut BitSource, reference: &Row) -> bool {
    if !reference.is_white() {
        return false;
    }
    prove!(0 < reference.width);
    source.skip_ones(1) == 1
}
