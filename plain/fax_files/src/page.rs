// Made by tools/plain-rust of crates/fax_files/src/page.rt: change that.
//! The form of a page, from the fields of its directory (TIFF 6.0; RFC 2306).

use crate::entries::Entry;
use crate::fields::{FieldRefusal, Fields, Limits};
use crate::strips::Strips;
use crate::tags::{
    BITS_PER_SAMPLE, COMPRESSION, FILL_ORDER, IMAGE_LENGTH, IMAGE_WIDTH,
    PHOTOMETRIC_INTERPRETATION, RESOLUTION_UNIT, ROWS_PER_STRIP, SAMPLES_PER_PIXEL,
    STRIP_BYTE_COUNTS, STRIP_OFFSETS, T4_OPTIONS, X_RESOLUTION, Y_RESOLUTION,
};
use crate::{FileFault, PageForm};
use fax_bits::FillOrder;
use fax_page::Coding;
use kit_std::marker::Model;

/// Compression by T.4.
const COMPRESSION_T4: u32 = 3;
/// Compression by T.6.
const COMPRESSION_T6: u32 = 4;
/// The most pels of a row.
const MAX_WIDTH: u32 = 65_535;
/// The most rows of a page.
const MAX_ROWS: u32 = 1_000_000;

/// The resolution of a page.
struct Resolution {
    x: (u32, u32),
    y: (u32, u32),
    unit: u16,
}

impl Model for Resolution {}

/// The form of a page and where its strips stand, or its first fault.
// ensures form { IfOk result (λ page. form_of fields.now ≡ Ok page.0) }
// ensures fault { IfErr result (λ fault. form_of fields.now ≡ Err fault) }
// ensures limits { IfOk result (λ page. IsPageForm page.0) }
// ensures directory { IfOk result (λ page. page.1.directory ≡ fields.now) }
// ensures count { IfOk result (λ page. page.1.count ≡ page.0.strips) }
pub(crate) fn read_page<'a>(fields: &Fields<'_, 'a>) -> Result<(PageForm, Strips<'a>), FileFault> {
    let form = read_form(fields)?;
    let offsets = strip_field(fields, STRIP_OFFSETS, form.strips)?;
    let byte_counts = strip_field(fields, STRIP_BYTE_COUNTS, form.strips)?;
    let strips = Strips::new(fields.directory(), form.strips, offsets, byte_counts);
    Ok((form, strips))
}

/// The form that a page's fields say, in the order of their checks.
// ensures exact { result
//     ≡ Spec.form_in fields.now.endian fields.now.file (entries_of fields.now) }
// ensures limits { IfOk result IsPageForm }
fn read_form(fields: &Fields) -> Result<PageForm, FileFault> {
    use Limits::{AboveZero, Between};
    use FieldRefusal::{BadField, OutOfLimits, Unsupported};
    let width = fields.scalar(IMAGE_WIDTH, None, Between(1, MAX_WIDTH), OutOfLimits)?;
    let rows = fields.scalar(IMAGE_LENGTH, None, Between(1, MAX_ROWS), OutOfLimits)?;
    fields.scalar(BITS_PER_SAMPLE, Some(1), Between(1, 1), Unsupported)?;
    let codings = Between(COMPRESSION_T4, COMPRESSION_T6);
    let compression = fields.scalar(COMPRESSION, None, codings, Unsupported)?;
    // The value of a white pel: where it is 1, black is coded as white, and white as black.
    let white = fields.scalar(PHOTOMETRIC_INTERPRETATION, None, Between(0, 1), Unsupported)?;
    let order = fields.scalar(FILL_ORDER, Some(1), Between(1, 2), Unsupported)?;
    fields.scalar(SAMPLES_PER_PIXEL, Some(1), Between(1, 1), Unsupported)?;
    let in_strip = fields.scalar(ROWS_PER_STRIP, Some(u32::MAX), AboveZero, BadField)?;
    let rows_per_strip = in_strip.min(rows);
    let options = read_options(fields, compression)?;
    let Resolution { x, y, unit } = page_resolution(fields);
    Ok(PageForm {
        width,
        rows,
        coding: coding_of(compression, options),
        order: order_of(order),
        aligned: options / 4 % 2 == 1,
        exchanged: white == 1,
        rows_per_strip,
        strips: rows.div_ceil(rows_per_strip),
        x,
        y,
        unit,
    })
}

/// T4Options, which are looked at in T.4 alone, and 0 in T.6.
// ensures { result ≡ (if compression == 4 then (Ok 0)
//     else (Entries.scalar fields.now.endian fields.now.file (entries_of fields.now)
//     Tags.T4_OPTIONS (Some 0) (λ _. true) BadField)) }
fn read_options(fields: &Fields, compression: u32) -> Result<u32, FileFault> {
    // T6Options is never looked at: what its one bit allows, uncompressed mode, begins with an
    // extension code, which is refused where it stands.
    if compression == COMPRESSION_T6 {
        return Ok(0);
    }
    fields.scalar(T4_OPTIONS, Some(0), Limits::Any, FieldRefusal::BadField)
}

/// How the rows are coded, by Compression and T4Options.
// ensures { result ≡ (if compression == 4 then Mmr else (if options % 2 == 1 then Mr else Mh)) }
fn coding_of(compression: u32, options: u32) -> Coding {
    if compression == COMPRESSION_T6 {
        Coding::Mmr
    } else if options % 2 == 1 {
        Coding::Mr
    } else {
        Coding::Mh
    }
}

/// Which bit of a byte comes first, by FillOrder.
// ensures { result ≡ (if order == 2 then LsbFirst else MsbFirst) }
fn order_of(order: u32) -> FillOrder {
    match order {
        2 => FillOrder::LsbFirst,
        _ => FillOrder::MsbFirst,
    }
}

/// The resolution of a page: 204 by 196 dots an inch where its fields have no good one.
// ensures exact { result
//     ≡ Steps.resolution_in fields.now.endian fields.now.file (entries_of fields.now) }
// ensures good { Steps.IsGoodResolution result }
fn page_resolution(fields: &Fields) -> Resolution {
    let x = fields.rational_of(X_RESOLUTION);
    let y = fields.rational_of(Y_RESOLUTION);
    let units = Limits::Between(1, 3);
    match (
        x,
        y,
        fields.scalar(RESOLUTION_UNIT, Some(2), units, FieldRefusal::Unsupported),
    ) {
        (Some(x), Some(y), Ok(unit)) => Resolution {
            x,
            y,
            unit: unit as u16,
        },
        _ => Resolution {
            x: (204, 1),
            y: (196, 1),
            unit: 2,
        },
    }
}

/// The entry of a tag, which has to have a value for each strip.
// requires { IsTrue (is_sought tag) }
// ensures exact { result
//     ≡ Steps.strip_field fields.now.endian fields.now.file (entries_of fields.now) tag strips }
// ensures found { IfOk result (λ entry. Entries.field (entries_of fields.now) tag ≡ Some entry) }
// ensures inside { IfOk result (λ entry. entry.offset + 4 ≤ length fields.now.file) }
// ensures enough { IfOk result (λ entry.
//     IsTrue (Entries.has_integers fields.now.endian fields.now.file entry strips)) }
fn strip_field(fields: &Fields, tag: u16, strips: u32) -> Result<Entry, FileFault> {
    let entry = fields.needed(tag)?;
    if !fields.file().has_integers(&entry, strips) {
        return Err(FileFault::BadField(tag));
    }
    Ok(entry)
}
