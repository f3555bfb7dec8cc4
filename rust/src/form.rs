//! The forms of pages and of files that are written, and the words for their parts.

use crate::error::{Error, Invalid};
use crate::inner;
use std::fmt;
use std::str::FromStr;

/// A word that is not one of those that were asked for.
///
/// ```
/// assert_eq!("g4".parse::<faxpages::Coding>().unwrap_err().wanted, "mh, mr, mmr");
/// ```
#[derive(Clone, Copy, Debug, PartialEq, Eq, Hash, thiserror::Error)]
#[error("it is none of: {wanted}")]
#[non_exhaustive]
pub struct UnknownWord {
    /// Those that were asked for.
    pub wanted: &'static str,
}

/// How rows are coded.
///
/// ```
/// use faxpages::Coding;
/// assert_eq!(("mmr".parse(), Coding::Mh.to_string().as_str()), (Ok(Coding::Mmr), "mh"));
/// ```
#[derive(Clone, Copy, Debug, PartialEq, Eq, Hash)]
pub enum Coding {
    /// T.4, one-dimensional.
    #[doc(alias = "Group 3")]
    #[doc(alias = "G3")]
    #[doc(alias = "Modified Huffman")]
    #[doc(alias = "CCITT")]
    Mh,
    /// T.4, two-dimensional.
    #[doc(alias = "Group 3, two-dimensional")]
    #[doc(alias = "Modified READ")]
    Mr,
    /// T.6.
    #[doc(alias = "Group 4")]
    #[doc(alias = "G4")]
    #[doc(alias = "Modified Modified READ")]
    Mmr,
}

/// Which bit of a byte is first.
///
/// ```
/// use faxpages::FillOrder;
/// assert_eq!(("2".parse(), FillOrder::MsbFirst.to_string().as_str()), (Ok(FillOrder::LsbFirst), "1"));
/// ```
#[doc(alias = "bit order")]
#[derive(Clone, Copy, Debug, PartialEq, Eq, Hash)]
pub enum FillOrder {
    /// The highest, as TIFF's fill order 1.
    MsbFirst,
    /// The lowest, as TIFF's fill order 2.
    LsbFirst,
}

/// What a file is turned into.
///
/// ```
/// use faxpages::Target;
/// assert_eq!(("pbm".parse(), Target::Mmr.to_string().as_str()), (Ok(Target::Pbm), "mmr"));
/// ```
#[derive(Clone, Copy, Debug, PartialEq, Eq, Hash)]
pub enum Target {
    /// Raw PBM, an image a page.
    Pbm,
    /// TIFF-F in MH.
    Mh,
    /// TIFF-F in MR.
    Mr,
    /// TIFF-F in MMR.
    Mmr,
}

macro_rules! words {
    ($($kind:ident, $wanted:literal: $($item:ident $word:literal),*;)*) => {
        $(
            impl $kind {
                pub(crate) const fn inner(self) -> inner::$kind {
                    match self {
                        $($kind::$item => inner::$kind::$item,)*
                    }
                }
            }

            impl fmt::Display for $kind {
                fn fmt(&self, f: &mut fmt::Formatter<'_>) -> fmt::Result {
                    f.pad(match self {
                        $($kind::$item => $word,)*
                    })
                }
            }

            impl FromStr for $kind {
                type Err = UnknownWord;

                fn from_str(word: &str) -> Result<Self, UnknownWord> {
                    match word {
                        $($word => Ok($kind::$item),)*
                        _ => Err(UnknownWord { wanted: $wanted }),
                    }
                }
            }
        )*
    };
}

words! {
    Coding, "mh, mr, mmr": Mh "mh", Mr "mr", Mmr "mmr";
    FillOrder, "1, 2": MsbFirst "1", LsbFirst "2";
    Target, "pbm, mh, mr, mmr": Pbm "pbm", Mh "mh", Mr "mr", Mmr "mmr";
}

/// The unit of a resolution.
///
/// ```
/// assert_eq!(faxpages::Form::new(1728, 2292, faxpages::Coding::Mmr).unit, faxpages::Unit::Inch);
/// ```
#[derive(Clone, Copy, Debug, PartialEq, Eq, Hash)]
#[non_exhaustive]
pub enum Unit {
    /// None: the resolution only tells how wide a pel is beside its height.
    None = 1,
    /// An inch.
    Inch = 2,
    /// A centimetre.
    Centimetre = 3,
}

/// The form of a page. A later version may have more fields: take one of [`Form::new`] and change it, or write
/// `..Form::new(..)` after the fields that you name.
///
/// ```
/// use faxpages::{Coding, Form};
/// let fine = Form { y: (391, 1), ..Form::new(1728, 4584, Coding::Mmr) };
/// assert_eq!((fine.x, fine.rows_per_strip), ((204, 1), 4584));
/// ```
#[doc(alias = "Directory")]
#[doc(alias = "IFD")]
#[derive(Clone, Copy, Debug, PartialEq, Eq, Hash)]
pub struct Form {
    /// The page's number.
    pub page: u32,
    /// The pels of a row, 1 to 65,535.
    pub width: u32,
    /// 1 to 1,000,000.
    pub rows: u32,
    /// How its rows are coded.
    pub coding: Coding,
    /// Which bit of a byte is first in its strips.
    pub order: FillOrder,
    /// Whether each EOL ends on a byte boundary.
    pub aligned: bool,
    /// Whether black is coded as white and white as black.
    pub exchanged: bool,
    /// The rows of each strip but the last, which may have fewer.
    pub rows_per_strip: u32,
    /// How many strips there are.
    pub strips: u32,
    /// Pels of a row in a unit, as a fraction.
    pub x: (u32, u32),
    /// Rows in a unit, as a fraction.
    pub y: (u32, u32),
    /// The unit of both.
    pub unit: Unit,
}

impl Form {
    /// A page of this size in one strip, the highest bit first, at 204 by 196 an inch.
    ///
    /// ```
    /// let form = faxpages::Form::new(1728, 2292, faxpages::Coding::Mmr);
    /// assert_eq!((form.x, form.y, form.strips), ((204, 1), (196, 1), 1));
    /// ```
    #[must_use]
    pub const fn new(width: u32, rows: u32, coding: Coding) -> Self {
        Form {
            page: 0,
            width,
            rows,
            coding,
            order: FillOrder::MsbFirst,
            aligned: false,
            exchanged: false,
            rows_per_strip: rows,
            strips: 1,
            x: (204, 1),
            y: (196, 1),
            unit: Unit::Inch,
        }
    }

    /// The bytes of a packed row: (width + 7) / 8.
    ///
    /// ```
    /// assert_eq!(faxpages::Form::new(1730, 2292, faxpages::Coding::Mmr).stride(), 217);
    /// ```
    #[must_use]
    pub const fn stride(&self) -> usize {
        self.width.div_ceil(8) as usize
    }

    pub(crate) fn of(page: u32, form: &inner::PageForm) -> Self {
        Form {
            page,
            width: form.width,
            rows: form.rows,
            coding: match form.coding {
                inner::Coding::Mh => Coding::Mh,
                inner::Coding::Mr => Coding::Mr,
                inner::Coding::Mmr => Coding::Mmr,
            },
            order: match form.order {
                inner::FillOrder::MsbFirst => FillOrder::MsbFirst,
                inner::FillOrder::LsbFirst => FillOrder::LsbFirst,
            },
            aligned: form.aligned,
            exchanged: form.exchanged,
            rows_per_strip: form.rows_per_strip,
            strips: form.strips,
            x: form.x,
            y: form.y,
            unit: match form.unit {
                1 => Unit::None,
                2 => Unit::Inch,
                _ => Unit::Centimetre,
            },
        }
    }

    /// The form in which such a page is written.
    pub(crate) fn written(&self) -> inner::PageForm {
        let height = if self.rows_per_strip == 0 { self.rows } else { self.rows_per_strip.min(self.rows) };
        inner::PageForm {
            width: self.width,
            rows: self.rows,
            coding: self.coding.inner(),
            order: self.order.inner(),
            aligned: self.aligned,
            exchanged: false,
            rows_per_strip: height,
            strips: self.rows.div_ceil(height.max(1)),
            x: self.x,
            y: self.y,
            unit: self.unit as u16,
        }
    }
}

/// How a file is written. A later version may have more fields: take those of [`Options::new`] and change them, or
/// write `..Options::new(..)` after the fields that you name.
///
/// ```
/// use faxpages::{convert, Options, Target};
/// let options = Options { aligned: true, ..Options::new(Target::Mh) };
/// assert!(convert(b"P4\n8 1\n\x18", &options)?.starts_with(b"II*\0"));
/// # Ok::<(), faxpages::Error>(())
/// ```
#[derive(Clone, Copy, Debug, PartialEq, Eq, Hash)]
pub struct Options {
    /// What the file is turned into.
    pub target: Target,
    /// Which bit of a byte is written first.
    pub order: FillOrder,
    /// In MR, a row in this many is coded by itself; at least 1.
    pub k: u32,
    /// The rows of a strip, or none where a page is one strip.
    pub strip: Option<u32>,
    /// In MH and MR, whether each EOL ends on a byte boundary.
    pub aligned: bool,
}

impl Options {
    /// A target, in one strip a page, with the highest bit first, and in MR a row in four coded by itself.
    ///
    /// ```
    /// use faxpages::{convert, Options, Target};
    /// let options = Options { strip: Some(64), ..Options::new(Target::Mmr) };
    /// assert!(convert(b"P4\n8 1\n\x18", &options)?.starts_with(b"II*\0"));
    /// # Ok::<(), faxpages::Error>(())
    /// ```
    #[must_use]
    pub fn new(target: Target) -> Self {
        Options { target, order: FillOrder::MsbFirst, k: crate::USUAL_K, strip: None, aligned: false }
    }

    /// These options, as the plain crates take them.
    pub(crate) fn inner(&self) -> Result<inner::Options, Error> {
        let Options { target, order, k, strip, aligned } = *self;
        if strip == Some(0) {
            return Err(Invalid::StripRows.into());
        }
        if k == 0 {
            return Err(Invalid::K.into());
        }
        if aligned && matches!(target, Target::Pbm | Target::Mmr) {
            return Err(Invalid::Aligned.into());
        }
        Ok(inner::Options { target: target.inner(), order: order.inner(), k, strip, aligned })
    }
}

#[cfg(test)]
mod tests {
    use super::{Coding, FillOrder, Target, UnknownWord};

    #[test]
    fn words_go_there_and_back() {
        for coding in [Coding::Mh, Coding::Mr, Coding::Mmr] {
            assert_eq!(coding.to_string().parse(), Ok(coding));
        }
        for order in [FillOrder::MsbFirst, FillOrder::LsbFirst] {
            assert_eq!(order.to_string().parse(), Ok(order));
        }
        for target in [Target::Pbm, Target::Mh, Target::Mr, Target::Mmr] {
            assert_eq!(target.to_string().parse(), Ok(target));
        }
        assert_eq!("MMR".parse::<Coding>(), Err(UnknownWord { wanted: "mh, mr, mmr" }));
        assert_eq!(format!("{:>5}", Target::Mmr), "  mmr");
    }
}
