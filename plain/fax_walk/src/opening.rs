// Made by tools/plain-rust of crates/fax_walk/src/opening.rt: change that.
//! The pages of a file, from its header and its chain of directories on.

use crate::{Cursor, End};
use fax_bits::Memory;
use fax_files::{Chain, PageForm, Strips, Tiff};
use fax_page::PlaceFault;
use kit_std::marker::Model;

/// Why a page could not be opened.
#[derive(Clone, Copy)]
pub(crate) enum OpenFault {
    /// A growth was refused.
    Memory,
    /// There is no such page: the rows end so.
    Ended(End),
}

impl From<Memory> for OpenFault {
    fn from(_refused: Memory) -> Self {
        OpenFault::Memory
    }
}

impl From<PlaceFault> for OpenFault {
    fn from(fault: PlaceFault) -> Self {
        match fault {
            PlaceFault::Memory => OpenFault::Memory,
            PlaceFault::Outside => OpenFault::Ended(End::Outside),
        }
    }
}

impl From<End> for OpenFault {
    fn from(end: End) -> Self {
        OpenFault::Ended(end)
    }
}

/// The next page, and none of whose strips is read yet.
pub(crate) struct UnopenedPage<'a> {
    pub(crate) page: u32,
    /// The chain after the page's directory.
    pub(crate) chain: Chain<'a>,
    pub(crate) form: PageForm,
    pub(crate) strips: Strips<'a>,
}

impl<'a> Model for UnopenedPage<'a> {}

/// The chain of a file's directories, before the one of this number, or how the rows end where
/// there are fewer before it.
// ensures ok { IfOk result (λ chain. Spec.IsChainBefore file.now page chain) }
// ensures err { IfErr result (Spec.IsNoPage file.now page) }
pub(crate) fn chain_before<'a>(file: &'a [u8], page: u32) -> Result<Chain<'a>, End> {
    let tiff = match Tiff::read_header(file) {
        Ok(tiff) => tiff,
        Err(fault) => return Err(End::of_file(0, 0, fault)),
    };
    let mut chain = Chain::new(tiff);
    for number in 0..page {
        match chain.next() {
            Ok(Some(_)) => {}
            Ok(None) => return Err(End::Outside),
            Err(fault) => return Err(End::of_file(number, 0, fault)),
        }
    }
    Ok(chain)
}

impl<'a> UnopenedPage<'a> {
    /// The next page after the directories that a chain has returned, or none after the last one,
    /// or the fault in its place.
    // requires { Spec.IsFileChain chain }
    // ensures { Spec.IsPageAnswer chain.entry result }
    pub(crate) fn after(mut chain: Chain<'a>) -> Result<Option<Self>, End> {
        let page = chain.yielded();
        let directory = match chain.next() {
            Ok(Some(directory)) => directory,
            Ok(None) => return Ok(None),
            Err(fault) => return Err(End::of_file(page, 0, fault)),
        };
        match directory.page_and_strips() {
            Ok((form, strips)) => Ok(Some(UnopenedPage {
                page,
                chain,
                form,
                strips,
            })),
            Err(fault) => Err(End::of_file(page, 0, fault)),
        }
    }

    /// The page that a cursor names, or none after the last page, or how the rows end where the
    /// cursor names no place of the file.
    // ensures ok { IfOk result (Spec.IsNamed file.now cursor) }
    // ensures err { IfErr result (Spec.EndsAt file.now cursor) }
    pub(crate) fn at(file: &'a [u8], cursor: Cursor) -> Result<Option<Self>, End> {
        let chain = chain_before(file, cursor.page)?;
        let Some(page) = UnopenedPage::after(chain)? else {
            return if cursor.row == 0 {
                Ok(None)
            } else {
                Err(End::Outside)
            };
        };
        if cursor.row > page.form.rows {
            return Err(End::Outside);
        }
        Ok(Some(page))
    }
}
