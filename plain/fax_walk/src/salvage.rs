// Made by tools/plain-rust of crates/fax_walk/src/salvage.rt: change that.
//! What is left of a damaged file: the rows that are found, and the stretches that are lost.

use crate::Place;
use crate::salvage_page::SalvagePage;
use fax_bits::Memory;
use fax_files::{Cause, Chain, FileFault, Tiff};
use fax_rows::Row;
use kit_std::alloc::Global;
use kit_std::marker::Model;

/// Rows of a page that are lost, one after another.
#[derive(Clone, Copy, Debug, PartialEq, Eq)]
pub struct LostRows {
    /// The page, from 0.
    pub page: u32,
    /// The first of them, from 0.
    pub row: u32,
    /// How many they are.
    pub rows: u32,
    /// Why the first of them is lost.
    pub cause: Cause,
}

impl LostRows {
    /// The stretch that ends before a row of a page, where there is one, with so many rows more,
    /// which are lost for this cause.
    // requires { Lost.CanGrowBy lost rows }
    // ensures { result ≡ Lost.longer lost page row rows cause }
    pub fn longer(lost: Option<LostRows>, page: u32, row: u32, rows: u32, cause: Cause) -> LostRows {
        match lost {
            Some(stretch) => LostRows {
                rows: stretch.rows + rows,
                ..stretch
            },
            None => LostRows {
                page,
                row,
                rows,
                cause,
            },
        }
    }
}

/// What is returned of a damaged file.
#[derive(Clone, Copy, Debug, PartialEq, Eq)]
pub enum SalvageItem {
    /// A row that is found; `Salvage::row` lends it, up to the next call.
    Row(Place),
    /// Rows that are lost. A stretch ends where a row is found or the page ends.
    Lost(LostRows),
    /// A page whose form is refused, so that nothing of it is read.
    Refused { page: u32, fault: FileFault },
}

/// What a chain of directories has next.
enum ChainStep<'a> {
    /// Nothing more: the last page was the one before.
    Ends,
    /// Nothing more: no directory stands where the next one begins.
    Broken,
    /// A page that is refused, and the chain after it.
    Refused {
        fault: FileFault,
        chain: Chain<'a>,
    },
    /// A page that is entered, and the chain after it.
    Entered {
        page: SalvagePage<'a>,
        chain: Chain<'a>,
    },
}

/// The next page after the directories that a chain has returned.
#[cold]
#[inline(never)]
// requires { IsFileChain chain.now }
// ensures { IfOk result (Spec.IsNextPage chain.now) }
fn next_page<'a>(alloc: Global, chain: &Chain<'a>) -> Result<ChainStep<'a>, Memory> {
    let number = chain.yielded();
    let mut chain = chain.fork();
    let directory = match chain.next() {
        Ok(Some(directory)) => directory,
        Ok(None) => return Ok(ChainStep::Ends),
        Err(_fault) => return Ok(ChainStep::Broken),
    };
    match directory.page_and_strips() {
        Err(fault) => Ok(ChainStep::Refused { fault, chain }),
        Ok((form, strips)) => {
            let page = SalvagePage::open(alloc, number, form, strips)?;
            Ok(ChainStep::Entered { page, chain })
        }
    }
}

/// Leaves the page that is gone through, if one is, and returns whether it lies wholly in the file,
/// and no row of it is lost.
// ensures none { page.new ≡ None }
// ensures clean { result ≡ Spec.was_clean page.old }
fn close_page(page: &mut Option<SalvagePage>) -> bool {
    let clean = match page {
        None => true,
        Some(page) => page.is_clean(),
    };
    *page = None;
    clean
}

/// Returns what is next on the page that is gone through, or `None` where nothing is left of it, or
/// no page was entered.
#[inline(always)]
// ensures { Spec.GivesItem page.old result page.new }
fn item_of_page(page: &mut Option<SalvagePage>) -> Option<SalvageItem> {
    match page {
        None => None,
        Some(page) => {
            let item = page.next_item();
            page.lemma_items_left();
            item
        }
    }
}

/// Goes through a file page after page, also after one that is refused, and returns each row that
/// is found, each stretch of rows that are lost, and each page that is refused. Contracts see its
/// file, how many items it returned, and the row that was found last.
pub struct Salvage<'a> {
    alloc: Global,
    /// The directories that are expected, or none where the file has no good header.
    chain: Option<Chain<'a>>,
    /// The page that is gone through, if one was entered.
    page: Option<SalvagePage<'a>>,
    /// How many items were returned.
    yielded: u64,
    /// Whether the pages that were left lie wholly in the file, and nothing of them is lost.
    whole: bool,
}

impl<'a> Model for Salvage<'a> {}

impl<'a> Salvage<'a> {
    /// Before the first page of a file, from any bytes. It takes no memory.
    // ensures { IsSalvageStart file.now result }
    pub fn begin(alloc: Global, file: &'a [u8]) -> Self {
        match Tiff::read_header(file) {
            Ok(tiff) => Salvage {
                alloc,
                chain: Some(Chain::new(tiff)),
                page: None,
                yielded: 0,
                whole: true,
            },
            Err(_fault) => Salvage {
                alloc,
                chain: None,
                page: None,
                yielded: 0,
                whole: false,
            },
        }
    }

    /// Returns what is next, or `None` after all. It takes memory only where a page is entered.
    ///
    /// # Errors
    ///
    /// `Memory` where a growth was refused. Then nothing was returned, and it may be called again.
    #[inline(always)]
    // ensures { IsNextLeft self.old result self.new }
    pub fn next_item(&mut self) -> Result<Option<SalvageItem>, Memory> {
        loop {
            if let Some(item) = item_of_page(&mut self.page) {
                self.yielded += 1;
                return Ok(Some(item));
            }
            let clean = close_page(&mut self.page);
            self.whole &= clean;
            let Some(chain) = &self.chain else {
                return Ok(None);
            };
            let page = chain.yielded();
            match next_page(self.alloc, chain)? {
                ChainStep::Ends => return Ok(None),
                ChainStep::Broken => {
                    self.whole = false;
                    return Ok(None);
                }
                ChainStep::Refused { fault, chain } => {
                    self.chain = Some(chain);
                    self.yielded += 1;
                    self.whole = false;
                    return Ok(Some(SalvageItem::Refused { page, fault }));
                }
                ChainStep::Entered { page, chain } => {
                    self.page = Some(page);
                    self.chain = Some(chain);
                }
            }
        }
    }

    /// After the last item: `true` only where nothing of the file is lost, and its rows end
    /// properly. Before that, the same of the pages passed so far. `false` is no claim that
    /// something is lost: a lost row is an item of its own.
    // ensures { result ≡ self.now.whole }
    pub fn is_whole(&self) -> bool {
        self.whole
    }

    /// The row of the last item, where that is one. After another item it may be another row of the
    /// page that is read, and where no page is, there is none.
    // ensures { IsLentLast self.now.last result }
    pub fn row(&self) -> Option<&Row> {
        match &self.page {
            Some(page) => Some(page.row()),
            None => None,
        }
    }
}
