// Made by tools/plain-rust of crates/fax_walk/src/pages.rt: change that.
//! The pages of a file in the order of their chain, with their forms.

use crate::opening::UnopenedPage;
use crate::{Cursor, End, WalkFault};
use fax_files::{Chain, PageForm};
use kit_std::marker::Model;

/// How far a reader of pages has come.
enum PagesStage<'a> {
    /// Nothing is read yet.
    Before,
    /// The page after these directories is expected.
    After(Chain<'a>),
    /// The pages have ended.
    Ended(End),
}

/// A reader of a file's pages, without their strips. Contracts see its file, the cursor that it
/// began with, how many pages it returned, and how the pages ended, once it reported that. It takes
/// no memory.
// It counts what it returned, so that its contract can say page number `yielded`; its view has no
// stage. It takes no memory, so that its `WalkFault` is never `Memory`.
pub struct Pages<'a> {
    file: &'a [u8],
    origin: Cursor,
    /// How many pages were returned.
    yielded: u32,
    /// The cursor after the last of them, or the one that the reader began with.
    cursor: Cursor,
    stage: PagesStage<'a>,
}

impl<'a> Model for Pages<'a> {}

/// The page after the directories that a chain has returned, or how the pages end there.
// requires { IsFileChain chain }
// ensures ok { IfOk result (λ upcoming. Spec.IsPageAfter chain.entry upcoming) }
// ensures err { IfErr result (λ end. IsForm chain.entry.tiff.file chain.entry.yielded (ends_as end)) }
fn page_after<'a>(chain: Chain<'a>) -> Result<UnopenedPage<'a>, End> {
    match UnopenedPage::after(chain) {
        Ok(Some(page)) => Ok(page),
        Ok(None) => Err(End::EndOfPages),
        Err(end) => Err(end),
    }
}

/// The first page from a cursor on: the one that it names at row 0, else the one after it; or how
/// the pages end there.
// ensures ok { IfOk result (Spec.IsFirstUpcoming file.now cursor) }
// ensures err { IfErr result (IsFormTail file.now cursor []) }
fn first_page<'a>(file: &'a [u8], cursor: Cursor) -> Result<UnopenedPage<'a>, End> {
    let Some(page) = UnopenedPage::at(file, cursor)? else {
        return Err(End::EndOfPages);
    };
    if cursor.row == 0 {
        Ok(page)
    } else {
        page_after(page.chain)
    }
}

impl<'a> Pages<'a> {
    /// A reader of all pages of a file, from any bytes. Nothing is read yet.
    // ensures { result ≡ pages_start file.now }
    pub fn start(file: &'a [u8]) -> Self {
        Pages::resume(file, Cursor { page: 0, row: 0 })
    }

    /// A reader of the pages of a file from a cursor on: from the page that it names at row 0, else
    /// from the one after it. Nothing is read yet.
    // ensures { result ≡ pages_from file.now cursor }
    pub fn resume(file: &'a [u8], cursor: Cursor) -> Self {
        Pages {
            file,
            origin: cursor,
            yielded: 0,
            cursor,
            stage: PagesStage::Before,
        }
    }

    /// The cursor after the last page that was returned, or the one that the reader began with.
    // ensures { IsCursorOfPages self.now result }
    pub fn cursor(&self) -> Cursor {
        self.cursor
    }

    /// The next page, or how the pages end.
    // ensures ok { IfOk result (Spec.IsUpcomingIn self.now) }
    // ensures err { IfErr result (Spec.EndsNow self.now) }
    fn peek(&self) -> Result<UnopenedPage<'a>, End> {
        match &self.stage {
            PagesStage::Before => first_page(self.file, self.origin),
            PagesStage::After(chain) => page_after(chain.fork()),
            PagesStage::Ended(end) => Err(*end),
        }
    }

    /// Returns the next page's number, from 0, and its form, or `None` once all pages were
    /// returned. It takes no memory.
    ///
    /// # Errors
    ///
    /// `AtRow` at the fault that ends the pages, `CursorOutside` where the reader began at no place
    /// of the file, from then on. Never `Memory`.
    // ensures { IsNextPage self.old result self.new }
    pub fn next_page(&mut self) -> Result<Option<(u32, PageForm)>, WalkFault> {
        match self.peek() {
            Ok(page) => {
                self.yielded += 1;
                self.cursor = Cursor {
                    page: page.chain.yielded(),
                    row: 0,
                };
                self.stage = PagesStage::After(page.chain);
                Ok(Some((page.page, page.form)))
            }
            Err(end) => {
                self.stage = PagesStage::Ended(end);
                end.answer()?;
                Ok(None)
            }
        }
    }
}
