// Made by tools/plain-rust of crates/fax_files/src/chain.rt: change that.
//! The chain of a file's directories, read with a search for a loop that goes along.
//!
//! The search takes two steps for each directory that is returned (Floyd's algorithm), so that it
//! meets the reader before the chain turns back. It takes no memory.

use crate::FileFault;
use crate::directory::Directory;
use crate::tiff::Tiff;
use kit_std::marker::Model;

/// A place on the loop of a chain, and the loop's length.
#[derive(Clone, Copy)]
struct Cycle {
    len: u64,
}

/// The search for the page at which a chain turns back: running, with the offset of the directory
/// that it looks at next, or ended, with that page's number, or `None` where the chain has an end.
#[derive(Clone, Copy)]
enum Search {
    Running(u32),
    Known(Option<u32>),
}

/// The offset after the directory at an offset, or none where no directory stands.
// ensures { result ≡ Spec.next_of tiff.now.head.endian tiff.now.file offset }
fn next_of(tiff: &Tiff, offset: u32) -> Option<u32> {
    if offset == 0 {
        return None;
    }
    match tiff.directory(offset) {
        Ok(directory) => Some(directory.next_offset()),
        Err(_) => None,
    }
}

/// The next offset after the one at which a directory stands, and 0, which is none, elsewhere.
// ensures { result ≡ unwrap_or (Spec.next_of tiff.now.head.endian tiff.now.file offset) 0 }
fn next_after(tiff: &Tiff, offset: u32) -> u32 {
    next_of(tiff, offset).unwrap_or(0)
}

/// A lemma, which computes nothing: a chain has few pages, since its offsets differ, and each is a
/// number of four bytes, not 0.
// requires { file.now ≡ tiff.now.file }
// ensures { Spec.HasFewPages tiff.now }
fn lemma_few_pages(tiff: &Tiff, _file: &[u8]) {
    let _first = tiff.first();
}

/// The next offset after the first directories of a chain.
// requires { (i : ℕ) → i < pages → LeadsOn tiff.now i }
// ensures { result ≡ offset tiff.now pages }
fn next_after_pages(tiff: &Tiff, pages: u64) -> u32 {
    let mut next_at = tiff.first();
    for _page in 0..pages {
        next_at = next_after(tiff, next_at);
    }
    next_at
}

/// The first page of which the offset comes again after the length of the loop.
// requires { Spec.IsRound tiff.now round.start round.len }
// ensures turn { Spec.IsTurn tiff.now round.len result }
// ensures early { result ≤ round.start }
fn cycle_start(tiff: &Tiff, round: Cycle) -> u64 {
    let mut ahead = next_after_pages(tiff, round.len);
    let mut before = tiff.first();
    let mut page: u64 = 0;
    while before != ahead {
        before = next_after(tiff, before);
        ahead = next_after(tiff, ahead);
        page += 1;
    }
    page
}

/// The length of the loop on which a place lies, which is met again after as many steps.
// requires kept { kept ≡ offset tiff.now start }
// requires some { 0 < start }
// requires limit { start < 2 ^ 32 }
// requires back { offset tiff.now (start + start) ≡ offset tiff.now start }
// requires on { (i : ℕ) → i < start + start → LeadsOn tiff.now i }
// ensures { Spec.IsRound tiff.now result.start result.len }
fn cycle_from(tiff: &Tiff, _start: u64, kept: u32) -> Cycle {
    let mut next_at = next_after(tiff, kept);
    let mut len: u64 = 1;
    while next_at != kept {
        next_at = next_after(tiff, next_at);
        len += 1;
    }
    Cycle { len }
}

/// The page at which the chain turns back, where a place is met again after as many steps.
// requires kept { kept ≡ offset tiff.now start }
// requires some { 0 < start }
// requires limit { start < 2 ^ 32 }
// requires back { offset tiff.now (start + start) ≡ offset tiff.now start }
// requires on { (i : ℕ) → i < start + start → LeadsOn tiff.now i }
// ensures { Some result ≡ Spec.cycle_start_of tiff.now }
fn cycle_start_from(tiff: &Tiff, start: u64, kept: u32) -> u32 {
    lemma_few_pages(tiff, tiff.bytes());
    let round = cycle_from(tiff, start, kept);
    let page = cycle_start(tiff, round);
    (page + round.len) as u32
}

/// The search after one more directory, after which this offset is expected.
// requires search { Spec.IsSearch tiff.now yielded search }
// requires next_at { next_at ≡ offset tiff.now (yielded + 1) }
// requires few { yielded + 1 < 2 ^ 32 }
// ensures { Spec.IsSearch tiff.now (yielded + 1) result }
fn advance_search(tiff: &Tiff, search: Search, yielded: u32, next_at: u32) -> Search {
    let Search::Running(fast) = search else {
        return search;
    };
    let Some(between) = next_of(tiff, fast) else {
        return Search::Known(None);
    };
    let Some(fast) = next_of(tiff, between) else {
        return Search::Known(None);
    };
    if fast == next_at {
        let turn = cycle_start_from(tiff, yielded as u64 + 1, next_at);
        return Search::Known(Some(turn));
    }
    Search::Running(fast)
}

/// Whether it is known that the chain turns back after so many directories.
// ensures { result ≡ Spec.is_cycle_start search yielded }
fn is_cycle_start(search: Search, yielded: u32) -> bool {
    match search {
        Search::Known(Some(turn)) => turn == yielded,
        Search::Known(None) | Search::Running(_) => false,
    }
}

/// A reader of a file's directories, in the order of their chain. Contracts see its file and how
/// many directories were returned.
// The search takes no memory, which could be refused at the first page, and no pass over the chain
// before the first page, which a stranger could make long. Each page costs at most three steps of
// the chain, which no clause says.
pub struct Chain<'a> {
    tiff: Tiff<'a>,
    next_at: u32,
    yielded: u32,
    search: Search,
}

impl<'a> Model for Chain<'a> {}

impl<'a> Chain<'a> {
    /// A reader of the directories of a file, before the first one. Nothing is read yet.
    // ensures { result ≡ record { tiff = tiff.entry; yielded = 0 } }
    pub fn new(tiff: Tiff<'a>) -> Self {
        lemma_few_pages(&tiff, tiff.bytes());
        let next_at = tiff.first();
        Chain {
            tiff,
            next_at,
            yielded: 0,
            search: Search::Running(next_at),
        }
    }

    /// The same reader once more.
    // ensures { result ≡ self.now }
    pub fn fork(&self) -> Self {
        Chain {
            tiff: self.tiff.fork(),
            next_at: self.next_at,
            yielded: self.yielded,
            search: self.search,
        }
    }

    /// How many directories were returned.
    // ensures { result ≡ self.now.yielded }
    pub fn yielded(&self) -> u32 {
        self.yielded
    }

    /// The directory that is expected, or none after the last one.
    ///
    /// # Errors
    ///
    /// `DirectoryLoop` where the next offset was returned before, `DirectoryOutside` where no whole
    /// directory stands there.
    // ensures answer { result ≡ upcoming_answer self.now }
    // ensures file { IfOk result (λ found. IfSome found (IsDirectoryOf self.now.tiff)) }
    pub fn peek(&self) -> Result<Option<Directory<'a>>, FileFault> {
        if self.next_at == 0 {
            return Ok(None);
        }
        if is_cycle_start(self.search, self.yielded) {
            return Err(FileFault::DirectoryLoop);
        }
        Ok(Some(self.tiff.directory(self.next_at)?))
    }

    /// Returns the next directory, or none after the last one, from then on.
    ///
    /// # Errors
    ///
    /// As `peek`, from then on.
    // ensures answer { result ≡ upcoming_answer self.old }
    // ensures file { IfOk result (λ found. IfSome found (IsDirectoryOf self.old.tiff)) }
    // ensures counted { self.new ≡ after_answer self.old result }
    pub fn next(&mut self) -> Result<Option<Directory<'a>>, FileFault> {
        let answer = self.peek()?;
        if let Some(directory) = &answer {
            let next_at = directory.next_offset();
            self.search = advance_search(&self.tiff, self.search, self.yielded, next_at);
            self.next_at = next_at;
            self.yielded += 1;
        }
        Ok(answer)
    }
}
