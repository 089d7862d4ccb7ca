//! Request l: keeps the copy's book beside every run of a copy, as watch.rs keeps the desk's, and asserts
//! what the request says of copies. It panics where the model breaks it.
//!
//! - The cut rule over the blocks taken, whatever was fed: an opening after each store and each cut is
//!   accepted, reports m, keeps the book's half group and shows the book's pages; every accepted Read and
//!   Settled on the way is the book's.
//! - Agreement: where every block that the copy took is the desk's block of that sequence and both have
//!   the same newest block, every page reads the same on both.
//! - Keeping up: the desk's next block is not refused by an open copy that has the desk's blocks so far.
//!
//! The book starts where a copy is made from a desk that its own book follows. It is given up where
//! somebody else writes the copy's log, and out of step while the state in hand is not the one that the
//! copy's calls left at the book's sizes.

use crate::block::{decode, Block, Kind, BLOCK_SIZE, PAGE_SIZE};
use crate::book::Book;
use crate::calls::{self, FreeChoice, Refusal};
use crate::copies::{self, Fed};
use crate::copy_script::{CopyCounts, CopyStore};
use crate::recovery::{self, RefusedOpening};
use crate::script::Store;
use crate::watch::Watch;

/// The blocks that a desk stored since its last Format, as bytes, oldest first.
#[derive(Default)]
pub struct DeskBlocks {
    /// How many Formats there were: which life of the desk this is.
    life: u64,
    blocks: Vec<(u64, Vec<u8>)>,
}

impl DeskBlocks {
    pub fn formatted(&mut self) {
        self.life += 1;
        self.blocks.clear();
    }

    pub fn stored(&mut self, sequence: u64, bytes: &[u8]) {
        self.blocks.push((sequence, bytes.to_vec()));
    }

    /// The newest sequence, 0 at first.
    fn newest(&self) -> u64 {
        self.blocks.last().map_or(0, |(sequence, _)| *sequence)
    }

    fn block(&self, wanted: u64) -> Option<&[u8]> {
        let found = self
            .blocks
            .iter()
            .find(|(sequence, _)| *sequence == wanted)?;
        Some(&found.1)
    }
}

/// The copy's book. Only blocks that are taken change it; an opening and a cut do not.
struct CopyBook {
    pages: Vec<Vec<u8>>,
    /// m, the count of committed transactions.
    committed: u64,
    /// The half group at the log's end: page, offset and new bytes of each update.
    group: Vec<(u64, u64, Vec<u8>)>,
}

impl CopyBook {
    /// The book of a copy made now: the desk's pages and m, and the half group at the log's end.
    fn new(desk: &Book, blocks: &[Block]) -> CopyBook {
        let mut book = CopyBook {
            pages: desk.pages().to_vec(),
            committed: desk.committed(),
            group: Vec::new(),
        };
        for block in blocks {
            match block.kind {
                Kind::Update { .. } => book.took(block),
                // Its effect is in the desk's pages already.
                Kind::Commit { .. } | Kind::Clean { .. } => book.group.clear(),
            }
        }
        book
    }

    fn took(&mut self, block: &Block) {
        match &block.kind {
            Kind::Update {
                index,
                page,
                offset,
                new_bytes,
            } => {
                if *index == 1 {
                    self.group.clear();
                }
                self.group.push((*page, *offset, new_bytes.clone()));
            }
            Kind::Commit { .. } => {
                for (page, offset, new_bytes) in self.group.drain(..) {
                    let first = offset as usize;
                    self.pages[page as usize][first..first + new_bytes.len()]
                        .copy_from_slice(&new_bytes);
                }
                self.committed += 1;
            }
            Kind::Clean { .. } => self.group.clear(),
        }
    }
}

/// The desk beside a copy, where its own book follows it.
pub struct Desk<'a> {
    pub store: &'a Store,
    pub watch: &'a Watch,
    pub blocks: &'a DeskBlocks,
}

pub struct CopyWatch {
    book: CopyBook,
    /// N at the desk's Format.
    slots: u64,
    /// P and F: the desk's, or those of the copy's first opening if the desk had none before.
    pages_and_frames: Option<(u64, u64)>,
    /// Whether the state in hand is the one that the copy's calls left.
    in_step: bool,
    /// The sequence of the copy's newest block, 0 if there is none.
    newest: u64,
    /// The desk's life that the copy was made in, as long as every block that it took is the desk's.
    life: Option<u64>,
}

impl CopyWatch {
    /// The watch of a copy that is made now. It has no state yet; its opening is tried all the same.
    pub fn new(copy: &CopyStore, desk: &Desk, counts: &mut CopyCounts) -> CopyWatch {
        let slots = desk.watch.slots();
        let book = desk.watch.book();
        let pages = book.pages().len() as u64;
        let mut blocks = Vec::new();
        for (_, bytes) in &desk.blocks.blocks {
            blocks.push(decode(bytes, slots, pages).expect("a desk stores valid blocks"));
        }
        let watch = CopyWatch {
            book: CopyBook::new(book, &blocks),
            slots,
            pages_and_frames: desk.watch.pages_and_frames(),
            in_step: false,
            newest: desk.blocks.newest(),
            life: Some(desk.blocks.life),
        };
        watch.try_opening(copy, counts);
        watch
    }

    pub fn open(
        &mut self,
        copy: &CopyStore,
        answer: &Result<u64, RefusedOpening>,
        counts: &mut CopyCounts,
    ) {
        self.in_step = false;
        if let Err(refused) = answer {
            if refused.refusal == Refusal::WrongLength {
                return;
            }
        }
        let slots = (copy.lent_log / BLOCK_SIZE) as u64;
        let pages = (copy.lent_home / PAGE_SIZE) as u64;
        let frames = (copy.lent_frames / PAGE_SIZE) as u64;
        let known = *self.pages_and_frames.get_or_insert((pages, frames));
        if slots != self.slots || known != (pages, frames) {
            // An opening at other sizes writes neither log nor home.
            return;
        }
        self.check_opened(copy, answer);
        counts.book_openings += 1;
        self.in_step = true;
    }

    /// An opened copy is what the book says.
    fn check_opened(&self, copy: &CopyStore, answer: &Result<u64, RefusedOpening>) {
        let ticket = answer.expect("request l: the copy's opening is accepted");
        assert_eq!(
            ticket, self.book.committed,
            "request l: the copy's opening reports m"
        );
        let state = &copy.state;
        assert!(state.is_sound_copy());
        assert_eq!(state.next, self.newest + 1, "request l: next");
        assert_eq!(
            state.stored,
            self.book.group.len() as u64,
            "request l: the copy's opening keeps a half group"
        );
        for page in 0..state.pages {
            assert!(
                copy.page(page) == self.book.pages[page as usize],
                "request l: page {page} after the copy's opening"
            );
        }
    }

    /// After an accepted feed. Says whether the watch goes on.
    pub fn fed(
        &mut self,
        copy: &CopyStore,
        bytes: &[u8],
        answer: Fed,
        desk: Option<&Desk>,
        counts: &mut CopyCounts,
    ) -> bool {
        if answer == Fed::Had {
            return true;
        }
        if !self.in_step {
            return false;
        }
        if answer == Fed::Taken {
            let block = decode(bytes, copy.state.slots, copy.state.pages).unwrap();
            self.book.took(&block);
            self.newest = block.sequence;
            let desks = desk.and_then(|desk| desk.blocks.block(self.newest));
            if self.is_the_desks(desk) && desks == Some(bytes) {
                counts.desks_blocks += 1;
            } else {
                counts.other_blocks += 1;
                self.life = None;
            }
        }
        assert_eq!(
            copy.state.stored,
            self.book.group.len() as u64,
            "request l: the half group of the state is the book's"
        );
        self.try_opening(copy, counts);
        true
    }

    pub fn read(&self, page: u64, bytes: &[u8], counts: &mut CopyCounts) {
        if self.in_step {
            assert!(
                bytes == self.book.pages[page as usize],
                "request l: Read of page {page} on the copy"
            );
            counts.book_answers += 1;
        }
    }

    pub fn settled(&self, ticket: u64, yes: bool, counts: &mut CopyCounts) {
        if self.in_step {
            // Nothing is queued, so that Settled never says no: above m it is refused.
            assert!(
                yes && ticket <= self.book.committed,
                "request l: Settled on the copy"
            );
            counts.book_answers += 1;
        }
    }

    pub fn cut(&mut self, copy: &CopyStore, counts: &mut CopyCounts) {
        self.in_step = false;
        self.try_opening(copy, counts);
    }

    /// What the next opening would answer if the power were cut now: over clones of log and home, with
    /// anything in frames.
    fn try_opening(&self, copy: &CopyStore, counts: &mut CopyCounts) {
        let Some((pages, frames)) = self.pages_and_frames else {
            return;
        };
        let mut cut = CopyStore::new(
            &copy.log[..self.slots as usize * BLOCK_SIZE],
            &copy.home[..pages as usize * PAGE_SIZE],
            frames,
        );
        cut.frames.fill(99);
        let (state, answer) =
            recovery::open_copy(&cut.log, &cut.home, &mut cut.frames, FreeChoice::Highest);
        cut.state = state;
        self.check_opened(&cut, &answer);
        counts.book_openings += 1;
    }

    /// Whether the copy was made in this life of the desk and took no other blocks than the desk's.
    fn is_the_desks(&self, desk: Option<&Desk>) -> bool {
        match desk {
            Some(desk) => self.life == Some(desk.blocks.life),
            None => false,
        }
    }

    /// Agreement and keeping up, wherever their premises hold now. `whole_way` asks for every block that
    /// the desk is ahead, not only for the next one.
    pub fn compare_with_the_desk(
        &self,
        copy: &CopyStore,
        desk: Option<&Desk>,
        whole_way: bool,
        counts: &mut CopyCounts,
    ) {
        let Some(desk) = desk else {
            return;
        };
        if !self.is_the_desks(Some(desk)) {
            return;
        }
        if self.newest == desk.blocks.newest() {
            self.agree(copy, desk, counts);
        } else if self.in_step && desk.watch.pages_and_frames() == self.pages_and_frames {
            self.keep_up(copy, desk, whole_way, counts);
        }
    }

    /// Both have the same newest block: every page reads the same on both.
    fn agree(&self, copy: &CopyStore, desk: &Desk, counts: &mut CopyCounts) {
        let book = desk.watch.book();
        assert_eq!(self.book.committed, book.committed(), "request l: m agrees");
        assert!(self.book.pages == book.pages(), "request l: pages agree");
        counts.agreements += 1;
        // A script may have set the desk's next so that Read is refused with 2.
        if self.in_step && desk.watch.is_in_step() && desk.store.state.is_sound() {
            let store = desk.store;
            let state = &store.state;
            let home = &store.home[..state.pages as usize * PAGE_SIZE];
            let frames = &store.frames[..state.frames as usize * PAGE_SIZE];
            for page in 0..state.pages.min(copy.state.pages) {
                let shown = calls::read(state, home, frames, page).unwrap();
                assert!(shown == copy.page(page), "request l: page {page} agrees");
            }
            counts.agreements_read += 1;
        }
    }

    /// The copy has the desk's blocks so far, and the desk has more: the next one is not refused; not yet
    /// at most twice, then taken. With all of them taken the copy shows the desk's pages.
    fn keep_up(&self, copy: &CopyStore, desk: &Desk, whole_way: bool, counts: &mut CopyCounts) {
        let mut copy = copy.clone();
        // Where a script has set the desk's next there may be no block of that sequence.
        while let Some(bytes) = desk.blocks.block(copy.state.next) {
            let mut answers = Vec::new();
            while !answers.contains(&Fed::Taken) {
                assert!(answers.len() < 3, "request l: not yet at most twice");
                let answer = copy.feed(bytes, FreeChoice::Lowest);
                answers.push(answer.expect("request l: the desk's next block is not refused"));
            }
            assert!(!answers.contains(&Fed::Had));
            counts.kept_up += 1;
            if !whole_way {
                return;
            }
        }
        if copy.state.next == desk.blocks.newest() + 1 {
            for page in 0..copy.state.pages {
                assert!(
                    copy.page(page) == desk.watch.book().page(page),
                    "request l: page {page} of a copy that has caught up"
                );
            }
            counts.caught_up += 1;
        }
    }
}

impl CopyStore {
    /// What Read shows of a page, over areas of the state's own sizes.
    fn page(&self, page: u64) -> &[u8] {
        let home = &self.home[..self.state.pages as usize * PAGE_SIZE];
        let frames = &self.frames[..self.state.frames as usize * PAGE_SIZE];
        calls::read(&self.state, home, frames, page).unwrap()
    }

    /// A feed over areas of the state's own sizes.
    fn feed(&mut self, bytes: &[u8], choice: FreeChoice) -> Result<Fed, copies::RefusedFeed> {
        let log = &mut self.log[..self.state.slots as usize * BLOCK_SIZE];
        let home = &mut self.home[..self.state.pages as usize * PAGE_SIZE];
        let frames = &mut self.frames[..self.state.frames as usize * PAGE_SIZE];
        copies::feed(&mut self.state, log, home, frames, bytes, choice)
    }
}
