//! Keeps the book beside a run and asserts that every accepted call answers what the book says,
//! and that an opening after each store and each cut is accepted and shows the book's pages; and that
//! it is refused with 7 if the newest block is damaged. It panics where the model breaks its own book.
//!
//! The crash theorem speaks of lists of calls that start at a finished Format, at the same sizes, where
//! nobody else writes state and areas. A script can leave these lists. The watch then is either
//! given up (the log is no longer what the calls made of it) or out of step until the next
//! opening (only the state is not what the last call left).

use crate::block::{read_slot, slot_of, Slot, BLOCK_SIZE, MAX_UPDATE_LENGTH, PAGE_SIZE};
use crate::book::Book;
use crate::calls::{self, FreeChoice, Refusal};
use crate::recovery::{self, RefusedOpening};
use crate::script::{Counts, Store};
use crate::state::State;

pub struct Watch {
    book: Book,
    /// N at Format.
    slots: u64,
    /// P and F, known from the first opening at N slots that is not refused with 1.
    pages_and_frames: Option<(u64, u64)>,
    /// Whether the state in hand is the one that the book's calls left.
    in_step: bool,
    /// Whether the stored sequences have no gap: the script has not set next.
    no_gap: bool,
}

impl Watch {
    /// The watch at the end of Format. Format gives no state, so an opening must come first.
    pub fn new(slots: u64, home: &[u8]) -> Watch {
        Watch {
            book: Book::new(home),
            slots,
            pages_and_frames: None,
            in_step: false,
            no_gap: true,
        }
    }

    // What a copy of this desk is compared with.

    pub fn book(&self) -> &Book {
        &self.book
    }

    pub fn slots(&self) -> u64 {
        self.slots
    }

    pub fn pages_and_frames(&self) -> Option<(u64, u64)> {
        self.pages_and_frames
    }

    pub fn is_in_step(&self) -> bool {
        self.in_step
    }

    pub fn open(
        &mut self,
        store: &Store,
        answer: &Result<u64, RefusedOpening>,
        counts: &mut Counts,
    ) {
        self.book.open_or_cut();
        self.in_step = false;
        if let Err(refused) = answer {
            if refused.refusal == Refusal::WrongLength {
                return;
            }
        }
        let slots = (store.lent_log / BLOCK_SIZE) as u64;
        let pages = (store.lent_home / PAGE_SIZE) as u64;
        let frames = (store.lent_frames / PAGE_SIZE) as u64;
        let known = *self.pages_and_frames.get_or_insert_with(|| (pages, frames));
        if slots != self.slots || known != (pages, frames) {
            // An opening at other sizes. It writes neither log nor home, so the book is still
            // right about them.
            return;
        }
        let ticket = answer.expect("the crash theorem: the opening is accepted");
        assert_eq!(
            ticket,
            self.book.committed(),
            "the crash theorem: the opening reports m"
        );
        for page in 0..pages {
            let lent_home = &store.home[..store.lent_home];
            let lent_frames = &store.frames[..store.lent_frames];
            let shown = calls::read(&store.state, lent_home, lent_frames, page).unwrap();
            assert!(
                shown == self.book.page(page),
                "the crash theorem: page {page} after an opening"
            );
        }
        counts.book_openings += 1;
        self.in_step = true;
    }

    pub fn begin(&mut self) {
        if self.in_step {
            self.book.begin();
        }
    }

    pub fn describe(&mut self, page: u64, offset: u64, bytes: &[u8]) {
        if self.in_step {
            self.book.describe(page, offset, bytes);
        }
    }

    pub fn end(&mut self, ticket: u64, counts: &mut Counts) {
        if self.in_step {
            assert_eq!(
                ticket,
                self.book.end(),
                "the crash theorem: the ticket of End"
            );
            counts.book_answers += 1;
        }
    }

    /// Says whether the watch goes on.
    pub fn log_step(&mut self, store: &Store, settled: Option<u64>, counts: &mut Counts) -> bool {
        if !self.in_step {
            return false;
        }
        assert_eq!(
            settled,
            self.book.log_step(),
            "the crash theorem: the report of Log step"
        );
        counts.book_answers += 1;
        self.try_opening(store, counts);
        true
    }

    /// Says whether the watch goes on.
    pub fn clean_step(&mut self, store: &Store, counts: &mut Counts) -> bool {
        if !self.in_step {
            return false;
        }
        self.try_opening(store, counts);
        true
    }

    pub fn read(&mut self, page: u64, bytes: &[u8], counts: &mut Counts) {
        if self.in_step {
            assert!(
                bytes == self.book.page(page),
                "the crash theorem: Read of page {page}"
            );
            counts.book_answers += 1;
        }
    }

    pub fn settled(&mut self, ticket: u64, yes: bool, counts: &mut Counts) {
        if self.in_step {
            assert_eq!(
                yes,
                ticket <= self.book.committed(),
                "the crash theorem: Settled"
            );
            counts.book_answers += 1;
        }
    }

    pub fn cut(&mut self, store: &Store, counts: &mut Counts) {
        self.book.open_or_cut();
        self.in_step = false;
        self.try_opening(store, counts);
    }

    /// The script sets the state's next. The crash theorem does not cover it. Where nothing in the log is
    /// needed any more, a later next only leaves sequences out, and the book stays right; this
    /// is how the book is kept up to the last sequence. Else the state is no longer the one that
    /// the calls left.
    pub fn next_is_set(&mut self, state: &State, next: u64) {
        if next != state.next {
            self.no_gap = false;
        }
        let log_is_not_needed = state.dirty.is_empty() && state.stored == 0;
        if !(log_is_not_needed && next >= state.next) {
            self.book.open_or_cut();
            self.in_step = false;
        }
    }

    /// What the next opening would answer if the power were cut now: over copies of log and
    /// home, with anything in frames and staging.
    fn try_opening(&self, store: &Store, counts: &mut Counts) {
        let Some((pages, frame_count)) = self.pages_and_frames else {
            return;
        };
        let log = store.log[..self.slots as usize * BLOCK_SIZE].to_vec();
        let home = store.home[..pages as usize * PAGE_SIZE].to_vec();
        let mut frames = vec![99; frame_count as usize * PAGE_SIZE];
        let staging = vec![99; frame_count as usize * MAX_UPDATE_LENGTH];
        let choice = FreeChoice::Highest;
        let (state, answer) = recovery::open(&log, &home, &mut frames, &staging, choice);
        let ticket = answer.expect("the crash theorem: an opening after a cut is accepted");
        assert_eq!(
            ticket,
            self.book.committed(),
            "the crash theorem: an opening after a cut reports m"
        );
        assert!(state.is_sound());
        for page in 0..pages {
            let shown = calls::read(&state, &home, &frames, page).unwrap();
            assert!(
                shown == self.book.page(page),
                "the crash theorem: page {page} after a cut"
            );
        }
        counts.book_openings += 1;
        if self.no_gap && state.next > 1 {
            self.try_damaged(&log, &home, state.next - 1, counts);
            self.try_bad_slots(&log, &home, state.next - 1, counts);
        }
    }

    /// An opening with the newest block damaged, each time in another byte.
    fn try_damaged(&self, log: &[u8], home: &[u8], newest: u64, counts: &mut Counts) {
        let Some((pages, frame_count)) = self.pages_and_frames else {
            return;
        };
        let slot = slot_of(newest, self.slots);
        let first = slot as usize * BLOCK_SIZE;
        let mut log = log.to_vec();
        let place = first + counts.damaged_openings as usize * 37 % BLOCK_SIZE;
        log[place] = log[place].wrapping_add(1 + (counts.damaged_openings % 255) as u8);
        let bytes = &log[first..first + BLOCK_SIZE];
        assert_eq!(read_slot(bytes, slot, self.slots, pages), Slot::Damaged);
        let mut frames = vec![99; frame_count as usize * PAGE_SIZE];
        let staging = vec![99; frame_count as usize * MAX_UPDATE_LENGTH];
        let (state, answer) =
            recovery::open(&log, home, &mut frames, &staging, FreeChoice::Highest);
        let refused = answer.expect_err("request f: the newest block is not passed over");
        assert_eq!(
            refused.refusal,
            Refusal::Damaged,
            "request f: refused with 7"
        );
        assert!(refused.place <= newest, "request f: the place");
        assert!(state == State::all_zero());
        assert!(frames.iter().all(|byte| *byte == 0));
        counts.damaged_openings += 1;
    }

    /// An opening with some slots damaged, each time others: refused with 7, or all as before.
    fn try_bad_slots(&self, log: &[u8], home: &[u8], newest: u64, counts: &mut Counts) {
        let Some((pages, frame_count)) = self.pages_and_frames else {
            return;
        };
        let mut log = log.to_vec();
        let mut newest_is_bad = false;
        for slot in 0..self.slots {
            // Numbers that look random, from the count of such openings and the slot.
            let mixed = (counts.bad_openings * 1024 + slot).wrapping_mul(0x9E37_79B9_7F4A_7C15);
            if mixed >> 32 & 7 > counts.bad_openings % 4 {
                continue;
            }
            let place = slot as usize * BLOCK_SIZE + (mixed >> 40) as usize % BLOCK_SIZE;
            log[place] = log[place].wrapping_add(1 + (mixed >> 50) as u8 % 255);
            let bytes = &log[slot as usize * BLOCK_SIZE..][..BLOCK_SIZE];
            assert_eq!(read_slot(bytes, slot, self.slots, pages), Slot::Damaged);
            newest_is_bad |= slot == slot_of(newest, self.slots);
        }
        let mut frames = vec![99; frame_count as usize * PAGE_SIZE];
        let staging = vec![99; frame_count as usize * MAX_UPDATE_LENGTH];
        let (state, answer) = recovery::open(&log, home, &mut frames, &staging, FreeChoice::Lowest);
        counts.bad_openings += 1;
        match answer {
            Err(refused) => assert_eq!(refused.refusal, Refusal::Damaged, "request f"),
            Ok(ticket) => {
                assert!(!newest_is_bad, "request f: the newest block is damaged");
                assert_eq!(ticket, self.book.committed(), "request f: m");
                for page in 0..pages {
                    let shown = calls::read(&state, home, &frames, page).unwrap();
                    assert!(shown == self.book.page(page), "request f: page {page}");
                }
                counts.bad_openings_accepted += 1;
            }
        }
    }
}
