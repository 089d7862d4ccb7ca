//! The lines of request l in a random script. They come between the desk's own lines and draw from a
//! generator of their own, so that what the desk does in a script does not depend on them.

use super::{with_changed_byte, Maker, Random, ODD_NUMBERS};
use crate::block::{
    decode, encode, slot_of, Block, Kind, BLOCK_SIZE, MAX_GROUP_UPDATES, PAGE_SIZE, SEQUENCE_LIMIT,
};
use crate::copies::right_keep_from;
use crate::copy_script::CopyStore;
use crate::state::State;

/// How a script uses copies.
#[derive(Clone, Copy, Debug, PartialEq, Eq)]
pub enum Manner {
    NoCopies,
    /// Made at Format and fed the desk's blocks in order, mostly at once.
    Follows,
    /// Made at some moment, fed seldom and then much, often too late.
    Lags,
    /// Fed blocks that are made up for it.
    MadeUp,
    Anything,
}

#[derive(Clone, Copy, Debug, PartialEq, Eq)]
enum CopyAction {
    OldBlock,
    BlockAhead,
    AnySlot,
    Open,
    Cut,
    Read,
    ReadAll,
    Settled,
    WrongLengths,
    OtherSizes,
    HeldPoked,
    HeldChanged,
    MadeUp,
    Spoilt,
    Interrupted,
    TooManyPages,
    TooLong,
    Lacking,
    PokeLog,
    DesksState,
    Begin,
    Digests,
    Remake,
    BadLine,
}

/// How often each action is drawn.
const WEIGHTS: [(CopyAction, u64); 24] = [
    (CopyAction::OldBlock, 10),
    (CopyAction::BlockAhead, 6),
    (CopyAction::AnySlot, 8),
    (CopyAction::Open, 4),
    (CopyAction::Cut, 8),
    (CopyAction::Read, 8),
    (CopyAction::ReadAll, 4),
    (CopyAction::Settled, 6),
    (CopyAction::WrongLengths, 5),
    (CopyAction::OtherSizes, 4),
    (CopyAction::HeldPoked, 5),
    (CopyAction::HeldChanged, 8),
    (CopyAction::MadeUp, 6),
    (CopyAction::Spoilt, 12),
    (CopyAction::Interrupted, 8),
    (CopyAction::TooManyPages, 7),
    (CopyAction::TooLong, 1),
    (CopyAction::Lacking, 5),
    (CopyAction::PokeLog, 3),
    (CopyAction::DesksState, 5),
    (CopyAction::Begin, 4),
    (CopyAction::Digests, 4),
    (CopyAction::Remake, 3),
    (CopyAction::BadLine, 4),
];

/// The most lines of request l in a script, beside those that end it.
const MOST_LINES: usize = 600;

/// The generator of these lines, and the manner of the script.
pub fn side_of(seed: u64) -> (Random, Manner) {
    let mut side = Random::new(seed ^ 0x0063_6F70_6965_7300);
    let manner = match side.below(20) {
        0..=2 => Manner::NoCopies,
        3..=11 => Manner::Follows,
        12..=14 => Manner::Lags,
        15..=17 => Manner::MadeUp,
        _ => Manner::Anything,
    };
    (side, manner)
}

impl Maker {
    fn copy(&self) -> &CopyStore {
        self.runner.copy.as_ref().expect("a copy is made")
    }

    fn copy_state(&self) -> &State {
        &self.copy().state
    }

    fn copy_is_open(&self) -> bool {
        self.copy_state().is_sound_copy()
    }

    /// The slots of the desk's whole log.
    fn desk_slots(&self) -> u64 {
        (self.store().log.len() / BLOCK_SIZE) as u64
    }

    /// The sequence of the block in the desk's slot for this sequence; 0 in an unused slot.
    fn sequence_in_slot(&self, sequence: u64) -> u64 {
        let first = slot_of(sequence, self.desk_slots()) as usize * BLOCK_SIZE;
        let field = &self.store().log[first..first + 8];
        u64::from_le_bytes(field.try_into().unwrap())
    }

    /// Some lines of request l, or none, after a line of the desk.
    pub fn copy_turn(&mut self, line: &str, answer: &str) {
        let lines = self.lines.len() - self.desk_lines;
        if self.manner == Manner::NoCopies || lines > MOST_LINES {
            return;
        }
        if self.runner.store.is_none() {
            if self.side.chance(10) {
                self.line_without_a_copy();
            }
            return;
        }
        let formatted = line == "f" && answer == "ok";
        let stored = answer == "stored" || answer.starts_with("settled");
        if self.runner.copy.is_none() {
            let percent = match self.manner {
                Manner::Follows if formatted => 85,
                Manner::Follows if stored => 15,
                Manner::MadeUp | Manner::Anything if formatted => 50,
                Manner::MadeUp | Manner::Anything if stored => 10,
                _ if stored => 3,
                _ => 1,
            };
            if self.side.chance(percent) {
                self.make_copy();
            } else if self.side.chance(2) {
                self.line_without_a_copy();
            }
            return;
        }
        // Pokes of the desk's log come in long runs.
        if line.starts_with('p') && self.side.chance(97) {
            return;
        }
        if formatted && self.side.chance(50) {
            self.make_copy();
            return;
        }
        // A copy of a log that was poked.
        if line == "o" && self.runner.watch.is_none() && self.side.chance(35) {
            self.make_copy();
            return;
        }
        if !self.copy_is_open() && self.side.chance(50) {
            self.come_back_to_the_copy();
            return;
        }
        let (feeds, makes_up, acts) = match self.manner {
            Manner::NoCopies => (0, 0, 0),
            Manner::Follows => (if stored { 75 } else { 5 }, 0, 4),
            Manner::Lags => (if stored { 12 } else { 1 }, 0, 3),
            Manner::MadeUp => (2, 8, 3),
            Manner::Anything => (if stored { 40 } else { 3 }, 2, 10),
        };
        if self.side.chance(feeds) {
            let most = self.side.from_to(1, 20);
            self.feed_new_blocks(most);
        }
        if self.side.chance(makes_up) {
            self.made_up_blocks();
        }
        if self.side.chance(acts) {
            self.copy_action();
        }
    }

    /// The last lines of a script.
    pub fn last_of_the_copy(&mut self) {
        if self.runner.copy.is_some() {
            self.tell("G");
            self.lend_the_copy_whole();
            self.tell("O");
            self.feed_new_blocks(64);
            self.reads_of_the_copy();
            self.tell("G");
        }
    }

    fn make_copy(&mut self) {
        self.tell("M");
        if self.side.chance(6) {
            // With fewer frames, so that it finds too few of them for the desk's blocks some day.
            let all = self.copy().frames.len() as u64 / PAGE_SIZE as u64;
            let frames = self.side.from_to(1, all) * PAGE_SIZE as u64;
            let most = u64::MAX;
            self.tell(format!("N {most} {most} {frames} {most}"));
        }
        if self.side.chance(95) {
            self.tell("O");
        }
        if self.side.chance(15) {
            self.reads_of_the_copy();
        }
    }

    fn lend_the_copy_whole(&mut self) {
        let copy = self.copy();
        let whole = copy.lent_log == copy.log.len()
            && copy.lent_home == copy.home.len()
            && copy.lent_frames == copy.frames.len()
            && copy.lent_block == BLOCK_SIZE;
        if !whole {
            let most = u64::MAX;
            self.tell(format!("N {most} {most} {most} {most}"));
        }
    }

    fn come_back_to_the_copy(&mut self) {
        self.lend_the_copy_whole();
        if self.tell("O").starts_with("refused") && self.side.chance(70) {
            self.make_copy();
        }
    }

    /// Feeds the desk's blocks from the copy's next on, as long as they stand in the desk's log.
    fn feed_new_blocks(&mut self, most: u64) {
        for _ in 0..most {
            let next = self.copy_state().next;
            let found = self.sequence_in_slot(next);
            if !self.copy_is_open() || found != next {
                if found > next && found < SEQUENCE_LIMIT && self.side.chance(25) {
                    // It is too late for this copy.
                    self.make_copy();
                }
                return;
            }
            if self.side.chance(6) && self.sequence_in_slot(next + 1) == next + 1 {
                // A block is left out.
                self.tell(format!("F {}", next + 1));
            }
            // Any number with the same slot does.
            let number = match self.side.below(10) {
                0 => slot_of(next, self.desk_slots()),
                1 => next + self.desk_slots() * self.side.below(1 << 40),
                _ => next,
            };
            let answer = self.feed_until_taken(&format!("F {number}"));
            if answer.starts_with("refused") && self.side.chance(40) {
                // The desk has begun another life, or the copy went its own way.
                self.make_copy();
            }
            if answer != "taken" {
                return;
            }
            if self.side.chance(4) {
                self.old_block();
            }
        }
    }

    /// Says the line until its block is taken or refused, with something between now and then.
    fn feed_until_taken(&mut self, line: &str) -> String {
        let mut answer = self.tell(line);
        for _ in 0..8 {
            if answer != "not yet" || self.side.chance(3) {
                break;
            }
            if self.side.chance(18) {
                self.something_between();
            }
            answer = self.tell(line);
        }
        answer
    }

    fn something_between(&mut self) {
        match self.side.below(9) {
            0 => self.old_block(),
            1 => {
                self.tell("X");
                self.tell("O");
            }
            2 => self.reads_of_the_copy(),
            3 => {
                self.tell("F 0");
            }
            4..=6 => {
                // Of a dirty page, mostly another one than that which is cleaned.
                let dirty: Vec<u64> = self.copy_state().dirty.iter().map(|d| d.page).collect();
                if !dirty.is_empty() {
                    let page = self.side.choose(&dirty);
                    self.is_taken(Kind::Clean { page });
                }
            }
            _ => {
                let block = self.right_block();
                if self.hold(&encode(&block)) {
                    self.tell("W");
                }
            }
        }
    }

    fn old_block(&mut self) {
        let back = self.side.from_to(1, self.desk_slots());
        let number = self.copy_state().next.saturating_sub(back);
        self.tell(format!("F {number}"));
    }

    fn reads_of_the_copy(&mut self) {
        for page in 0..self.copy_state().pages {
            self.tell(format!("R {page}"));
        }
    }

    /// Makes these bytes the block held aside, from the nearest block there is. It says whether it did.
    fn hold(&mut self, bytes: &[u8]) -> bool {
        let differences = |other: &[u8]| -> usize {
            let pairs = other.iter().zip(bytes);
            pairs.filter(|(a, b)| a != b).count()
        };
        let held = differences(&self.runner.held);
        let slots = self.store().log.chunks(BLOCK_SIZE).enumerate();
        let counted = slots.map(|(slot, there)| (differences(there), slot));
        let (fewest, slot) = counted.min().unwrap();
        if fewest.min(held) > 40 {
            return false;
        }
        if fewest + 1 < held {
            self.tell(format!("H {slot}"));
        }
        for j in 0..BLOCK_SIZE {
            if self.runner.held[j] != bytes[j] {
                self.tell(format!("K {j} {}", bytes[j]));
            }
        }
        true
    }

    /// A block of this kind for the copy's next, with the right ticket and keep-from.
    fn block_of(&self, kind: Kind) -> Block {
        let state = self.copy_state();
        let ticket = match kind {
            Kind::Commit { .. } => state.committed + 1,
            _ => state.committed,
        };
        Block {
            sequence: state.next,
            keep_from: right_keep_from(state, &kind),
            ticket,
            kind,
        }
    }

    fn update_of(&mut self, index: u64, page: u64) -> Kind {
        Kind::Update {
            index,
            page,
            offset: self.side.choose(&[0, 1, 511, 512, 1023]),
            new_bytes: vec![self.side.from_to(1, 255) as u8],
        }
    }

    /// A block made up for the copy, which breaks no rule but perhaps finds no room or frame.
    fn right_block(&mut self) -> Block {
        let state = self.copy_state().clone();
        let pages = state.pages.max(1);
        let dirty: Vec<u64> = state.dirty.iter().map(|dirty| dirty.page).collect();
        let page = if !dirty.is_empty() && self.side.chance(50) {
            self.side.choose(&dirty)
        } else {
            self.side.below(pages)
        };
        let stored = state.stored;
        let kind = match self.side.below(20) {
            0..=3 => self.update_of(1, page),
            4..=8 if stored < MAX_GROUP_UPDATES => self.update_of(stored + 1, page),
            4..=14 if stored > 0 => Kind::Commit { updates: stored },
            9..=18 if !dirty.is_empty() => Kind::Clean {
                page: self.side.choose(&dirty),
            },
            9..=14 => self.update_of(1, page),
            _ => Kind::Clean { page },
        };
        self.block_of(kind)
    }

    /// One thing of a right block made wrong, or at least other.
    fn spoil(&mut self, block: &mut Block) {
        let slots = self.copy_state().slots.max(8);
        let pages = self.copy_state().pages.max(1);
        match self.side.below(16) {
            0 | 14 => block.ticket += 1,
            1 | 15 => block.ticket = block.ticket.saturating_sub(1),
            2 => block.keep_from = block.keep_from.saturating_sub(1),
            3 => block.keep_from += 1,
            4 => block.keep_from = block.sequence,
            5 => block.keep_from = (block.sequence + 1).saturating_sub(slots),
            6 => block.sequence += self.side.choose(&[1, 2, slots]),
            7 => block.sequence = block.sequence.saturating_sub(self.side.from_to(1, slots)),
            8 => {
                // Another sequence with all else moved along.
                block.sequence += 1;
                block.keep_from += 1;
            }
            9 => block.sequence = block.sequence.wrapping_add(1 << 48),
            _ => match &mut block.kind {
                Kind::Update { index, page, .. } => match self.side.below(4) {
                    0 => *index += 1,
                    1 => *index = self.side.from_to(0, 17),
                    2 => *page = self.side.below(pages),
                    _ => *page = pages + self.side.below(2),
                },
                Kind::Commit { updates } => *updates = self.side.from_to(0, 17),
                Kind::Clean { page } => *page = self.side.below(pages + 1),
            },
        }
    }

    /// A few blocks made up for the copy, now and then a wrong one.
    fn made_up_blocks(&mut self) {
        for _ in 0..self.side.from_to(1, 5) {
            if !self.copy_is_open() {
                return;
            }
            let mut block = self.right_block();
            if self.side.chance(15) {
                self.spoil(&mut block);
            }
            if !self.hold(&encode(&block)) {
                return;
            }
            self.feed_until_taken("W");
        }
    }

    fn copy_action(&mut self) {
        let all: u64 = WEIGHTS.iter().map(|(_, weight)| weight).sum();
        let mut drawn = self.side.below(all);
        for (action, weight) in WEIGHTS {
            if drawn < weight {
                self.do_copy_action(action);
                return;
            }
            drawn -= weight;
        }
    }

    fn do_copy_action(&mut self, action: CopyAction) {
        match action {
            CopyAction::OldBlock => self.old_block(),
            CopyAction::BlockAhead => {
                let ahead = self.side.from_to(1, 4);
                let number = self.copy_state().next.saturating_add(ahead);
                self.tell(format!("F {number}"));
            }
            CopyAction::AnySlot => {
                let number = match self.side.below(3) {
                    0 => self.side.choose(&ODD_NUMBERS),
                    _ => self.side.below(2 * self.desk_slots()),
                };
                self.feed_until_taken(&format!("F {number}"));
            }
            CopyAction::Open => {
                self.tell("O");
            }
            CopyAction::Cut => {
                self.tell("X");
                if self.side.chance(25) {
                    for _ in 0..self.side.from_to(1, 4) {
                        let line = self.side.choose(&["F 1", "W", "R 0", "S 1", "B", "G"]);
                        self.tell(line);
                    }
                }
                if self.side.chance(90) {
                    self.tell("O");
                }
                if self.side.chance(30) {
                    self.reads_of_the_copy();
                }
            }
            CopyAction::Read => {
                let pages = self.copy_state().pages.max(1);
                let page = match self.side.below(8) {
                    0 => pages,
                    1 => self.side.choose(&ODD_NUMBERS),
                    _ => self.side.below(pages),
                };
                self.tell(format!("R {page}"));
            }
            CopyAction::ReadAll => self.reads_of_the_copy(),
            CopyAction::Settled => {
                let committed = self.copy_state().committed;
                let ticket = match self.side.below(8) {
                    0 => self.side.choose(&ODD_NUMBERS),
                    1 => committed + 1,
                    2 => 0,
                    _ => committed - self.side.below(committed.clamp(1, 3)),
                };
                self.tell(format!("S {ticket}"));
            }
            CopyAction::WrongLengths => self.wrong_lengths_of_the_copy(),
            CopyAction::OtherSizes => self.other_sizes_of_the_copy(),
            CopyAction::HeldPoked => {
                let number = self.copy_state().next.saturating_sub(self.side.below(3));
                self.tell(format!("H {number}"));
                let place = self.side.below(BLOCK_SIZE as u64);
                let old = self.runner.held[place as usize];
                let value = old.wrapping_add(self.side.from_to(1, 255) as u8);
                self.tell(format!("K {place} {value}"));
                self.tell("W");
                if self.side.chance(50) {
                    self.tell(format!("K {place} {old}"));
                    self.feed_until_taken("W");
                }
            }
            CopyAction::HeldChanged => self.held_changed(),
            CopyAction::MadeUp => self.made_up_blocks(),
            CopyAction::Spoilt => {
                for _ in 0..self.side.from_to(1, 3) {
                    let mut block = self.right_block();
                    self.spoil(&mut block);
                    if self.hold(&encode(&block)) {
                        self.feed_until_taken("W");
                    }
                }
            }
            CopyAction::Interrupted => self.interrupted(),
            CopyAction::TooManyPages => self.too_many_pages(),
            CopyAction::TooLong => self.too_long(),
            CopyAction::Lacking => self.lacking(),
            CopyAction::PokeLog => self.poke_the_copys_log(),
            CopyAction::DesksState => {
                let number = match self.side.below(4) {
                    0 => self.side.choose(&ODD_NUMBERS),
                    _ => self.state().next.wrapping_sub(self.side.below(2)),
                };
                self.tell(format!("D {number}"));
            }
            CopyAction::Begin => {
                self.tell("B");
            }
            CopyAction::Digests => {
                self.tell("G");
            }
            CopyAction::Remake => self.make_copy(),
            CopyAction::BadLine => self.bad_line_of_the_copy(),
        }
    }

    /// The desk's next block for the copy with one byte changed, its check made right again or not.
    fn held_changed(&mut self) {
        let next = self.copy_state().next;
        let first = slot_of(next, self.desk_slots()) as usize * BLOCK_SIZE;
        let block = self.store().log[first..first + BLOCK_SIZE].to_vec();
        let changed = with_changed_byte(&mut self.side, &block);
        if self.hold(&changed) {
            self.feed_until_taken("W");
        }
    }

    /// Feeds the copy a block made up of this kind, and says whether it was taken at once.
    fn is_taken(&mut self, kind: Kind) -> bool {
        let block = self.block_of(kind);
        self.hold(&encode(&block)) && self.tell("W") == "taken"
    }

    /// A page's cleaning, interrupted by an update, mostly of the same page, and its commit; then the
    /// cleaning again.
    fn interrupted(&mut self) {
        if !self.copy_is_open() || self.copy_state().dirty.is_empty() {
            return;
        }
        let dirty: Vec<u64> = self.copy_state().dirty.iter().map(|d| d.page).collect();
        let cleaned = self.side.choose(&dirty);
        self.is_taken(Kind::Clean { page: cleaned });
        if self.side.chance(50) {
            self.tell("W");
        }
        let changed = if self.side.chance(75) {
            cleaned
        } else {
            self.side.below(self.copy_state().pages)
        };
        let kind = self.update_of(1, changed);
        if self.is_taken(kind) && self.side.chance(80) {
            self.is_taken(Kind::Commit { updates: 1 });
        }
        let block = self.block_of(Kind::Clean { page: cleaned });
        if self.hold(&encode(&block)) {
            self.feed_until_taken("W");
            self.tell(format!("R {cleaned}"));
        }
    }

    /// A group of one page more than the copy has frames for, often where there is just room for its
    /// commit in the log, or just none.
    fn too_many_pages(&mut self) {
        if !self.copy_is_open() {
            return;
        }
        let state = self.copy_state().clone();
        let clean = (0..state.pages).filter(|page| state.dirty_page(*page).is_none());
        let needed = state.frames - state.dirty.len() as u64 + 1;
        let pages: Vec<u64> = clean.take(needed as usize).collect();
        if (pages.len() as u64) < needed {
            return;
        }
        if let Some(oldest) = state.dirty.iter().map(|dirty| dirty.first_group).min() {
            // H + D once the group's commit is stored.
            let sum = state.next + needed + 1 - oldest + state.frames + 1;
            let wanted = state.slots + self.side.below(2);
            if sum < wanted && wanted - sum < 12 && self.side.chance(80) {
                for _ in sum..wanted {
                    let kind = self.update_of(1, 0);
                    if !self.is_taken(kind) {
                        return;
                    }
                }
            }
        }
        for (j, page) in pages.iter().enumerate() {
            let kind = self.update_of(j as u64 + 1, *page);
            if !self.is_taken(kind) {
                return;
            }
        }
        self.is_taken(Kind::Commit { updates: needed });
        if self.side.chance(50) {
            self.tell("O");
        }
    }

    /// Half groups after a dirty page, until there is no room for the next one.
    fn too_long(&mut self) {
        for _ in 0..self.copy_state().slots.min(16) + 2 {
            if !self.copy_is_open() {
                return;
            }
            let state = self.copy_state().clone();
            let kind = match (state.dirty.is_empty(), state.stored) {
                (true, 1..) => Kind::Commit {
                    updates: state.stored,
                },
                _ => self.update_of(1, self.side_page()),
            };
            if !self.is_taken(kind) {
                return;
            }
        }
    }

    fn side_page(&self) -> u64 {
        self.copy_state().next % self.copy_state().pages.max(1)
    }

    /// Changes a byte of the half group in the copy's own log, and feeds its commit.
    fn lacking(&mut self) {
        if !self.copy_is_open() {
            return;
        }
        if self.copy_state().stored == 0 {
            for index in 1..=self.side.from_to(1, 3) {
                let page = self.side.below(self.copy_state().pages);
                let kind = self.update_of(index, page);
                if !self.is_taken(kind) {
                    return;
                }
            }
        }
        let state = self.copy_state().clone();
        let mut changed = Vec::new();
        for _ in 0..self.side.from_to(1, 2) {
            let back = self.side.from_to(1, state.stored);
            let slot = slot_of(state.next - back, state.slots);
            let place = slot * BLOCK_SIZE as u64 + self.side.below(BLOCK_SIZE as u64);
            let old = self.copy().log[place as usize];
            changed.push((place, old));
            self.tell(format!("P {place} {}", old.wrapping_add(1)));
        }
        let next = state.next;
        let first = slot_of(next, self.desk_slots()) as usize * BLOCK_SIZE;
        let bytes = &self.store().log[first..first + BLOCK_SIZE];
        let desks = match decode(bytes, state.slots, state.pages) {
            Some(block) => block.sequence == next && matches!(block.kind, Kind::Commit { .. }),
            None => false,
        };
        let line = if desks {
            format!("F {next}")
        } else {
            let updates = if self.side.chance(80) {
                state.stored
            } else {
                self.side.from_to(1, 16)
            };
            let block = self.block_of(Kind::Commit { updates });
            if !self.hold(&encode(&block)) {
                return;
            }
            "W".to_string()
        };
        self.tell(&line);
        if self.side.chance(30) {
            self.tell("O");
        }
        if self.side.chance(70) {
            for (place, old) in changed.iter().rev() {
                self.tell(format!("P {place} {old}"));
            }
            self.tell(&line);
        } else {
            self.make_copy();
        }
    }

    /// Changes a byte of the copy's log, opens it, mostly mends it again.
    fn poke_the_copys_log(&mut self) {
        let slots = self.copy_state().slots;
        let length = self.copy().log.len() as u64;
        let place = if slots > 0 && self.side.chance(80) {
            let sequence = self.copy_state().next.wrapping_sub(self.side.below(4));
            slot_of(sequence, slots) * BLOCK_SIZE as u64 + self.side.below(BLOCK_SIZE as u64)
        } else {
            self.side.below(length)
        };
        let old = self.copy().log[place as usize];
        let value = old.wrapping_add(self.side.from_to(1, 255) as u8);
        self.tell(format!("P {place} {value}"));
        self.tell("O");
        if self.side.chance(60) {
            self.tell(format!("P {place} {old}"));
            self.tell("O");
        }
        if self.side.chance(60) {
            self.make_copy();
        }
    }

    fn wrong_lengths_of_the_copy(&mut self) {
        let copy = self.copy();
        let mut lengths = [
            copy.log.len() as u64,
            copy.home.len() as u64,
            copy.frames.len() as u64,
            BLOCK_SIZE as u64,
        ];
        let sizes = [BLOCK_SIZE, PAGE_SIZE, PAGE_SIZE, BLOCK_SIZE];
        let which = self.side.below(4) as usize;
        let size = sizes[which] as u64;
        lengths[which] = match self.side.below(4) {
            0 => 0,
            1 => lengths[which] - 1,
            2 => lengths[which] - size,
            _ => self.side.below(lengths[which] + 1),
        };
        let [log, home, frames, block] = lengths;
        self.tell(format!("N {log} {home} {frames} {block}"));
        for _ in 0..self.side.from_to(1, 4) {
            let next = self.copy_state().next;
            match self.side.below(8) {
                0 => {
                    self.tell("O");
                }
                1 => {
                    self.tell("W");
                }
                2 => {
                    self.tell("S 1");
                }
                3 | 4 => {
                    self.tell("R 0");
                }
                _ => {
                    self.tell(format!("F {next}"));
                }
            }
        }
        if self.side.chance(90) {
            self.lend_the_copy_whole();
        }
    }

    /// The copy opened with fewer frames, pages or slots, and fed some blocks.
    fn other_sizes_of_the_copy(&mut self) {
        let copy = self.copy();
        let slots = (copy.log.len() / BLOCK_SIZE) as u64;
        let pages = (copy.home.len() / PAGE_SIZE) as u64;
        let frames = (copy.frames.len() / PAGE_SIZE) as u64;
        let fewer = |side: &mut Random, percent: u64, least: u64, all: u64| {
            if side.chance(percent) {
                side.from_to(least, all)
            } else {
                all
            }
        };
        let log = fewer(&mut self.side, 15, 8, slots) * BLOCK_SIZE as u64;
        let home = fewer(&mut self.side, 25, 1, pages) * PAGE_SIZE as u64;
        let frames = fewer(&mut self.side, 85, 1, frames) * PAGE_SIZE as u64;
        self.tell(format!("N {log} {home} {frames} {BLOCK_SIZE}"));
        self.tell("O");
        self.feed_new_blocks(8);
        if self.side.chance(50) {
            self.made_up_blocks();
        }
        if self.side.chance(80) {
            self.lend_the_copy_whole();
            if self.side.chance(50) {
                self.make_copy();
            } else {
                self.tell("O");
            }
        }
    }

    /// Lines that are bad where there is no copy, and the four that are not.
    fn line_without_a_copy(&mut self) {
        let lines = [
            "O",
            "F 1",
            "W",
            "R 0",
            "S 1",
            "X",
            "N 1 2 3 4",
            "P 0 0",
            "B",
            "G",
            "K 0 0",
            "K 511 255",
            "H 0",
            "H 9",
            "D 0",
            "D 1",
        ];
        let line = self.side.choose(&lines);
        self.tell(line);
    }

    fn bad_line_of_the_copy(&mut self) {
        let log_length = self.copy().log.len();
        let lines = [
            "M 1".to_string(),
            "O 1".to_string(),
            "F".to_string(),
            "F 1 1".to_string(),
            "F  1".to_string(),
            "F -1".to_string(),
            "F 18446744073709551616".to_string(),
            "K 512 0".to_string(),
            "K 0 256".to_string(),
            "K 0".to_string(),
            "H".to_string(),
            "H 18446744073709551616".to_string(),
            "W 1".to_string(),
            "R".to_string(),
            "S".to_string(),
            "X 0".to_string(),
            "N 1 2 3".to_string(),
            "N 1 2 3 4 5".to_string(),
            "P 0 256".to_string(),
            format!("P {log_length} 0"),
            format!("P {} 0", u64::MAX),
            "D".to_string(),
            "D 1 1".to_string(),
            "B 1".to_string(),
            "B 0 1".to_string(),
            "G ".to_string(),
            "A 8 4 2".to_string(),
            "L 1 1".to_string(),
            "E 1 1".to_string(),
            "Q".to_string(),
            // These have leading zeros, which are not bad.
            "F 0001".to_string(),
            "R 00".to_string(),
        ];
        let line = self.side.choose(&lines);
        self.tell(line);
    }
}
