//! The state that is handed from call to call, the sums over it, and when it is sound.

use crate::block::{place_is_legal, MAX_GROUP_UPDATES, SEQUENCE_LIMIT};

#[derive(Clone, Debug, PartialEq, Eq)]
pub struct DirtyPage {
    pub page: u64,
    pub frame: u64,
    /// The sequence of the first block of the earliest committed group that changed the page
    /// since its last cleaning.
    pub first_group: u64,
}

/// A described update. Its new bytes are in a staging area.
#[derive(Clone, Debug, PartialEq, Eq)]
pub struct StagedUpdate {
    pub page: u64,
    pub offset: u64,
    pub length: u64,
    pub area: u64,
}

#[derive(Clone, Debug, PartialEq, Eq)]
pub struct OpenTransaction {
    pub reserved: u64,
    pub updates: Vec<StagedUpdate>,
}

/// Which store of a cleaning comes next, and of which page.
#[derive(Clone, Copy, Debug, PartialEq, Eq)]
pub enum Cleaning {
    Idle,
    /// No call leaves a cleaning here: the call that takes a page makes its first store.
    #[allow(dead_code)]
    First(u64),
    Second(u64),
    Third(u64),
}

#[derive(Clone, Debug, PartialEq, Eq)]
pub struct State {
    /// Whether this is the state of a brokers' copy (request l) and not of a desk.
    pub copy: bool,
    /// N, the slots of the log.
    pub slots: u64,
    /// P, the pages of home.
    pub pages: u64,
    /// F, the frames and the staging areas.
    pub frames: u64,
    /// The sequence after the newest block.
    pub next: u64,
    /// The last committed ticket.
    pub committed: u64,
    /// The last ticket that End gave, or the committed one.
    pub ended: u64,
    pub dirty: Vec<DirtyPage>,
    /// Ended transactions whose commit is not stored, oldest first.
    pub queue: Vec<Vec<StagedUpdate>>,
    /// How many updates of the oldest queued group are stored; in a copy's state those of the half
    /// group at the log's end.
    pub stored: u64,
    pub open: Option<OpenTransaction>,
    pub cleaning: Cleaning,
}

impl State {
    pub fn all_zero() -> State {
        State {
            copy: false,
            slots: 0,
            pages: 0,
            frames: 0,
            next: 0,
            committed: 0,
            ended: 0,
            dirty: Vec::new(),
            queue: Vec::new(),
            stored: 0,
            open: None,
            cleaning: Cleaning::Idle,
        }
    }

    // The sums have the letters of the rules in their comments. They are kept in wide signed
    // numbers, so that no state, however unsound, makes them overflow.

    /// D, the count of dirty pages.
    pub fn dirty_count(&self) -> i128 {
        self.dirty.len() as i128
    }

    /// The first sequence of a half-stored group. Its stored updates end at next - 1.
    pub fn half_stored_start(&self) -> Option<i128> {
        if self.stored == 0 {
            return None;
        }
        Some(i128::from(self.next) - i128::from(self.stored))
    }

    /// H, how far back the log is needed.
    pub fn held(&self) -> i128 {
        let mut starts: Vec<i128> = Vec::new();
        for dirty in &self.dirty {
            starts.push(i128::from(dirty.first_group));
        }
        starts.extend(self.half_stored_start());
        match starts.iter().min() {
            Some(oldest) => i128::from(self.next) - oldest,
            None => 0,
        }
    }

    /// W, the count of queued blocks not stored yet.
    pub fn waiting_blocks(&self) -> i128 {
        let mut blocks = 0;
        for group in &self.queue {
            blocks += group.len() as i128 + 1;
        }
        blocks - i128::from(self.stored)
    }

    /// V, the count of updates in queued transactions whose commit is not stored.
    pub fn queued_updates(&self) -> i128 {
        self.queue.iter().map(|group| group.len() as i128).sum()
    }

    /// R, the count reserved by the open transaction, 0 if none.
    pub fn reserved(&self) -> i128 {
        match &self.open {
            Some(open) => i128::from(open.reserved),
            None => 0,
        }
    }

    /// The blocks that the open transaction owes: R + 1 if one is open.
    pub fn owed_blocks(&self) -> i128 {
        if self.open.is_some() {
            self.reserved() + 1
        } else {
            0
        }
    }

    /// Every staged update, queued or in the open transaction.
    pub fn staged_updates(&self) -> Vec<&StagedUpdate> {
        let mut updates: Vec<&StagedUpdate> = self.queue.iter().flatten().collect();
        if let Some(open) = &self.open {
            updates.extend(open.updates.iter());
        }
        updates
    }

    pub fn dirty_page(&self, page: u64) -> Option<&DirtyPage> {
        self.dirty.iter().find(|dirty| dirty.page == page)
    }

    /// Whether this is a sound state of a desk. To the calls of a desk a copy's state is not.
    pub fn is_sound(&self) -> bool {
        !self.copy
            && self.sizes_are_in_range()
            && self.dirty_pages_are_sound()
            && self.tickets_are_sound()
            && self.staged_updates_are_sound()
            && self.groups_are_sound()
            && self.cleaning_is_sound()
            && self.room_is_kept()
    }

    /// Whether this is a sound state of a copy. A half group needs no queued one: its start, and stored
    /// updates that end at next - 1, are enough, however many; and nothing is open or queued.
    pub fn is_sound_copy(&self) -> bool {
        self.copy
            && self.sizes_are_in_range()
            && self.dirty_pages_are_sound()
            && self.tickets_are_sound()
            && self.queue.is_empty()
            && self.open.is_none()
            && self.cleaning_is_sound()
            && self.held() + self.dirty_count() <= i128::from(self.slots)
            && self.dirty_count() <= i128::from(self.frames)
            && self.next <= SEQUENCE_LIMIT
    }

    /// Read and Settled are calls of a desk and of a copy.
    pub fn is_readable(&self) -> bool {
        self.is_sound() || self.is_sound_copy()
    }

    fn sizes_are_in_range(&self) -> bool {
        sizes_are_in_range(self.slots, self.pages, self.frames)
    }

    fn dirty_pages_are_sound(&self) -> bool {
        let pages: Vec<u64> = self.dirty.iter().map(|dirty| dirty.page).collect();
        let frames: Vec<u64> = self.dirty.iter().map(|dirty| dirty.frame).collect();
        all_distinct(&pages)
            && all_distinct(&frames)
            && pages.iter().all(|page| *page < self.pages)
            && frames.iter().all(|frame| *frame < self.frames)
            && self
                .dirty
                .iter()
                .all(|dirty| dirty.first_group >= 1 && dirty.first_group < self.next)
    }

    fn tickets_are_sound(&self) -> bool {
        let committed = i128::from(self.committed);
        let below_half_stored = match self.half_stored_start() {
            Some(start) => committed < start,
            None => true,
        };
        self.committed < self.next
            && below_half_stored
            && i128::from(self.ended) == committed + self.queue.len() as i128
    }

    fn staged_updates_are_sound(&self) -> bool {
        let staged = self.staged_updates();
        let areas: Vec<u64> = staged.iter().map(|update| update.area).collect();
        all_distinct(&areas)
            && areas.iter().all(|area| *area < self.frames)
            && staged.iter().all(|update| {
                update.page < self.pages && place_is_legal(update.offset, update.length)
            })
    }

    fn groups_are_sound(&self) -> bool {
        let sizes_fit = self
            .queue
            .iter()
            .all(|group| !group.is_empty() && group.len() as u64 <= MAX_GROUP_UPDATES);
        let open_fits = match &self.open {
            Some(open) => {
                open.reserved <= MAX_GROUP_UPDATES && open.updates.len() as u64 <= open.reserved
            }
            None => true,
        };
        // Stored updates belong to the oldest queued group, so there is one with that many.
        let stored_fits = match self.queue.first() {
            Some(oldest) => self.stored <= oldest.len() as u64,
            None => self.stored == 0,
        };
        sizes_fit && open_fits && stored_fits
    }

    fn cleaning_is_sound(&self) -> bool {
        match self.cleaning {
            Cleaning::Idle => true,
            Cleaning::First(page) | Cleaning::Second(page) | Cleaning::Third(page) => {
                self.dirty_page(page).is_some()
            }
        }
    }

    fn room_is_kept(&self) -> bool {
        let open_room = if self.open.is_some() {
            2 * self.reserved() + 1
        } else {
            0
        };
        let log_room = self.held()
            + self.waiting_blocks()
            + self.dirty_count()
            + self.queued_updates()
            + open_room;
        let frame_room = self.dirty_count() + self.queued_updates() + self.reserved();
        let sequences = i128::from(self.next) + self.waiting_blocks() + self.owed_blocks();
        log_room <= i128::from(self.slots)
            && frame_room <= i128::from(self.frames)
            && sequences <= i128::from(SEQUENCE_LIMIT)
    }
}

pub fn sizes_are_in_range(slots: u64, pages: u64, frames: u64) -> bool {
    (8..=1024).contains(&slots) && (1..=4096).contains(&pages) && (1..=32).contains(&frames)
}

fn all_distinct(numbers: &[u64]) -> bool {
    for (i, number) in numbers.iter().enumerate() {
        if numbers[..i].contains(number) {
            return false;
        }
    }
    true
}
