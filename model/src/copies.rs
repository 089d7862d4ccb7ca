//! Request l, the brokers' read-only copy: the feed. Its opening is in recovery.rs; Read and Settled are
//! those of a desk.

use crate::block::{decode, slot_of, Block, Kind, BLOCK_SIZE, PAGE_SIZE};
use crate::block::{read_slot, Slot};
use crate::calls::{area_range, free_number, has_length, FreeChoice, Refusal};
use crate::state::{Cleaning, DirtyPage, State};

/// What an accepted feed answers.
#[derive(Clone, Copy, Debug, PartialEq, Eq)]
pub enum Fed {
    /// The block is in the copy's log.
    Taken,
    /// A half of the page that the fed clean block names went home; the block is not taken yet.
    NotYet,
    /// The block's sequence is below next. Nothing changed.
    Had,
}

/// A refused feed: the refusal and the sequence it arose at, 0 where there is none.
#[derive(Clone, Copy, Debug, PartialEq, Eq)]
pub struct RefusedFeed {
    pub refusal: Refusal,
    pub place: u64,
}

fn refused(refusal: Refusal, place: u64) -> Result<Fed, RefusedFeed> {
    Err(RefusedFeed { refusal, place })
}

/// An update of the half group, as the copy's own log has it.
#[derive(Clone, Debug)]
pub struct OwnUpdate {
    pub page: u64,
    offset: u64,
    new_bytes: Vec<u8>,
}

/// The updates of the half group from the copy's own log, each valid in its slot with its sequence and
/// index; or the lowest sequence where there is no such update.
pub fn own_updates(state: &State, log: &[u8]) -> Result<Vec<OwnUpdate>, u64> {
    let start = state.next - state.stored;
    let mut updates = Vec::new();
    for i in 0..state.stored {
        let sequence = start + i;
        let slot = slot_of(sequence, state.slots);
        let bytes = &log[area_range(slot, BLOCK_SIZE)];
        let Slot::Valid(block) = read_slot(bytes, slot, state.slots, state.pages) else {
            return Err(sequence);
        };
        match block.kind {
            Kind::Update {
                index,
                page,
                offset,
                new_bytes,
            } if block.sequence == sequence && index == i + 1 => updates.push(OwnUpdate {
                page,
                offset,
                new_bytes,
            }),
            _ => return Err(sequence),
        }
    }
    Ok(updates)
}

/// The rules of Open's walk for the block after the newest: the indexes of a group, a commit that
/// closes its group, and the ticket.
pub fn is_in_order(state: &State, block: &Block) -> bool {
    match block.kind {
        Kind::Update { index, .. } => {
            let next_index = state.stored + 1;
            (index == 1 || index == next_index) && block.ticket == state.committed
        }
        Kind::Commit { updates } => {
            state.stored > 0 && updates == state.stored && block.ticket == state.committed + 1
        }
        Kind::Clean { .. } => block.ticket == state.committed,
    }
}

/// Where the group of an update or commit starts that is stored as block `next`.
fn own_start(state: &State, kind: &Kind) -> Option<u64> {
    match kind {
        Kind::Update { index: 1, .. } => Some(state.next),
        Kind::Update { .. } | Kind::Commit { .. } => Some(state.next - state.stored),
        Kind::Clean { .. } => None,
    }
}

/// Keep-from by the layout's rule: the smallest first group over the pages dirty once the block is
/// stored; an update or commit counts its own group's start too; if nothing counts, the block's own
/// sequence. The pages that a commit makes dirty have its group's start as their first group.
pub fn right_keep_from(state: &State, kind: &Kind) -> u64 {
    let mut counted = Vec::new();
    for dirty in &state.dirty {
        if !matches!(kind, Kind::Clean { page } if *page == dirty.page) {
            counted.push(dirty.first_group);
        }
    }
    counted.extend(own_start(state, kind));
    counted.into_iter().min().unwrap_or(state.next)
}

/// The pages that are dirty once the block is stored, with their first groups.
fn dirty_after(state: &State, kind: &Kind, group: &[OwnUpdate]) -> Vec<(u64, u64)> {
    let mut pages: Vec<(u64, u64)> = Vec::new();
    for dirty in &state.dirty {
        pages.push((dirty.page, dirty.first_group));
    }
    match kind {
        Kind::Update { .. } => (),
        Kind::Commit { .. } => {
            for update in group {
                if pages.iter().all(|(page, _)| *page != update.page) {
                    pages.push((update.page, state.next - state.stored));
                }
            }
        }
        Kind::Clean { page: cleaned } => pages.retain(|(page, _)| page != cleaned),
    }
    pages
}

/// Open's H + D test with this block as the newest; a half group's start is counted.
pub fn has_room(state: &State, kind: &Kind, group: &[OwnUpdate]) -> bool {
    let dirty = dirty_after(state, kind, group);
    let mut starts: Vec<u64> = dirty.iter().map(|(_, first_group)| *first_group).collect();
    if matches!(kind, Kind::Update { .. }) {
        starts.extend(own_start(state, kind));
    }
    let held = match starts.iter().min() {
        Some(oldest) => state.next + 1 - oldest,
        None => 0,
    };
    held + dirty.len() as u64 <= state.slots
}

/// Feeds a copy one block.
pub fn feed(
    state: &mut State,
    log: &mut [u8],
    home: &mut [u8],
    frames: &mut [u8],
    bytes: &[u8],
    choice: FreeChoice,
) -> Result<Fed, RefusedFeed> {
    if !state.is_sound_copy() {
        return refused(Refusal::NotSound, 0);
    }
    if !has_length(log, state.slots, BLOCK_SIZE)
        || !has_length(home, state.pages, PAGE_SIZE)
        || !has_length(frames, state.frames, PAGE_SIZE)
        || bytes.len() != BLOCK_SIZE
    {
        return refused(Refusal::WrongLength, 0);
    }
    // The slot of a fed block is that of its sequence, so its own place is always right.
    let Some(block) = decode(bytes, state.slots, state.pages) else {
        return refused(Refusal::BadBlock, 0);
    };
    if block.sequence > state.next {
        return refused(Refusal::SequenceAhead, 0);
    }
    if block.sequence < state.next {
        return Ok(Fed::Had);
    }
    // A commit's updates are taken from the copy's own log.
    let mut group = Vec::new();
    if matches!(block.kind, Kind::Commit { .. }) {
        match own_updates(state, log) {
            Ok(updates) => group = updates,
            Err(lacking) => return refused(Refusal::Damaged, lacking),
        }
    }
    if !is_in_order(state, &block)
        || block.keep_from != right_keep_from(state, &block.kind)
        || !has_room(state, &block.kind, &group)
    {
        return refused(Refusal::OutOfOrder, state.next);
    }
    if dirty_after(state, &block.kind, &group).len() as u64 > state.frames {
        return refused(Refusal::TooFewFrames, state.next);
    }

    match block.kind {
        Kind::Update { index, .. } => state.stored = index,
        Kind::Commit { .. } => {
            for update in &group {
                put_in_a_frame(state, home, frames, update, choice);
            }
            state.stored = 0;
            state.committed += 1;
            state.ended = state.committed;
        }
        Kind::Clean { page } => {
            if let Some(dirty) = state.dirty_page(page) {
                let frame = &frames[area_range(dirty.frame, PAGE_SIZE)];
                let page_at_home = &mut home[area_range(page, PAGE_SIZE)];
                let half = PAGE_SIZE / 2;
                match state.cleaning {
                    Cleaning::Third(named) if named == page => (),
                    Cleaning::Second(named) if named == page => {
                        page_at_home[half..].copy_from_slice(&frame[half..]);
                        state.cleaning = Cleaning::Third(page);
                        return Ok(Fed::NotYet);
                    }
                    // Idle, at this page's first store, or of another page: then this is another block,
                    // accepted in between, and makes that cleaning idle.
                    _ => {
                        page_at_home[..half].copy_from_slice(&frame[..half]);
                        state.cleaning = Cleaning::Second(page);
                        return Ok(Fed::NotYet);
                    }
                }
                state.dirty.retain(|dirty| dirty.page != page);
            }
            // As on Open's walk, a clean voids a half group.
            state.stored = 0;
        }
    }
    state.cleaning = Cleaning::Idle;
    let slot = slot_of(state.next, state.slots);
    log[area_range(slot, BLOCK_SIZE)].copy_from_slice(bytes);
    state.next += 1;
    Ok(Fed::Taken)
}

/// Puts an update of the half group over its page, in a frame. A page that was not dirty comes from home.
fn put_in_a_frame(
    state: &mut State,
    home: &[u8],
    frames: &mut [u8],
    update: &OwnUpdate,
    choice: FreeChoice,
) {
    if state.dirty_page(update.page).is_none() {
        let used: Vec<u64> = state.dirty.iter().map(|dirty| dirty.frame).collect();
        let frame = free_number(&used, state.frames, choice);
        frames[area_range(frame, PAGE_SIZE)]
            .copy_from_slice(&home[area_range(update.page, PAGE_SIZE)]);
        state.dirty.push(DirtyPage {
            page: update.page,
            frame,
            first_group: state.next - state.stored,
        });
    }
    let frame = state.dirty_page(update.page).unwrap().frame;
    let first = update.offset as usize;
    frames[area_range(frame, PAGE_SIZE)][first..first + update.new_bytes.len()]
        .copy_from_slice(&update.new_bytes);
}
