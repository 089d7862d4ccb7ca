//! Open, and the opening of a copy: the state and the frames made from log and home.

use std::collections::BTreeMap;

use crate::block::{
    read_slot, slot_of, Block, Kind, Slot, BLOCK_SIZE, MAX_UPDATE_LENGTH, PAGE_SIZE,
};
use crate::calls::{area_range, free_number, whole_count, FreeChoice, Refusal};
use crate::state::{DirtyPage, State};

/// A refused opening: the refusal and the sequence it arose at, 0 where there is none.
#[derive(Clone, Copy, Debug, PartialEq, Eq)]
pub struct RefusedOpening {
    pub refusal: Refusal,
    pub place: u64,
}

fn refused(refusal: Refusal, place: u64) -> RefusedOpening {
    RefusedOpening { refusal, place }
}

/// The sizes N, P and F.
type Sizes = (u64, u64, u64);

/// The sizes, taken from the lengths.
fn sizes(log: &[u8], home: &[u8], frames: &[u8]) -> Option<Sizes> {
    let slots = whole_count(log.len(), BLOCK_SIZE, 8, 1024)?;
    let pages = whole_count(home.len(), PAGE_SIZE, 1, 4096)?;
    let frame_count = whole_count(frames.len(), PAGE_SIZE, 1, 32)?;
    Some((slots, pages, frame_count))
}

fn refused_for_a_length() -> (State, Result<u64, RefusedOpening>) {
    (State::all_zero(), Err(refused(Refusal::WrongLength, 0)))
}

/// Gives the new state and the ticket that is reported as settled. A refused opening gives the
/// all-zero state in its place, and after 7, 8 and 9 zeroed frames.
pub fn open(
    log: &[u8],
    home: &[u8],
    frames: &mut [u8],
    staging: &[u8],
    choice: FreeChoice,
) -> (State, Result<u64, RefusedOpening>) {
    let Some(sizes) = sizes(log, home, frames) else {
        return refused_for_a_length();
    };
    if whole_count(staging.len(), MAX_UPDATE_LENGTH, 1, 32) != Some(sizes.2) {
        return refused_for_a_length();
    }
    open_as(false, log, home, frames, sizes, choice)
}

/// The opening of a copy: no staging is lent, and a half group at the log's end is kept.
pub fn open_copy(
    log: &[u8],
    home: &[u8],
    frames: &mut [u8],
    choice: FreeChoice,
) -> (State, Result<u64, RefusedOpening>) {
    match sizes(log, home, frames) {
        Some(sizes) => open_as(true, log, home, frames, sizes, choice),
        None => refused_for_a_length(),
    }
}

fn open_as(
    copy: bool,
    log: &[u8],
    home: &[u8],
    frames: &mut [u8],
    (slots, pages, frame_count): Sizes,
    choice: FreeChoice,
) -> (State, Result<u64, RefusedOpening>) {
    match recover(copy, log, home, (slots, pages, frame_count)) {
        Err(refusal) => {
            frames.fill(0);
            (State::all_zero(), Err(refusal))
        }
        Ok(found) => {
            let mut state = State::all_zero();
            state.copy = copy;
            state.stored = found.stored;
            state.slots = slots;
            state.pages = pages;
            state.frames = frame_count;
            state.next = found.next;
            state.committed = found.committed;
            state.ended = found.committed;
            for (page, dirty) in &found.dirty {
                let used: Vec<u64> = state.dirty.iter().map(|dirty| dirty.frame).collect();
                let frame = free_number(&used, frame_count, choice);
                frames[area_range(frame, PAGE_SIZE)].copy_from_slice(&dirty.bytes);
                state.dirty.push(DirtyPage {
                    page: *page,
                    frame,
                    first_group: dirty.first_group,
                });
            }
            (state, Ok(found.committed))
        }
    }
}

struct RecoveredPage {
    first_group: u64,
    bytes: Vec<u8>,
}

struct Recovered {
    next: u64,
    committed: u64,
    /// How many updates of a half group at the end are kept: none at a desk's opening.
    stored: u64,
    dirty: BTreeMap<u64, RecoveredPage>,
}

/// The updates of a group whose commit has not been met.
struct HalfGroup {
    start: u64,
    updates: Vec<(u64, u64, Vec<u8>)>,
}

/// The blocks keep-from to newest; none of them where every slot is unused.
pub fn live_blocks(log: &[u8], slots: u64, pages: u64) -> Result<Vec<Block>, RefusedOpening> {
    let mut held = Vec::new();
    for slot in 0..slots {
        held.push(read_slot(
            &log[area_range(slot, BLOCK_SIZE)],
            slot,
            slots,
            pages,
        ));
    }
    if held.iter().all(|slot| *slot == Slot::Unused) {
        return Ok(Vec::new());
    }
    let mut newest: Option<&Block> = None;
    for slot in &held {
        if let Slot::Valid(block) = slot {
            if newest.is_none() || block.sequence > newest.unwrap().sequence {
                newest = Some(block);
            }
        }
    }
    let Some(newest) = newest else {
        return Err(refused(Refusal::Damaged, 0));
    };
    let mut blocks = Vec::new();
    for sequence in newest.keep_from..=newest.sequence {
        match &held[slot_of(sequence, slots) as usize] {
            Slot::Valid(block) if block.sequence == sequence => blocks.push(block.clone()),
            _ => return Err(refused(Refusal::Damaged, sequence)),
        }
    }
    // A damaged end is no end.
    let end = newest.sequence + 1;
    if held[slot_of(end, slots) as usize] == Slot::Damaged {
        return Err(refused(Refusal::Damaged, end));
    }
    Ok(blocks)
}

fn recover(
    copy: bool,
    log: &[u8],
    home: &[u8],
    (slots, pages, frame_count): Sizes,
) -> Result<Recovered, RefusedOpening> {
    let blocks = live_blocks(log, slots, pages)?;
    let (Some(first), Some(newest)) = (blocks.first(), blocks.last()) else {
        return Ok(Recovered {
            next: 1,
            committed: 0,
            stored: 0,
            dirty: BTreeMap::new(),
        });
    };

    let mut dirty: BTreeMap<u64, RecoveredPage> = BTreeMap::new();
    let mut half: Option<HalfGroup> = None;
    // The first block's ticket is believed. A commit as the first block closes no group and is
    // refused for that, so it need not be told apart here.
    let mut committed = first.ticket;
    for block in &blocks {
        let out_of_order = Err(refused(Refusal::OutOfOrder, block.sequence));
        match &block.kind {
            Kind::Update {
                index,
                page,
                offset,
                new_bytes,
            } => {
                if block.ticket != committed {
                    return out_of_order;
                }
                let update = (*page, *offset, new_bytes.clone());
                let next_index = match &half {
                    Some(group) => group.updates.len() as u64 + 1,
                    None => 1,
                };
                if *index == 1 {
                    half = Some(HalfGroup {
                        start: block.sequence,
                        updates: vec![update],
                    });
                } else if *index == next_index {
                    half.as_mut().unwrap().updates.push(update);
                } else {
                    return out_of_order;
                }
            }
            Kind::Commit { updates } => {
                let Some(group) = half.take() else {
                    return out_of_order;
                };
                if group.updates.len() as u64 != *updates || block.ticket != committed + 1 {
                    return out_of_order;
                }
                committed = block.ticket;
                for (page, offset, new_bytes) in &group.updates {
                    let recovered = dirty.entry(*page).or_insert_with(|| RecoveredPage {
                        first_group: group.start,
                        bytes: home[area_range(*page, PAGE_SIZE)].to_vec(),
                    });
                    let offset = *offset as usize;
                    recovered.bytes[offset..offset + new_bytes.len()].copy_from_slice(new_bytes);
                }
                if dirty.len() as u64 > frame_count {
                    return Err(refused(Refusal::TooFewFrames, block.sequence));
                }
            }
            Kind::Clean { page } => {
                if block.ticket != committed {
                    return out_of_order;
                }
                half = None;
                dirty.remove(page);
            }
        }
    }

    // The end voids a half group, but a copy's opening keeps it.
    if !copy {
        half = None;
    }
    let next = newest.sequence + 1;
    let mut starts: Vec<u64> = dirty.values().map(|page| page.first_group).collect();
    starts.extend(half.as_ref().map(|group| group.start));
    let held = match starts.iter().min() {
        Some(oldest) => next - oldest,
        None => 0,
    };
    if held + dirty.len() as u64 > slots {
        return Err(refused(Refusal::OutOfOrder, newest.sequence));
    }
    Ok(Recovered {
        next,
        committed,
        stored: half.map_or(0, |group| group.updates.len() as u64),
        dirty,
    })
}
