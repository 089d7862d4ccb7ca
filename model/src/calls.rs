//! The calls but Open: each tests its refusals in the rules' order, and changes nothing
//! before the last of them is passed.

use crate::block::{
    encode, place_is_legal, read_slot, slot_of, Block, Kind, Slot, BLOCK_SIZE, MAX_GROUP_UPDATES,
    MAX_UPDATE_LENGTH, PAGE_SIZE, SEQUENCE_LIMIT,
};
use crate::state::{Cleaning, DirtyPage, OpenTransaction, StagedUpdate, State};

/// A refusal; its number is the rules'.
#[derive(Clone, Copy, Debug, PartialEq, Eq, PartialOrd, Ord)]
pub enum Refusal {
    WrongLength = 1,
    NotSound = 2,
    OutOfRange = 3,
    WrongMoment = 4,
    Full = 5,
    SequencesUsedUp = 6,
    Damaged = 7,
    OutOfOrder = 8,
    TooFewFrames = 9,
    NothingToDo = 10,
    HeldBack = 11,
    BadBlock = 13,
    SequenceAhead = 14,
}

impl Refusal {
    pub fn number(self) -> u64 {
        self as u64
    }
}

/// Which of the free frames or staging areas is taken. The rules leave it to the program,
/// and no answer may depend on it.
#[derive(Clone, Copy, Debug, PartialEq, Eq)]
pub enum FreeChoice {
    Lowest,
    Highest,
}

pub fn free_number(used: &[u64], count: u64, choice: FreeChoice) -> u64 {
    let mut free = (0..count).filter(|number| !used.contains(number));
    let found = match choice {
        FreeChoice::Lowest => free.next(),
        FreeChoice::Highest => free.last(),
    };
    found.expect("a sound state keeps room for every frame and staging area it needs")
}

/// The bytes of area number `number` among areas of `size` bytes.
pub fn area_range(number: u64, size: usize) -> std::ops::Range<usize> {
    let first = number as usize * size;
    first..first + size
}

/// How many whole areas of `size` bytes there are, if the length is a whole count in the range.
pub fn whole_count(length: usize, size: usize, least: u64, most: u64) -> Option<u64> {
    let count = (length / size) as u64;
    if length % size == 0 && count >= least && count <= most {
        Some(count)
    } else {
        None
    }
}

pub fn has_length(area: &[u8], count: u64, size: usize) -> bool {
    area.len() as u64 == count * size as u64
}

pub fn format(log: &mut [u8]) -> Result<(), Refusal> {
    if whole_count(log.len(), BLOCK_SIZE, 8, 1024).is_none() {
        return Err(Refusal::WrongLength);
    }
    log.fill(0);
    Ok(())
}

pub fn begin(state: &mut State, updates: u64) -> Result<(), Refusal> {
    if !state.is_sound() {
        return Err(Refusal::NotSound);
    }
    let wanted = i128::from(updates);
    if updates == 0
        || updates > MAX_GROUP_UPDATES
        || updates > state.frames
        || 2 * wanted + 1 > i128::from(state.slots)
    {
        return Err(Refusal::OutOfRange);
    }
    if state.open.is_some() {
        return Err(Refusal::WrongMoment);
    }
    let sequences = i128::from(state.next) + state.waiting_blocks() + wanted + 1;
    if sequences > i128::from(SEQUENCE_LIMIT) {
        return Err(Refusal::SequencesUsedUp);
    }
    let log_room = state.held()
        + state.waiting_blocks()
        + state.dirty_count()
        + state.queued_updates()
        + 2 * wanted
        + 1;
    let frame_room = state.dirty_count() + state.queued_updates() + wanted;
    if log_room > i128::from(state.slots) || frame_room > i128::from(state.frames) {
        return Err(Refusal::Full);
    }
    state.open = Some(OpenTransaction {
        reserved: updates,
        updates: Vec::new(),
    });
    Ok(())
}

pub fn describe(
    state: &mut State,
    staging: &mut [u8],
    page: u64,
    offset: u64,
    bytes: &[u8],
    choice: FreeChoice,
) -> Result<(), Refusal> {
    if !state.is_sound() {
        return Err(Refusal::NotSound);
    }
    if !has_length(staging, state.frames, MAX_UPDATE_LENGTH) {
        return Err(Refusal::WrongLength);
    }
    let used: Vec<u64> = state.staged_updates().iter().map(|u| u.area).collect();
    let (pages, areas) = (state.pages, state.frames);
    let Some(open) = &mut state.open else {
        return Err(Refusal::WrongMoment);
    };
    let length = bytes.len() as u64;
    if page >= pages || !place_is_legal(offset, length) {
        return Err(Refusal::OutOfRange);
    }
    if open.updates.len() as u64 == open.reserved {
        return Err(Refusal::Full);
    }
    let area = free_number(&used, areas, choice);
    staging[area_range(area, MAX_UPDATE_LENGTH)][..bytes.len()].copy_from_slice(bytes);
    open.updates.push(StagedUpdate {
        page,
        offset,
        length,
        area,
    });
    Ok(())
}

/// Gives the ticket.
pub fn end(state: &mut State) -> Result<u64, Refusal> {
    if !state.is_sound() {
        return Err(Refusal::NotSound);
    }
    match &state.open {
        None => return Err(Refusal::WrongMoment),
        Some(open) if open.updates.is_empty() => return Err(Refusal::NothingToDo),
        Some(_) => (),
    }
    let open = state.open.take().unwrap();
    state.queue.push(open.updates);
    state.ended += 1;
    Ok(state.ended)
}

/// Writes a block into its slot of the log.
fn store_block(state: &State, log: &mut [u8], block: &Block) {
    let slot = slot_of(block.sequence, state.slots);
    let bytes = encode(block);
    assert_eq!(
        read_slot(&bytes, slot, state.slots, state.pages),
        Slot::Valid(block.clone()),
        "a stored block is a valid one"
    );
    log[area_range(slot, BLOCK_SIZE)].copy_from_slice(&bytes);
}

/// Stores one block. At a commit it gives the ticket that is settled now.
pub fn log_step(
    state: &mut State,
    log: &mut [u8],
    home: &[u8],
    frames: &mut [u8],
    staging: &[u8],
    choice: FreeChoice,
) -> Result<Option<u64>, Refusal> {
    if !state.is_sound() {
        return Err(Refusal::NotSound);
    }
    if !has_length(log, state.slots, BLOCK_SIZE)
        || !has_length(home, state.pages, PAGE_SIZE)
        || !has_length(frames, state.frames, PAGE_SIZE)
        || !has_length(staging, state.frames, MAX_UPDATE_LENGTH)
    {
        return Err(Refusal::WrongLength);
    }
    if state.queue.is_empty() {
        return Err(Refusal::NothingToDo);
    }
    let group = state.queue[0].clone();
    let sequence = state.next;
    let group_start = state.next - state.stored;
    // The pages that the group changes have its start as their first group or an older one, so
    // counting the start itself counts them.
    let mut keep_from = group_start;
    for dirty in &state.dirty {
        keep_from = keep_from.min(dirty.first_group);
    }

    if state.stored < group.len() as u64 {
        let update = &group[state.stored as usize];
        let area = &staging[area_range(update.area, MAX_UPDATE_LENGTH)];
        let block = Block {
            sequence,
            keep_from,
            ticket: state.committed,
            kind: Kind::Update {
                index: state.stored + 1,
                page: update.page,
                offset: update.offset,
                new_bytes: area[..update.length as usize].to_vec(),
            },
        };
        store_block(state, log, &block);
        state.next += 1;
        state.stored += 1;
        return Ok(None);
    }

    let ticket = state.committed + 1;
    let block = Block {
        sequence,
        keep_from,
        ticket,
        kind: Kind::Commit {
            updates: group.len() as u64,
        },
    };
    store_block(state, log, &block);
    state.next += 1;
    state.stored = 0;
    state.committed = ticket;
    state.queue.remove(0);
    for update in &group {
        if state.dirty_page(update.page).is_none() {
            let used: Vec<u64> = state.dirty.iter().map(|dirty| dirty.frame).collect();
            let frame = free_number(&used, state.frames, choice);
            frames[area_range(frame, PAGE_SIZE)]
                .copy_from_slice(&home[area_range(update.page, PAGE_SIZE)]);
            state.dirty.push(DirtyPage {
                page: update.page,
                frame,
                first_group: group_start,
            });
        }
        let frame = state.dirty_page(update.page).unwrap().frame;
        let (offset, length) = (update.offset as usize, update.length as usize);
        let new_bytes = &staging[area_range(update.area, MAX_UPDATE_LENGTH)][..length];
        frames[area_range(frame, PAGE_SIZE)][offset..offset + length].copy_from_slice(new_bytes);

        let named = match state.cleaning {
            Cleaning::Idle => None,
            Cleaning::First(page) | Cleaning::Second(page) | Cleaning::Third(page) => Some(page),
        };
        if named == Some(update.page) {
            state.cleaning = Cleaning::Idle;
        }
    }
    Ok(Some(ticket))
}

/// A dirty page with the smallest first group; among equals the one with the lowest number.
fn page_to_clean(state: &State) -> u64 {
    let oldest = state.dirty.iter().map(|d| d.first_group).min().unwrap();
    let oldest_pages = state.dirty.iter().filter(|d| d.first_group == oldest);
    oldest_pages.map(|dirty| dirty.page).min().unwrap()
}

/// Makes one store of a cleaning.
pub fn clean_step(
    state: &mut State,
    log: &mut [u8],
    home: &mut [u8],
    frames: &[u8],
) -> Result<(), Refusal> {
    if !state.is_sound() {
        return Err(Refusal::NotSound);
    }
    if !has_length(log, state.slots, BLOCK_SIZE)
        || !has_length(home, state.pages, PAGE_SIZE)
        || !has_length(frames, state.frames, PAGE_SIZE)
    {
        return Err(Refusal::WrongLength);
    }
    if state.dirty.is_empty() {
        return Err(Refusal::NothingToDo);
    }
    let half = PAGE_SIZE / 2;
    match state.cleaning {
        Cleaning::Idle | Cleaning::First(_) => {
            let page = match state.cleaning {
                Cleaning::First(page) => page,
                _ => page_to_clean(state),
            };
            let frame = state.dirty_page(page).unwrap().frame;
            home[area_range(page, PAGE_SIZE)][..half]
                .copy_from_slice(&frames[area_range(frame, PAGE_SIZE)][..half]);
            state.cleaning = Cleaning::Second(page);
        }
        Cleaning::Second(page) => {
            let frame = state.dirty_page(page).unwrap().frame;
            home[area_range(page, PAGE_SIZE)][half..]
                .copy_from_slice(&frames[area_range(frame, PAGE_SIZE)][half..]);
            state.cleaning = Cleaning::Third(page);
        }
        Cleaning::Third(page) => {
            if state.stored > 0 {
                return Err(Refusal::HeldBack);
            }
            let sequences = i128::from(state.next) + state.waiting_blocks() + state.owed_blocks();
            if sequences == i128::from(SEQUENCE_LIMIT) {
                return Err(Refusal::SequencesUsedUp);
            }
            let others = state.dirty.iter().filter(|dirty| dirty.page != page);
            let keep_from = others.map(|dirty| dirty.first_group).min();
            let block = Block {
                sequence: state.next,
                keep_from: keep_from.unwrap_or(state.next),
                ticket: state.committed,
                kind: Kind::Clean { page },
            };
            store_block(state, log, &block);
            state.next += 1;
            state.dirty.retain(|dirty| dirty.page != page);
            state.cleaning = Cleaning::Idle;
        }
    }
    Ok(())
}

/// Gives the page as a part of home or of frames.
pub fn read<'a>(
    state: &State,
    home: &'a [u8],
    frames: &'a [u8],
    page: u64,
) -> Result<&'a [u8], Refusal> {
    if !state.is_readable() {
        return Err(Refusal::NotSound);
    }
    if !has_length(home, state.pages, PAGE_SIZE) || !has_length(frames, state.frames, PAGE_SIZE) {
        return Err(Refusal::WrongLength);
    }
    if page >= state.pages {
        return Err(Refusal::OutOfRange);
    }
    Ok(match state.dirty_page(page) {
        Some(dirty) => &frames[area_range(dirty.frame, PAGE_SIZE)],
        None => &home[area_range(page, PAGE_SIZE)],
    })
}

/// Whether the ticket is committed.
pub fn settled(state: &State, ticket: u64) -> Result<bool, Refusal> {
    if !state.is_readable() {
        return Err(Refusal::NotSound);
    }
    if ticket == 0 || ticket > state.ended {
        return Err(Refusal::OutOfRange);
    }
    Ok(ticket <= state.committed)
}
