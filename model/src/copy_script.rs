//! The lines of the script language for a brokers' copy (request l), each with a capital letter.
//! docs/REPLAY.md lists how their open points are read.

use crate::block::{decode, slot_of, Block, Kind, BLOCK_SIZE, PAGE_SIZE};
use crate::calls::{self, area_range, Refusal};
use crate::copies::{self, Fed, RefusedFeed};
use crate::copy_watch::{CopyWatch, Desk};
use crate::recovery;
use crate::script::{digest, refused_line, Runner, Store};
use crate::state::{Cleaning, State};

#[derive(Clone, Debug, PartialEq, Eq)]
pub enum CopyCommand {
    Make,
    Open,
    /// Feeds the copy a slot of the desk's log.
    Feed(u64),
    PokeHeld {
        place: u64,
        value: u64,
    },
    Hold(u64),
    FeedHeld,
    Read(u64),
    Settled(u64),
    Cut,
    Lend {
        log: u64,
        home: u64,
        frames: u64,
        block: u64,
    },
    Poke {
        place: u64,
        value: u64,
    },
    /// Hands the desk's own state and areas to the feed, with a slot of the desk's log.
    FeedDesk(u64),
    Begin,
    Digests,
}

pub fn parse(letter: u8, numbers: &[u64]) -> Option<CopyCommand> {
    Some(match (letter, numbers) {
        (b'M', &[]) => CopyCommand::Make,
        (b'O', &[]) => CopyCommand::Open,
        (b'F', &[slot]) => CopyCommand::Feed(slot),
        (b'K', &[place, value]) => CopyCommand::PokeHeld { place, value },
        (b'H', &[slot]) => CopyCommand::Hold(slot),
        (b'W', &[]) => CopyCommand::FeedHeld,
        (b'R', &[page]) => CopyCommand::Read(page),
        (b'S', &[ticket]) => CopyCommand::Settled(ticket),
        (b'X', &[]) => CopyCommand::Cut,
        (b'N', &[log, home, frames, block]) => CopyCommand::Lend {
            log,
            home,
            frames,
            block,
        },
        (b'P', &[place, value]) => CopyCommand::Poke { place, value },
        (b'D', &[slot]) => CopyCommand::FeedDesk(slot),
        (b'B', &[]) => CopyCommand::Begin,
        (b'G', &[]) => CopyCommand::Digests,
        _ => return None,
    })
}

/// A copy's areas, how much of each and of a fed block is lent, and the state.
#[derive(Clone, Debug, PartialEq, Eq)]
pub struct CopyStore {
    pub log: Vec<u8>,
    pub home: Vec<u8>,
    pub frames: Vec<u8>,
    pub lent_log: usize,
    pub lent_home: usize,
    pub lent_frames: usize,
    pub lent_block: usize,
    pub state: State,
}

impl CopyStore {
    /// A copy made from a log and a home, byte for byte, all of it lent whole.
    pub fn new(log: &[u8], home: &[u8], frames: u64) -> CopyStore {
        let frame_bytes = vec![170; frames as usize * PAGE_SIZE];
        CopyStore {
            lent_log: log.len(),
            lent_home: home.len(),
            lent_frames: frame_bytes.len(),
            lent_block: BLOCK_SIZE,
            log: log.to_vec(),
            home: home.to_vec(),
            frames: frame_bytes,
            state: State::all_zero(),
        }
    }
}

/// The kinds of fed blocks, and the answers to them, that are counted one by one.
pub const FED_KINDS: [&str; 4] = ["update", "commit", "clean, dirty", "clean, other"];
pub const FED_ANSWERS: [&str; 8] = ["taken", "1st half", "2nd half", "had", "7", "8", "9", "14"];

/// What happened to copies in a run, for the coverage table.
#[derive(Clone, Debug, Default)]
pub struct CopyCounts {
    /// Fed blocks that are valid, by kind and answer: cleans of dirty pages, and cleans of others.
    pub by_kind: [[u64; FED_ANSWERS.len()]; FED_KINDS.len()],
    pub made: u64,
    /// Made from a desk that its book follows, so that the copy's book follows it too.
    pub followed: u64,
    pub openings_with_half_groups: u64,
    pub openings_with_dirty_pages: u64,
    pub commits_of_several: u64,
    pub had_in_a_cleaning: u64,
    pub groups_void_by_updates: u64,
    pub groups_void_by_cleans: u64,
    /// Cleanings made idle by another block, and those of them by another dirty page's clean.
    pub made_idle: u64,
    pub made_idle_by_a_half: u64,
    pub blocks_over_older_blocks: u64,
    pub blocks_at_the_last_sequence: u64,
    /// Refusal 8 of the feed: the walk's order, keep-from, H + D.
    pub out_of_order: u64,
    pub wrong_keep_from: u64,
    pub no_room: u64,
    /// Blocks taken that are the desk's of that sequence, by a copy that took no others; and all others.
    pub desks_blocks: u64,
    pub other_blocks: u64,
    pub book_answers: u64,
    pub book_openings: u64,
    /// Times that copy and desk had the same newest block; those where both were read.
    pub agreements: u64,
    pub agreements_read: u64,
    /// Blocks of the desk tried on a copy that has all before; copies that caught up so.
    pub kept_up: u64,
    pub caught_up: u64,
}

impl CopyCounts {
    /// Each count with its line of the coverage table.
    pub fn lines(&mut self) -> Vec<(&'static str, &mut u64)> {
        vec![
            ("copies made", &mut self.made),
            (".. of a desk with its book", &mut self.followed),
            (
                "copies opened with dirty pages",
                &mut self.openings_with_dirty_pages,
            ),
            (
                ".. with a half group kept",
                &mut self.openings_with_half_groups,
            ),
            (
                "commits of several updates taken",
                &mut self.commits_of_several,
            ),
            ("had while a page is cleaned", &mut self.had_in_a_cleaning),
            (
                "half groups void by an update",
                &mut self.groups_void_by_updates,
            ),
            (
                "half groups void by a clean",
                &mut self.groups_void_by_cleans,
            ),
            ("cleanings made idle by a block", &mut self.made_idle),
            (
                ".. by another dirty page's clean",
                &mut self.made_idle_by_a_half,
            ),
            (
                "fed over an older block",
                &mut self.blocks_over_older_blocks,
            ),
            (
                "fed with the last sequence",
                &mut self.blocks_at_the_last_sequence,
            ),
            ("feed's 8 for the order", &mut self.out_of_order),
            ("feed's 8 for keep-from", &mut self.wrong_keep_from),
            ("feed's 8 for H + D", &mut self.no_room),
            ("the desk's blocks taken", &mut self.desks_blocks),
            ("other blocks taken", &mut self.other_blocks),
            ("answers held to the copy's book", &mut self.book_answers),
            ("openings held to the copy's book", &mut self.book_openings),
            ("same newest block on both", &mut self.agreements),
            (".. and read on both", &mut self.agreements_read),
            ("desk's blocks that kept up", &mut self.kept_up),
            ("copies that caught up", &mut self.caught_up),
        ]
    }

    pub fn add(&mut self, other: &CopyCounts) {
        let mut other = other.clone();
        for (row, other_row) in self.by_kind.iter_mut().zip(other.by_kind) {
            for (cell, other_cell) in row.iter_mut().zip(other_row) {
                *cell += other_cell;
            }
        }
        for ((_, here), (_, there)) in self.lines().into_iter().zip(other.lines()) {
            *here += *there;
        }
    }
}

fn refused_feed_line(refused: RefusedFeed) -> String {
    format!(
        "refused {} place {}",
        refused.refusal.number(),
        refused.place
    )
}

/// The bytes that stand in the desk's slot of this number, modulo the slots of the whole log.
fn desk_slot(store: &Store, number: u64) -> Vec<u8> {
    let slots = (store.log.len() / BLOCK_SIZE) as u64;
    store.log[area_range(number % slots, BLOCK_SIZE)].to_vec()
}

impl Runner {
    /// Runs a line of request l. None where it is bad by a number's range or for want of a copy.
    pub fn run_on_copy(&mut self, store: &Store, command: &CopyCommand) -> Option<String> {
        match command {
            CopyCommand::Make => {
                let frames = (store.frames.len() / PAGE_SIZE) as u64;
                let copy = CopyStore::new(&store.log, &store.home, frames);
                self.counts.copies.made += 1;
                self.copy_watch = None;
                if let Some(watch) = &self.watch {
                    let desk = Desk {
                        store,
                        watch,
                        blocks: &self.desk_blocks,
                    };
                    let counts = &mut self.counts.copies;
                    self.copy_watch = Some(CopyWatch::new(&copy, &desk, counts));
                    counts.followed += 1;
                }
                self.copy = Some(copy);
                self.compare_copy_and_desk(store, false);
                Some("made".to_string())
            }
            CopyCommand::PokeHeld { place, value } => {
                if *place >= BLOCK_SIZE as u64 || *value > 255 {
                    return None;
                }
                self.held[*place as usize] = *value as u8;
                Some("poked".to_string())
            }
            CopyCommand::Hold(slot) => {
                self.held = desk_slot(store, *slot);
                Some("held".to_string())
            }
            CopyCommand::FeedDesk(slot) => {
                self.counts.calls += 1;
                Some(self.feed_desk(store, *slot))
            }
            _ => {
                let mut copy = self.copy.take()?;
                let answer = self.run_on_made_copy(store, &mut copy, command);
                self.copy = Some(copy);
                match command {
                    CopyCommand::Open => self.compare_copy_and_desk(store, true),
                    CopyCommand::Feed(_) | CopyCommand::FeedHeld => {
                        self.compare_copy_and_desk(store, false)
                    }
                    _ => (),
                }
                answer
            }
        }
    }

    /// The desk's own state and areas handed to the feed, on clones: the desk keeps what it has.
    fn feed_desk(&mut self, store: &Store, slot: u64) -> String {
        let mut desk = store.clone();
        let answer = copies::feed(
            &mut desk.state,
            &mut desk.log[..desk.lent_log],
            &mut desk.home[..desk.lent_home],
            &mut desk.frames[..desk.lent_frames],
            &desk_slot(store, slot),
            self.choice,
        );
        let refused = answer.expect_err("request l: a desk's state is not sound to the feed");
        assert_eq!(refused.refusal, Refusal::NotSound);
        assert!(desk == *store, "a refused feed changed something");
        refused_feed_line(refused)
    }

    fn run_on_made_copy(
        &mut self,
        store: &Store,
        copy: &mut CopyStore,
        command: &CopyCommand,
    ) -> Option<String> {
        match command {
            CopyCommand::Cut => {
                copy.state = State::all_zero();
                copy.frames.fill(85);
                if let Some(watch) = &mut self.copy_watch {
                    watch.cut(copy, &mut self.counts.copies);
                }
                Some("cut".to_string())
            }
            CopyCommand::Lend {
                log,
                home,
                frames,
                block,
            } => {
                copy.lent_log = (*log).min(copy.log.len() as u64) as usize;
                copy.lent_home = (*home).min(copy.home.len() as u64) as usize;
                copy.lent_frames = (*frames).min(copy.frames.len() as u64) as usize;
                copy.lent_block = (*block).min(BLOCK_SIZE as u64) as usize;
                Some("lent".to_string())
            }
            CopyCommand::Poke { place, value } => {
                if *place >= copy.log.len() as u64 || *value > 255 {
                    return None;
                }
                let place = *place as usize;
                if copy.log[place] != *value as u8 {
                    copy.log[place] = *value as u8;
                    // Somebody else has written the copy's log: the cut rule says nothing more of it.
                    self.copy_watch = None;
                }
                Some("poked".to_string())
            }
            CopyCommand::Digests => {
                let (log, home) = (digest(&copy.log), digest(&copy.home));
                Some(format!("log {log} home {home}"))
            }
            _ => {
                self.counts.calls += 1;
                let before = copy.clone();
                let answer = self.run_copy_call(store, copy, command);
                let quiet = answer.starts_with("refused") || answer == "had";
                if *command == CopyCommand::Open {
                    assert_eq!(before.log, copy.log, "the copy's opening wrote the log");
                    assert_eq!(before.home, copy.home, "the copy's opening wrote home");
                    assert_eq!(copy.state.is_sound_copy(), !quiet);
                    if quiet {
                        assert_eq!(copy.state, State::all_zero());
                    }
                } else if quiet {
                    assert!(before == *copy, "a refused call or had changed something");
                } else {
                    assert!(copy.state.is_sound_copy(), "left {:?}", copy.state);
                }
                // To the calls of a desk it is never sound.
                assert!(!copy.state.is_sound());
                Some(answer)
            }
        }
    }

    /// Makes one of a copy's calls over what is lent, and keeps the copy's book beside it.
    fn run_copy_call(
        &mut self,
        store: &Store,
        copy: &mut CopyStore,
        command: &CopyCommand,
    ) -> String {
        match command {
            CopyCommand::Open => self.open_copy(copy),
            CopyCommand::Feed(slot) => self.feed_copy(store, copy, &desk_slot(store, *slot)),
            CopyCommand::FeedHeld => {
                let held = self.held.clone();
                self.feed_copy(store, copy, &held)
            }
            CopyCommand::Read(page) => {
                let home = &copy.home[..copy.lent_home];
                let frames = &copy.frames[..copy.lent_frames];
                match calls::read(&copy.state, home, frames, *page) {
                    Err(refusal) => refused_line(refusal),
                    Ok(bytes) => {
                        if let Some(watch) = &self.copy_watch {
                            watch.read(*page, bytes, &mut self.counts.copies);
                        }
                        format!("page {}", digest(bytes))
                    }
                }
            }
            CopyCommand::Settled(ticket) => match calls::settled(&copy.state, *ticket) {
                Err(refusal) => refused_line(refusal),
                Ok(yes) => {
                    if let Some(watch) = &self.copy_watch {
                        watch.settled(*ticket, yes, &mut self.counts.copies);
                    }
                    if yes { "yes" } else { "no" }.to_string()
                }
            },
            CopyCommand::Begin => match calls::begin(&mut copy.state.clone(), 1) {
                Err(refusal) => refused_line(refusal),
                Ok(()) => "ok".to_string(),
            },
            _ => unreachable!("no call of a copy"),
        }
    }

    fn open_copy(&mut self, copy: &mut CopyStore) -> String {
        let (state, answer) = recovery::open_copy(
            &copy.log[..copy.lent_log],
            &copy.home[..copy.lent_home],
            &mut copy.frames[..copy.lent_frames],
            self.choice,
        );
        copy.state = state;
        let counts = &mut self.counts.copies;
        if copy.state.stored > 0 {
            counts.openings_with_half_groups += 1;
        }
        if !copy.state.dirty.is_empty() {
            counts.openings_with_dirty_pages += 1;
        }
        if let Some(watch) = &mut self.copy_watch {
            watch.open(copy, &answer, counts);
        }
        match answer {
            Ok(ticket) => format!("opened {ticket} next {}", copy.state.next),
            Err(refused) => format!(
                "refused {} place {}",
                refused.refusal.number(),
                refused.place
            ),
        }
    }

    fn feed_copy(&mut self, store: &Store, copy: &mut CopyStore, block: &[u8]) -> String {
        let before = copy.clone();
        let bytes = &block[..copy.lent_block];
        let answer = copies::feed(
            &mut copy.state,
            &mut copy.log[..copy.lent_log],
            &mut copy.home[..copy.lent_home],
            &mut copy.frames[..copy.lent_frames],
            bytes,
            self.choice,
        );
        let counts = &mut self.counts.copies;
        count_by_kind(counts, &before, copy, bytes, answer);
        let fed = match answer {
            Err(refused) => {
                if refused.refusal == Refusal::OutOfOrder {
                    count_an_8(counts, &before, bytes);
                }
                return refused_feed_line(refused);
            }
            Ok(fed) => fed,
        };
        count_a_feed(counts, &before, bytes, fed);
        assert_one_store(&before, copy, fed);
        let desk = self.watch.as_ref().map(|watch| Desk {
            store,
            watch,
            blocks: &self.desk_blocks,
        });
        let goes_on = match &mut self.copy_watch {
            Some(watch) => watch.fed(copy, bytes, fed, desk.as_ref(), counts),
            None => false,
        };
        if !goes_on {
            self.copy_watch = None;
        }
        match fed {
            Fed::Taken => "taken",
            Fed::NotYet => "not yet",
            Fed::Had => "had",
        }
        .to_string()
    }
}

/// The 512-byte blocks in which two areas differ.
fn changed_blocks(before: &[u8], after: &[u8]) -> Vec<usize> {
    let pairs = before.chunks(BLOCK_SIZE).zip(after.chunks(BLOCK_SIZE));
    let changed = pairs.enumerate().filter(|(_, (old, new))| old != new);
    changed.map(|(number, _)| number).collect()
}

/// A taken block changes its slot of the log and nothing of home; a block not yet taken at most one half
/// of the page that is cleaned, and neither log nor frames.
fn assert_one_store(before: &CopyStore, after: &CopyStore, fed: Fed) {
    let log = changed_blocks(&before.log, &after.log);
    let home = changed_blocks(&before.home, &after.home);
    match fed {
        Fed::Taken => {
            let slot = slot_of(before.state.next, before.state.slots) as usize;
            assert!(log.iter().all(|changed| *changed == slot));
            assert!(home.is_empty(), "a taken block changed home");
            assert_eq!(after.state.next, before.state.next + 1);
        }
        Fed::NotYet => {
            let half = match after.state.cleaning {
                Cleaning::Second(page) => 2 * page as usize,
                Cleaning::Third(page) => 2 * page as usize + 1,
                _ => panic!("not yet, but no cleaning is under way"),
            };
            assert!(home.iter().all(|changed| *changed == half));
            let mut expected = before.clone();
            expected.home.clone_from(&after.home);
            expected.state.cleaning = after.state.cleaning;
            assert!(expected == *after, "not yet, but more than a half changed");
        }
        Fed::Had => assert!(before == after),
    }
}

fn fed_block(copy: &CopyStore, bytes: &[u8]) -> Block {
    decode(bytes, copy.state.slots, copy.state.pages).expect("an accepted block is valid")
}

/// Why a feed was refused with 8, by the first of the rules that it breaks.
fn count_an_8(counts: &mut CopyCounts, before: &CopyStore, bytes: &[u8]) {
    let block = fed_block(before, bytes);
    if !copies::is_in_order(&before.state, &block) {
        counts.out_of_order += 1;
    } else if block.keep_from != copies::right_keep_from(&before.state, &block.kind) {
        counts.wrong_keep_from += 1;
    } else {
        counts.no_room += 1;
    }
}

/// Counts a valid block by its kind and the answer to it.
fn count_by_kind(
    counts: &mut CopyCounts,
    before: &CopyStore,
    after: &CopyStore,
    bytes: &[u8],
    answer: Result<Fed, RefusedFeed>,
) {
    let number;
    let name = match answer {
        Ok(Fed::Taken) => "taken",
        Ok(Fed::NotYet) => match after.state.cleaning {
            Cleaning::Second(_) => "1st half",
            _ => "2nd half",
        },
        Ok(Fed::Had) => "had",
        Err(refused) => {
            number = refused.refusal.number().to_string();
            &number
        }
    };
    let Some(column) = FED_ANSWERS.iter().position(|answer| *answer == name) else {
        // 1, 2 and 13: no block was looked at, or it is not valid.
        return;
    };
    let kind = match fed_block(before, bytes).kind {
        Kind::Update { .. } => 0,
        Kind::Commit { .. } => 1,
        Kind::Clean { page } if before.state.dirty_page(page).is_some() => 2,
        Kind::Clean { .. } => 3,
    };
    counts.by_kind[kind][column] += 1;
}

fn count_a_feed(counts: &mut CopyCounts, before: &CopyStore, bytes: &[u8], fed: Fed) {
    let named = match before.state.cleaning {
        Cleaning::Idle => None,
        Cleaning::First(page) | Cleaning::Second(page) | Cleaning::Third(page) => Some(page),
    };
    let block = fed_block(before, bytes);
    if fed == Fed::Had {
        if named.is_some() {
            counts.had_in_a_cleaning += 1;
        }
        return;
    }
    let cleaned = match block.kind {
        Kind::Clean { page } => Some(page),
        _ => None,
    };
    if named.is_some() && named != cleaned {
        counts.made_idle += 1;
        if fed == Fed::NotYet {
            counts.made_idle_by_a_half += 1;
        }
    }
    if fed == Fed::NotYet {
        return;
    }
    let half_group = before.state.stored > 0;
    match block.kind {
        Kind::Update { index: 1, .. } if half_group => counts.groups_void_by_updates += 1,
        Kind::Clean { .. } if half_group => counts.groups_void_by_cleans += 1,
        Kind::Commit { updates } if updates > 1 => counts.commits_of_several += 1,
        _ => (),
    }
    let slot = slot_of(before.state.next, before.state.slots);
    if before.log[area_range(slot, BLOCK_SIZE)]
        .iter()
        .any(|byte| *byte != 0)
    {
        counts.blocks_over_older_blocks += 1;
    }
    if before.state.next == crate::block::SEQUENCE_LIMIT - 1 {
        counts.blocks_at_the_last_sequence += 1;
    }
}
