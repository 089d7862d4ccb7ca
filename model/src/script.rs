//! The script language: one line in, one line out. docs/REPLAY.md lists how its open points are read.

use crate::block::{read_slot, slot_of};
use crate::block::{Slot, BLOCK_SIZE, MAX_UPDATE_LENGTH, PAGE_SIZE};
use crate::calls::{self, area_range, FreeChoice, Refusal};
use crate::copy_script::{self, CopyCommand, CopyCounts, CopyStore};
use crate::copy_watch::{CopyWatch, Desk, DeskBlocks};
use crate::recovery;
use crate::state::{Cleaning, State};
use crate::waiting;
use crate::watch::Watch;

#[derive(Clone, Debug, PartialEq, Eq)]
pub enum Command {
    Areas {
        slots: u64,
        pages: u64,
        frames: u64,
    },
    Format,
    Begin(u64),
    Describe {
        page: u64,
        offset: u64,
        length: u64,
        seed: u64,
    },
    Open,
    End,
    LogStep,
    CleanStep,
    Read(u64),
    Settled(u64),
    Cut,
    Lend {
        log: u64,
        home: u64,
        frames: u64,
        staging: u64,
    },
    Poke {
        place: u64,
        value: u64,
    },
    Next(u64),
    Digests,
    /// A line of request l.
    OfCopy(CopyCommand),
}

/// Splits a line, without its newline, into its letter and its numbers.
fn letter_and_numbers(line: &[u8]) -> Option<(u8, Vec<u64>)> {
    let (letter, mut rest) = line.split_first()?;
    let mut numbers = Vec::new();
    while !rest.is_empty() {
        if rest[0] != b' ' {
            return None;
        }
        rest = &rest[1..];
        let digits = rest.iter().take_while(|byte| byte.is_ascii_digit()).count();
        if digits == 0 {
            return None;
        }
        let mut number: u64 = 0;
        for digit in &rest[..digits] {
            number = number
                .checked_mul(10)?
                .checked_add(u64::from(digit - b'0'))?;
        }
        numbers.push(number);
        rest = &rest[digits..];
    }
    Some((*letter, numbers))
}

/// The command of a line, without its newline. None where the line is bad by its form alone.
pub fn parse(line: &[u8]) -> Option<Command> {
    let (letter, numbers) = letter_and_numbers(line)?;
    Some(match (letter, numbers.as_slice()) {
        (b'a', &[slots, pages, frames]) => Command::Areas {
            slots,
            pages,
            frames,
        },
        (b'f', &[]) => Command::Format,
        (b'b', &[updates]) => Command::Begin(updates),
        (b'd', &[page, offset, length, seed]) => Command::Describe {
            page,
            offset,
            length,
            seed,
        },
        (b'o', &[]) => Command::Open,
        (b'e', &[]) => Command::End,
        (b'l', &[]) => Command::LogStep,
        (b'c', &[]) => Command::CleanStep,
        (b'r', &[page]) => Command::Read(page),
        (b's', &[ticket]) => Command::Settled(ticket),
        (b'x', &[]) => Command::Cut,
        (b'n', &[log, home, frames, staging]) => Command::Lend {
            log,
            home,
            frames,
            staging,
        },
        (b'p', &[place, value]) => Command::Poke { place, value },
        (b't', &[next]) => Command::Next(next),
        (b'g', &[]) => Command::Digests,
        (_, numbers) => Command::OfCopy(copy_script::parse(letter, numbers)?),
    })
}

pub fn digest(bytes: &[u8]) -> u64 {
    let mut h: u64 = 0;
    for byte in bytes {
        h = (h * 257 + u64::from(*byte) + 1) % 4_294_967_291;
    }
    h
}

/// The areas, how much of each is lent, and the state.
#[derive(Clone, Debug, PartialEq, Eq)]
pub struct Store {
    pub log: Vec<u8>,
    pub home: Vec<u8>,
    pub frames: Vec<u8>,
    pub staging: Vec<u8>,
    pub lent_log: usize,
    pub lent_home: usize,
    pub lent_frames: usize,
    pub lent_staging: usize,
    pub state: State,
}

impl Store {
    pub fn new(slots: u64, pages: u64, frames: u64) -> Store {
        let log = vec![255; slots as usize * BLOCK_SIZE];
        let mut home = vec![0; pages as usize * PAGE_SIZE];
        for i in 0..home.len() {
            home[i] = ((i + 31 * (i / 1024)) % 251) as u8;
        }
        let frame_bytes = vec![170; frames as usize * PAGE_SIZE];
        let staging = vec![170; frames as usize * MAX_UPDATE_LENGTH];
        Store {
            lent_log: log.len(),
            lent_home: home.len(),
            lent_frames: frame_bytes.len(),
            lent_staging: staging.len(),
            log,
            home,
            frames: frame_bytes,
            staging,
            state: State::all_zero(),
        }
    }
}

/// What happened in a run, for the coverage table.
#[derive(Clone, Debug, Default)]
pub struct Counts {
    pub calls: u64,
    pub commits: u64,
    pub commits_of_several: u64,
    pub clean_blocks: u64,
    pub cleanings_given_up: u64,
    pub cleanings_among_equals: u64,
    pub cleanings_against_frames: u64,
    pub blocks_over_older_blocks: u64,
    pub blocks_at_the_last_sequence: u64,
    pub openings_with_dirty_pages: u64,
    pub openings_of_half_groups: u64,
    pub cuts_in_a_half_group: u64,
    pub book_answers: u64,
    pub book_openings: u64,
    /// Openings tried with the newest block damaged.
    pub damaged_openings: u64,
    /// Openings tried with some slots damaged, and how many of them were accepted.
    pub bad_openings: u64,
    pub bad_openings_accepted: u64,
    /// Openings of a script that were refused for a damaged slot after the newest block.
    pub damaged_ends: u64,
    /// Begins refused as full that were tried again after the steps of request k; those with a log
    /// step among these, and those with as many clean steps as there can be.
    pub waits: u64,
    pub waits_for_blocks: u64,
    pub longest_waits: u64,
    pub copies: CopyCounts,
}

impl Counts {
    pub fn add(&mut self, other: &Counts) {
        self.calls += other.calls;
        self.commits += other.commits;
        self.commits_of_several += other.commits_of_several;
        self.clean_blocks += other.clean_blocks;
        self.cleanings_given_up += other.cleanings_given_up;
        self.cleanings_among_equals += other.cleanings_among_equals;
        self.cleanings_against_frames += other.cleanings_against_frames;
        self.blocks_over_older_blocks += other.blocks_over_older_blocks;
        self.blocks_at_the_last_sequence += other.blocks_at_the_last_sequence;
        self.openings_with_dirty_pages += other.openings_with_dirty_pages;
        self.openings_of_half_groups += other.openings_of_half_groups;
        self.cuts_in_a_half_group += other.cuts_in_a_half_group;
        self.book_answers += other.book_answers;
        self.book_openings += other.book_openings;
        self.damaged_openings += other.damaged_openings;
        self.bad_openings += other.bad_openings;
        self.bad_openings_accepted += other.bad_openings_accepted;
        self.damaged_ends += other.damaged_ends;
        self.waits += other.waits;
        self.waits_for_blocks += other.waits_for_blocks;
        self.longest_waits += other.longest_waits;
        self.copies.add(&other.copies);
    }
}

pub struct Runner {
    pub store: Option<Store>,
    pub watch: Option<Watch>,
    pub counts: Counts,
    pub choice: FreeChoice,
    /// The desk's blocks, right as long as there is a watch.
    pub desk_blocks: DeskBlocks,
    pub copy: Option<CopyStore>,
    pub copy_watch: Option<CopyWatch>,
    /// The block held aside for a copy.
    pub held: Vec<u8>,
}

/// Asserts that every refused call but Open changes nothing.
fn assert_unchanged(before: &Store, after: &Store) {
    assert!(
        before == after,
        "a refused call changed the state or an area"
    );
}

pub fn refused_line(refusal: Refusal) -> String {
    format!("refused {}", refusal.number())
}

impl Runner {
    pub fn new(choice: FreeChoice) -> Runner {
        Runner {
            store: None,
            watch: None,
            counts: Counts::default(),
            choice,
            desk_blocks: DeskBlocks::default(),
            copy: None,
            copy_watch: None,
            held: vec![0; BLOCK_SIZE],
        }
    }

    /// Runs a whole script. A last line without a newline is bad.
    pub fn run_script(&mut self, script: &[u8]) -> String {
        let mut output = String::new();
        let mut rest = script;
        while !rest.is_empty() {
            match rest.iter().position(|byte| *byte == b'\n') {
                Some(end) => {
                    output += &self.run_line(&rest[..end]);
                    rest = &rest[end + 1..];
                }
                None => {
                    output += "bad";
                    rest = &[];
                }
            }
            output.push('\n');
        }
        output
    }

    /// Runs one line, given without its newline, and gives the line to print.
    pub fn run_line(&mut self, line: &[u8]) -> String {
        match parse(line).and_then(|command| self.run_command(&command)) {
            Some(answer) => answer,
            None => "bad".to_string(),
        }
    }

    /// None where the line is bad by a number's range or for want of areas.
    fn run_command(&mut self, command: &Command) -> Option<String> {
        if let Command::Areas {
            slots,
            pages,
            frames,
        } = command
        {
            if !(8..=64).contains(slots) || !(1..=16).contains(pages) || !(1..=8).contains(frames) {
                return None;
            }
            self.store = Some(Store::new(*slots, *pages, *frames));
            self.watch = None;
            self.copy = None;
            self.copy_watch = None;
            self.held.fill(0);
            return Some("areas".to_string());
        }
        let mut store = self.store.take()?;
        let answer = self.run_on(&mut store, command);
        self.store = Some(store);
        answer
    }

    fn run_on(&mut self, store: &mut Store, command: &Command) -> Option<String> {
        match command {
            Command::Areas { .. } => unreachable!("handled before"),
            Command::Cut => {
                if store.state.is_sound() && store.state.stored > 0 {
                    self.counts.cuts_in_a_half_group += 1;
                }
                store.state = State::all_zero();
                store.frames.fill(85);
                store.staging.fill(85);
                if let Some(watch) = &mut self.watch {
                    watch.cut(store, &mut self.counts);
                }
                Some("cut".to_string())
            }
            Command::Lend {
                log,
                home,
                frames,
                staging,
            } => {
                store.lent_log = (*log).min(store.log.len() as u64) as usize;
                store.lent_home = (*home).min(store.home.len() as u64) as usize;
                store.lent_frames = (*frames).min(store.frames.len() as u64) as usize;
                store.lent_staging = (*staging).min(store.staging.len() as u64) as usize;
                Some("lent".to_string())
            }
            Command::Poke { place, value } => {
                if *place >= store.log.len() as u64 || *value > 255 {
                    return None;
                }
                let place = *place as usize;
                if store.log[place] != *value as u8 {
                    store.log[place] = *value as u8;
                    // Somebody else has written the log: the crash theorem says nothing more of it.
                    self.watch = None;
                }
                Some("poked".to_string())
            }
            Command::Next(next) => {
                if let Some(watch) = &mut self.watch {
                    watch.next_is_set(&store.state, *next);
                }
                store.state.next = *next;
                Some("next".to_string())
            }
            Command::Digests => {
                let (log, home) = (digest(&store.log), digest(&store.home));
                Some(format!("log {log} home {home}"))
            }
            Command::Describe { length, .. } if *length > 512 => None,
            Command::OfCopy(command) => self.run_on_copy(store, command),
            _ => {
                self.counts.calls += 1;
                let before = store.clone();
                let answer = self.run_call(store, command);
                let refused = answer.starts_with("refused");
                match command {
                    Command::Open => {
                        assert_eq!(before.log, store.log, "Open wrote the log");
                        assert_eq!(before.home, store.home, "Open wrote home");
                        assert_eq!(before.staging, store.staging, "Open wrote staging");
                        assert_eq!(store.state.is_sound(), !refused);
                        if refused {
                            assert_eq!(store.state, State::all_zero());
                        }
                    }
                    Command::Format => assert_eq!(before.state, store.state),
                    _ => {
                        if !refused {
                            assert!(
                                store.state.is_sound(),
                                "an accepted call left {:?}",
                                store.state
                            );
                        }
                    }
                }
                if refused && *command != Command::Open {
                    assert_unchanged(&before, store);
                }
                if !refused {
                    self.follow_the_desk(&before, store, command);
                }
                Some(answer)
            }
        }
    }

    /// Keeps the desk's blocks, and compares the copy with the desk after an accepted call of the desk.
    fn follow_the_desk(&mut self, before: &Store, store: &Store, command: &Command) {
        match command {
            Command::Format => self.desk_blocks.formatted(),
            Command::LogStep | Command::CleanStep if store.state.next != before.state.next => {
                let slot = slot_of(before.state.next, before.state.slots);
                let bytes = &store.log[area_range(slot, BLOCK_SIZE)];
                self.desk_blocks.stored(before.state.next, bytes);
            }
            _ => (),
        }
        if matches!(
            command,
            Command::Open | Command::LogStep | Command::CleanStep
        ) {
            self.compare_copy_and_desk(store, false);
        }
    }

    pub fn compare_copy_and_desk(&mut self, store: &Store, whole_way: bool) {
        let (Some(copy), Some(copy_watch)) = (&self.copy, &self.copy_watch) else {
            return;
        };
        let Some(watch) = &self.watch else {
            return;
        };
        let desk = Desk {
            store,
            watch,
            blocks: &self.desk_blocks,
        };
        copy_watch.compare_with_the_desk(copy, Some(&desk), whole_way, &mut self.counts.copies);
    }

    /// Makes one of the nine calls over what is lent, and keeps the book beside it.
    fn run_call(&mut self, store: &mut Store, command: &Command) -> String {
        let counts = &mut self.counts;
        let log = &mut store.log[..store.lent_log];
        let home = &mut store.home[..store.lent_home];
        let frames = &mut store.frames[..store.lent_frames];
        let staging = &mut store.staging[..store.lent_staging];
        let state = &mut store.state;
        match command {
            Command::Format => match calls::format(log) {
                Err(refusal) => refused_line(refusal),
                Ok(()) => {
                    let slots = (store.lent_log / BLOCK_SIZE) as u64;
                    self.watch = Some(Watch::new(slots, &store.home));
                    "ok".to_string()
                }
            },
            Command::Open => {
                let (new_state, answer) = recovery::open(log, home, frames, staging, self.choice);
                *state = new_state;
                match answer {
                    Ok(_) => {
                        if !state.dirty.is_empty() {
                            counts.openings_with_dirty_pages += 1;
                        }
                        if ends_in_an_update(log, state) {
                            counts.openings_of_half_groups += 1;
                        }
                    }
                    Err(refused) => {
                        let pages = (home.len() / PAGE_SIZE) as u64;
                        if refused.refusal == Refusal::Damaged
                            && refused.place > 0
                            && refused.place == newest_in(log, pages) + 1
                        {
                            counts.damaged_ends += 1;
                        }
                    }
                }
                if let Some(watch) = &mut self.watch {
                    watch.open(store, &answer, counts);
                }
                match answer {
                    Ok(ticket) => format!("opened {ticket} next {}", store.state.next),
                    Err(refused) => {
                        format!(
                            "refused {} place {}",
                            refused.refusal.number(),
                            refused.place
                        )
                    }
                }
            }
            Command::Begin(updates) => match calls::begin(state, *updates) {
                Err(refusal) => {
                    if refusal == Refusal::Full && waiting::is_spoken_of(store) {
                        let steps = waiting::wait(store, *updates, self.choice);
                        counts.waits += 1;
                        if steps.log_steps > 0 {
                            counts.waits_for_blocks += 1;
                        }
                        if steps.clean_steps == 3 * store.state.frames {
                            counts.longest_waits += 1;
                        }
                    }
                    refused_line(refusal)
                }
                Ok(()) => {
                    if let Some(watch) = &mut self.watch {
                        watch.begin();
                    }
                    "ok".to_string()
                }
            },
            Command::Describe {
                page,
                offset,
                length,
                seed,
            } => {
                let mut bytes = Vec::new();
                for j in 0..*length {
                    let number = u128::from(*seed) + 13 * u128::from(j);
                    bytes.push((number % 256) as u8);
                }
                match calls::describe(state, staging, *page, *offset, &bytes, self.choice) {
                    Err(refusal) => refused_line(refusal),
                    Ok(()) => {
                        if let Some(watch) = &mut self.watch {
                            watch.describe(*page, *offset, &bytes);
                        }
                        "ok".to_string()
                    }
                }
            }
            Command::End => match calls::end(state) {
                Err(refusal) => refused_line(refusal),
                Ok(ticket) => {
                    if let Some(watch) = &mut self.watch {
                        watch.end(ticket, counts);
                    }
                    format!("ticket {ticket}")
                }
            },
            Command::LogStep => {
                let before = state.clone();
                let older = slot_is_used(log, &before);
                match calls::log_step(state, log, home, frames, staging, self.choice) {
                    Err(refusal) => refused_line(refusal),
                    Ok(settled) => {
                        count_a_block(counts, &before, older);
                        if settled.is_some() {
                            counts.commits += 1;
                            if before.queue[0].len() > 1 {
                                counts.commits_of_several += 1;
                            }
                            if before.cleaning != Cleaning::Idle && state.cleaning == Cleaning::Idle
                            {
                                counts.cleanings_given_up += 1;
                            }
                        }
                        let goes_on = match &mut self.watch {
                            Some(watch) => watch.log_step(store, settled, counts),
                            None => false,
                        };
                        if !goes_on {
                            self.watch = None;
                        }
                        match settled {
                            Some(ticket) => format!("settled {ticket}"),
                            None => "stored".to_string(),
                        }
                    }
                }
            }
            Command::CleanStep => {
                let before = state.clone();
                let older = slot_is_used(log, &before);
                match calls::clean_step(state, log, home, frames) {
                    Err(refusal) => refused_line(refusal),
                    Ok(()) => {
                        if before.cleaning == Cleaning::Idle {
                            count_a_choice(counts, &before);
                        }
                        if state.next != before.next {
                            counts.clean_blocks += 1;
                            count_a_block(counts, &before, older);
                        }
                        let goes_on = match &mut self.watch {
                            Some(watch) => watch.clean_step(store, counts),
                            None => false,
                        };
                        if !goes_on {
                            self.watch = None;
                        }
                        "stored".to_string()
                    }
                }
            }
            Command::Read(page) => match calls::read(state, home, frames, *page) {
                Err(refusal) => refused_line(refusal),
                Ok(bytes) => {
                    if let Some(watch) = &mut self.watch {
                        watch.read(*page, bytes, counts);
                    }
                    format!("page {}", digest(bytes))
                }
            },
            Command::Settled(ticket) => match calls::settled(state, *ticket) {
                Err(refusal) => refused_line(refusal),
                Ok(yes) => {
                    if let Some(watch) = &mut self.watch {
                        watch.settled(*ticket, yes, counts);
                    }
                    if yes { "yes" } else { "no" }.to_string()
                }
            },
            _ => unreachable!("no call"),
        }
    }
}

/// Whether the slot that the next block goes to holds something already.
fn slot_is_used(log: &[u8], state: &State) -> bool {
    if !state.is_sound() || log.len() as u64 != state.slots * BLOCK_SIZE as u64 {
        return false;
    }
    let slot = slot_of(state.next, state.slots);
    log[area_range(slot, BLOCK_SIZE)]
        .iter()
        .any(|byte| *byte != 0)
}

fn count_a_block(counts: &mut Counts, before: &State, older: bool) {
    if older {
        counts.blocks_over_older_blocks += 1;
    }
    if before.next == crate::block::SEQUENCE_LIMIT - 1 {
        counts.blocks_at_the_last_sequence += 1;
    }
}

/// Counts a cleaning that has a choice among pages with the smallest first group, and whether the lowest
/// of them is in another frame than the lowest.
fn count_a_choice(counts: &mut Counts, before: &State) {
    let oldest = before.dirty.iter().map(|d| d.first_group).min().unwrap();
    let equals = || before.dirty.iter().filter(|d| d.first_group == oldest);
    if equals().count() > 1 {
        counts.cleanings_among_equals += 1;
        let by_page = equals().min_by_key(|d| d.page).unwrap();
        let by_frame = equals().min_by_key(|d| d.frame).unwrap();
        if by_page != by_frame {
            counts.cleanings_against_frames += 1;
        }
    }
}

/// The largest valid sequence of a log.
fn newest_in(log: &[u8], pages: u64) -> u64 {
    let slots = (log.len() / BLOCK_SIZE) as u64;
    let mut newest = 0;
    for slot in 0..slots {
        let bytes = &log[area_range(slot, BLOCK_SIZE)];
        if let Slot::Valid(block) = read_slot(bytes, slot, slots, pages) {
            newest = newest.max(block.sequence);
        }
    }
    newest
}

/// Whether the newest block of an opened log is an update, so that the end voids its group.
fn ends_in_an_update(log: &[u8], state: &State) -> bool {
    let slot = slot_of(state.next - 1, state.slots);
    match read_slot(
        &log[area_range(slot, BLOCK_SIZE)],
        slot,
        state.slots,
        state.pages,
    ) {
        Slot::Valid(block) => {
            state.next > 1 && matches!(block.kind, crate::block::Kind::Update { .. })
        }
        _ => false,
    }
}
