//! Random scripts from a seed. The generator runs the model beside it, so that it knows the state
//! that its next line meets, and gives mostly right and sometimes wrong arguments.

use crate::block::{
    encode, read_slot, set_check, slot_of, Block, Kind, Slot, BLOCK_SIZE, MAX_UPDATE_LENGTH,
    PAGE_SIZE, SEQUENCE_LIMIT,
};
use crate::calls::{area_range, FreeChoice};
use crate::script::{Runner, Store};
use crate::state::State;

mod feeding;

/// A small deterministic generator of numbers (splitmix64).
pub struct Random {
    state: u64,
}

impl Random {
    pub fn new(seed: u64) -> Random {
        Random { state: seed }
    }

    pub fn number(&mut self) -> u64 {
        self.state = self.state.wrapping_add(0x9E37_79B9_7F4A_7C15);
        let mut z = self.state;
        z = (z ^ (z >> 30)).wrapping_mul(0xBF58_476D_1CE4_E5B9);
        z = (z ^ (z >> 27)).wrapping_mul(0x94D0_49BB_1331_11EB);
        z ^ (z >> 31)
    }

    /// A number from 0 to limit - 1.
    pub fn below(&mut self, limit: u64) -> u64 {
        self.number() % limit
    }

    /// A number from least to most, both included.
    pub fn from_to(&mut self, least: u64, most: u64) -> u64 {
        least + self.below(most - least + 1)
    }

    pub fn chance(&mut self, percent: u64) -> bool {
        self.below(100) < percent
    }

    pub fn choose<T: Clone>(&mut self, among: &[T]) -> T {
        among[self.below(among.len() as u64) as usize].clone()
    }
}

#[derive(Clone, Copy, Debug, PartialEq, Eq)]
enum Action {
    Transaction,
    Begin,
    Describe,
    End,
    LogSteps,
    CleanSteps,
    Read,
    ReadAll,
    Settled,
    Cut,
    Open,
    WrongLengths,
    FewerFrames,
    OtherSizes,
    Damage,
    ForgeBlock,
    SetNext,
    CleanAll,
    FormatAndOpen,
    Digests,
    BadLine,
}

/// What a script is mostly about.
#[derive(Clone, Copy, Debug, PartialEq, Eq)]
enum Theme {
    Ordinary,
    NearTheLastSequence,
    ForgedLogs,
    AnythingGoes,
}

/// Numbers that a narrow or careless reading takes for something else.
const ODD_NUMBERS: [u64; 16] = [
    0,
    1,
    16,
    17,
    255,
    256,
    1024,
    65_535,
    65_536,
    65_537,
    1 << 32,
    (1 << 32) + 1,
    (1 << 48) - 1,
    1 << 48,
    1 << 63,
    u64::MAX,
];

struct Maker {
    random: Random,
    /// The generator of the lines of request l.
    side: Random,
    manner: feeding::Manner,
    runner: Runner,
    lines: Vec<String>,
    answers: Vec<String>,
    /// How many of the lines are the desk's.
    desk_lines: usize,
    /// How much damage, wrong lengths and the like the script has, from 1 to 3.
    trouble: u64,
}

/// A random script and the answers to it.
pub struct MadeScript {
    pub lines: Vec<String>,
    pub answers: Vec<String>,
    pub runner: Runner,
}

impl MadeScript {
    pub fn text(&self) -> String {
        let mut text = String::new();
        for line in &self.lines {
            text += line;
            text.push('\n');
        }
        text
    }
}

/// The block with one byte changed and its check made right again.
fn with_changed_byte(random: &mut Random, block: &[u8]) -> Vec<u8> {
    let mut bytes = block.to_vec();
    let place = match random.below(10) {
        0..=6 => random.from_to(16, 35),
        7 => random.below(16),
        _ => random.from_to(36, 507),
    } as usize;
    bytes[place] = match random.below(3) {
        0 => bytes[place].wrapping_add(1),
        1 => bytes[place].wrapping_sub(1),
        _ => random.below(256) as u8,
    };
    set_check(&mut bytes);
    bytes
}

pub fn make(seed: u64) -> MadeScript {
    let (side, manner) = feeding::side_of(seed);
    let mut maker = Maker {
        random: Random::new(seed),
        side,
        manner,
        runner: Runner::new(FreeChoice::Lowest),
        lines: Vec::new(),
        answers: Vec::new(),
        desk_lines: 0,
        trouble: 1,
    };
    maker.script();
    MadeScript {
        lines: maker.lines,
        answers: maker.answers,
        runner: maker.runner,
    }
}

impl Maker {
    /// Says a line of the desk; lines of request l may follow it.
    fn say(&mut self, line: impl Into<String>) -> String {
        let line = line.into();
        let answer = self.tell(&line);
        self.desk_lines += 1;
        self.copy_turn(&line, &answer);
        answer
    }

    /// Says a line, and no more.
    fn tell(&mut self, line: impl Into<String>) -> String {
        let line = line.into();
        let answer = self.runner.run_line(line.as_bytes());
        self.lines.push(line);
        self.answers.push(answer.clone());
        answer
    }

    fn store(&self) -> &Store {
        self.runner
            .store
            .as_ref()
            .expect("a script starts with its areas")
    }

    fn state(&self) -> &State {
        &self.store().state
    }

    fn sound(&self) -> bool {
        self.state().is_sound()
    }

    fn script(&mut self) {
        if self.random.chance(10) {
            // Calls before there are areas.
            for line in [
                "f",
                "o",
                "b 1",
                "x",
                "g",
                "n 1 2 3 4",
                "p 0 0",
                "t 1",
                "a 8 1",
            ] {
                if self.random.chance(50) {
                    self.say(line);
                }
            }
        }
        let theme = match self.random.below(20) {
            0..=8 => Theme::Ordinary,
            9..=11 => Theme::NearTheLastSequence,
            12..=17 => Theme::ForgedLogs,
            _ => Theme::AnythingGoes,
        };
        self.trouble = self.random.from_to(1, 3);
        self.areas(theme);
        let length = self.random.from_to(250, 550) as usize;
        match theme {
            Theme::ForgedLogs => {
                while self.desk_lines < length {
                    self.forged_log();
                    self.say("o");
                    self.reads_of_all_pages();
                    let end = self.desk_lines + self.random.from_to(5, 40) as usize;
                    while self.desk_lines < end {
                        self.action(theme);
                    }
                }
            }
            _ => {
                self.format_and_open();
                while self.desk_lines < length {
                    if self.trouble == 3 && self.random.chance(1) {
                        self.areas(theme);
                        self.format_and_open();
                    }
                    self.action(theme);
                }
            }
        }
        self.say("g");
        self.say("o");
        self.reads_of_all_pages();
        self.last_of_the_copy();
    }

    fn areas(&mut self, theme: Theme) {
        let (slots, pages, frames) = match theme {
            Theme::ForgedLogs => (
                self.random.from_to(8, 10),
                self.random.from_to(1, 5),
                self.random.from_to(1, 4),
            ),
            Theme::AnythingGoes => (
                self.random.from_to(8, 64),
                self.random.from_to(1, 16),
                self.random.from_to(1, 8),
            ),
            _ => match self.random.below(10) {
                0..=4 => (
                    self.random.from_to(8, 13),
                    self.random.from_to(1, 5),
                    self.random.from_to(1, 4),
                ),
                5..=7 => (
                    self.random.from_to(10, 30),
                    self.random.from_to(2, 8),
                    self.random.from_to(2, 8),
                ),
                8 => (64, 16, 8),
                _ => (
                    self.random.from_to(30, 64),
                    self.random.from_to(8, 16),
                    self.random.from_to(6, 8),
                ),
            },
        };
        self.say(format!("a {slots} {pages} {frames}"));
    }

    fn format_and_open(&mut self) {
        self.lend_all();
        self.say("f");
        self.say("o");
    }

    fn lend_all(&mut self) {
        let store = self.store();
        let all = store.lent_log == store.log.len()
            && store.lent_home == store.home.len()
            && store.lent_frames == store.frames.len()
            && store.lent_staging == store.staging.len();
        if !all {
            let most = u64::MAX;
            self.say(format!("n {most} {most} {most} {most}"));
        }
    }

    fn action(&mut self, theme: Theme) {
        if !self.sound() && self.random.chance(60) {
            self.come_back();
            return;
        }
        let near_end = self.sound() && self.state().next > SEQUENCE_LIMIT - 4;
        if near_end && self.random.chance(6) {
            self.format_and_open();
            return;
        }
        if theme == Theme::NearTheLastSequence
            && self.sound()
            && self.state().next < SEQUENCE_LIMIT - 1000
            && self.random.chance(20)
        {
            if self.random.chance(40) {
                self.last_sequences();
            } else {
                self.clean_all();
                let back = self.random.below(24);
                self.say(format!("t {}", SEQUENCE_LIMIT - back));
            }
            return;
        }
        let weights = self.weights(theme);
        let all: u64 = weights.iter().map(|(_, weight)| weight).sum();
        let mut drawn = self.random.below(all);
        for (action, weight) in weights {
            if drawn < weight {
                self.do_action(action);
                return;
            }
            drawn -= weight;
        }
    }

    /// How often each action is drawn. Calls that have something to do come more often.
    fn weights(&self, theme: Theme) -> Vec<(Action, u64)> {
        let state = self.state();
        let open = state.open.is_some();
        let full_list = match &state.open {
            Some(open) => open.updates.len() as u64 == open.reserved,
            None => false,
        };
        let queued = !state.queue.is_empty();
        let dirty = !state.dirty.is_empty();
        let when = |yes: bool, often: u64, seldom: u64| if yes { often } else { seldom };
        // From 1, a quiet script, to 3.
        let trouble = self.trouble;
        let mut weights = vec![
            (Action::Transaction, when(open, 2, 60)),
            (Action::Begin, when(open, 3, 15)),
            (Action::Describe, when(open && !full_list, 40, 4)),
            (Action::End, when(open, when(full_list, 40, 12), 2)),
            (Action::LogSteps, when(queued, 50, 3)),
            (Action::CleanSteps, when(dirty, 45, 2)),
            (Action::Read, 12),
            (Action::ReadAll, 3),
            (Action::Settled, 10),
            (Action::Cut, when(state.stored > 0, 14, 4 + trouble)),
            (Action::Open, 1 + trouble),
            (Action::WrongLengths, 4 * trouble),
            (
                Action::FewerFrames,
                when(state.dirty.len() > 1, 3 * trouble, trouble),
            ),
            (Action::OtherSizes, trouble - 1),
            (Action::Damage, 2 * trouble - 1),
            (Action::ForgeBlock, 2 * trouble - 1),
            (Action::SetNext, 3 * trouble - 1),
            (Action::CleanAll, 2),
            (Action::FormatAndOpen, trouble),
            (Action::Digests, 6),
            (Action::BadLine, 1 + 2 * trouble),
        ];
        if theme == Theme::AnythingGoes {
            for (_, weight) in &mut weights {
                *weight = *weight / 4 + 4;
            }
        }
        weights
    }

    /// From a state that is not sound back to one that is.
    fn come_back(&mut self) {
        self.lend_all();
        let answer = self.say("o");
        if answer.starts_with("refused") && self.random.chance(80) {
            self.say("f");
            self.say("o");
        }
    }

    fn do_action(&mut self, action: Action) {
        match action {
            Action::Transaction => self.transaction(),
            Action::Begin => {
                self.begin();
            }
            Action::Describe => self.describe(),
            Action::End => {
                self.say("e");
            }
            Action::LogSteps => {
                for _ in 0..self.random.from_to(1, 5) {
                    if self.say("l").starts_with("refused") {
                        break;
                    }
                }
            }
            Action::CleanSteps => {
                for _ in 0..self.random.from_to(1, 4) {
                    if self.say("c").starts_with("refused") {
                        break;
                    }
                }
            }
            Action::Read => {
                let pages = self.state().pages.max(1);
                let page = if self.random.chance(85) {
                    self.random.below(pages)
                } else {
                    self.wrong_number(pages)
                };
                self.say(format!("r {page}"));
            }
            Action::ReadAll => self.reads_of_all_pages(),
            Action::Settled => {
                let ended = self.state().ended;
                let ticket = match self.random.below(10) {
                    0..=6 => ended - self.random.below(ended.clamp(1, 3)),
                    7 => ended + 1,
                    8 => self.random.choose(&ODD_NUMBERS),
                    _ => self.random.from_to(0, ended + 1),
                };
                self.say(format!("s {ticket}"));
            }
            Action::Cut => {
                self.say("x");
                if self.random.chance(20) {
                    // Calls on the all-zero state.
                    for _ in 0..self.random.from_to(1, 4) {
                        let lines = ["b 1", "d 0 0 1 1", "e", "l", "c", "r 0", "s 1", "t 1", "g"];
                        let line = self.random.choose(&lines);
                        self.say(line);
                    }
                }
                if self.random.chance(90) {
                    self.say("o");
                }
                if self.random.chance(30) {
                    self.reads_of_all_pages();
                }
            }
            Action::Open => {
                self.say("o");
            }
            Action::WrongLengths => self.wrong_lengths(),
            Action::FewerFrames => self.fewer_frames(),
            Action::OtherSizes => self.other_sizes(),
            Action::Damage => self.damage(),
            Action::ForgeBlock => self.forge_block(),
            Action::SetNext => self.set_next(),
            Action::CleanAll => self.clean_all(),
            Action::FormatAndOpen => {
                if self.random.chance(60) {
                    self.format_and_open();
                } else {
                    // Going on with the old state over a formatted log.
                    self.say("f");
                }
            }
            Action::Digests => {
                self.say("g");
            }
            Action::BadLine => self.bad_line(),
        }
    }

    /// A number that is out of a range that ends before `limit`.
    fn wrong_number(&mut self, limit: u64) -> u64 {
        match self.random.below(4) {
            0 => limit,
            1 => limit + 1,
            2 => 65_536 + self.random.below(limit),
            _ => self.random.choose(&ODD_NUMBERS),
        }
    }

    fn number_of_updates(&mut self) -> u64 {
        let state = self.state();
        let most = state
            .frames
            .min(state.slots.saturating_sub(1) / 2)
            .clamp(1, 16);
        match self.random.below(40) {
            0 => most + 1,
            1 => self.wrong_number(17),
            2 => 0,
            3 => self.random.from_to(1, 16),
            4..=12 => self.random.from_to(1, most),
            13..=25 => self.random.from_to(1, most.min(3)),
            _ => 1,
        }
    }

    fn begin(&mut self) -> bool {
        let updates = self.number_of_updates();
        self.say(format!("b {updates}")) == "ok"
    }

    fn describe(&mut self) {
        let pages = self.state().pages.max(1);
        let mut page = self.random.below(pages);
        let mut length = match self.random.below(10) {
            0..=4 => self.random.from_to(1, 8),
            5..=7 => self.random.from_to(1, MAX_UPDATE_LENGTH as u64),
            _ => MAX_UPDATE_LENGTH as u64,
        };
        let room = PAGE_SIZE as u64 - length;
        let mut offset = match self.random.below(6) {
            0 => 0,
            1 => room,
            // Across the middle of the page, where its two stores meet.
            2 => room.min(512 - length / 2),
            _ => self.random.from_to(0, room),
        };
        let mut seed = self.random.below(256);
        match self.random.below(40) {
            0 => page = self.wrong_number(pages),
            1 => offset = room + 1,
            2 => offset = self.wrong_number(room + 1),
            3 => length = 0,
            4 => length = self.random.from_to(473, 512),
            5 => length = self.wrong_number(513),
            6 => seed = self.random.choose(&ODD_NUMBERS),
            7 => seed = u64::MAX - self.random.below(100),
            _ => (),
        }
        self.say(format!("d {page} {offset} {length} {seed}"));
    }

    /// Begin, some updates, mostly End and mostly some of its stores.
    fn transaction(&mut self) {
        if !self.begin() && self.state().open.is_none() {
            if self.random.chance(60) {
                // Room is made.
                for _ in 0..self.random.from_to(2, 6) {
                    let (queued, dirty) = {
                        let state = self.state();
                        (!state.queue.is_empty(), !state.dirty.is_empty())
                    };
                    let step = match (queued, dirty) {
                        (false, false) => break,
                        (true, false) => "l",
                        (false, true) => "c",
                        (true, true) => self.random.choose(&["l", "c", "c"]),
                    };
                    self.say(step);
                }
            }
            return;
        }
        let reserved = match &self.state().open {
            Some(open) => open.reserved,
            None => return,
        };
        let described = if self.random.chance(70) {
            reserved
        } else {
            self.random.from_to(0, reserved + 1)
        };
        for _ in 0..described {
            self.describe();
        }
        if self.random.chance(88) {
            self.say("e");
        }
        if self.random.chance(60) {
            let blocks = if self.random.chance(60) {
                described + 1
            } else {
                self.random.from_to(0, described + 1)
            };
            for _ in 0..blocks {
                if self.say("l").starts_with("refused") {
                    break;
                }
                if !self.state().dirty.is_empty() && self.random.chance(25) {
                    self.say("c");
                }
            }
        }
    }

    fn clean_all(&mut self) {
        for _ in 0..200 {
            if !self.sound() || self.store().lent_frames != self.store().frames.len() {
                return;
            }
            if self.state().stored > 0 && self.say("l").starts_with("refused") {
                return;
            }
            if self.say("c").starts_with("refused") && self.state().stored == 0 {
                return;
            }
        }
    }

    fn reads_of_all_pages(&mut self) {
        for page in 0..self.state().pages {
            self.say(format!("r {page}"));
        }
    }

    fn wrong_lengths(&mut self) {
        let store = self.store();
        let mut lengths = [
            store.log.len() as u64,
            store.home.len() as u64,
            store.frames.len() as u64,
            store.staging.len() as u64,
        ];
        let sizes = [BLOCK_SIZE, PAGE_SIZE, PAGE_SIZE, MAX_UPDATE_LENGTH];
        for _ in 0..self.random.from_to(1, 2) {
            let which = self.random.below(4) as usize;
            let size = sizes[which] as u64;
            lengths[which] = match self.random.below(5) {
                0 => 0,
                1 => lengths[which].saturating_sub(1),
                2 => lengths[which].saturating_sub(size),
                3 => self.random.below(lengths[which] + 1),
                _ => size * self.random.below(lengths[which] / size + 1),
            };
        }
        let [log, home, frames, staging] = lengths;
        self.say(format!("n {log} {home} {frames} {staging}"));
        for _ in 0..self.random.from_to(1, 5) {
            match self.random.below(12) {
                0 => {
                    self.say("f");
                }
                1 => {
                    self.say("o");
                }
                2 => {
                    self.begin();
                }
                3 | 4 => self.describe(),
                5 => {
                    self.say("e");
                }
                6 | 7 => {
                    self.say("l");
                }
                8 | 9 => {
                    self.say("c");
                }
                _ => {
                    let page = self.random.below(self.state().pages.max(1));
                    self.say(format!("r {page}"));
                }
            }
        }
        if self.random.chance(90) {
            self.lend_all();
        }
    }

    /// An opening with fewer frames, which is refused where too many pages are dirty.
    fn fewer_frames(&mut self) {
        self.lend_all();
        let all = self.store().frames.len() / PAGE_SIZE;
        let dirty = self.state().dirty_count() as u64;
        let most = all as u64;
        let frames = if dirty >= 2 && self.random.chance(70) {
            dirty - 1
        } else {
            self.random.from_to(1, most)
        };
        let frame_bytes = frames * PAGE_SIZE as u64;
        let staging_bytes = frames * MAX_UPDATE_LENGTH as u64;
        let most = u64::MAX;
        self.say(format!("n {most} {most} {frame_bytes} {staging_bytes}"));
        self.say("o");
        if self.random.chance(40) {
            self.transaction();
            self.say("c");
        }
        if self.random.chance(85) {
            self.lend_all();
            self.say("o");
        }
    }

    /// An opening of the same areas with fewer slots, pages and frames, mostly after Format.
    fn other_sizes(&mut self) {
        let store = self.store();
        let slots = (store.log.len() / BLOCK_SIZE) as u64;
        let pages = (store.home.len() / PAGE_SIZE) as u64;
        let frames = (store.frames.len() / PAGE_SIZE) as u64;
        let slots = self.random.from_to(8, slots) * BLOCK_SIZE as u64;
        let pages = self.random.from_to(1, pages) * PAGE_SIZE as u64;
        let frames = self.random.from_to(1, frames);
        let frame_bytes = frames * PAGE_SIZE as u64;
        let staging_bytes = frames * MAX_UPDATE_LENGTH as u64;
        self.say(format!("n {slots} {pages} {frame_bytes} {staging_bytes}"));
        if self.random.chance(60) {
            self.say("f");
        }
        self.say("o");
    }

    /// Changes single bytes of the log, mostly near the newest block or in the slot after it, and opens
    /// it, mostly mends it again and opens it again.
    fn damage(&mut self) {
        let mut changed = Vec::new();
        for _ in 0..self.random.from_to(1, 2) {
            let state = self.state();
            let length = self.store().log.len() as u64;
            let place = if state.slots > 0 && self.random.chance(80) {
                let state = self.state();
                let sequence = state.next.wrapping_sub(self.random.below(5));
                let slot = slot_of(sequence, self.state().slots);
                slot * BLOCK_SIZE as u64 + self.random.below(BLOCK_SIZE as u64)
            } else {
                self.random.below(length)
            };
            let old = self.store().log[place as usize];
            let value = match self.random.below(3) {
                0 => old.wrapping_add(1),
                1 => 0,
                _ => self.random.below(256) as u8,
            };
            changed.push((place, old));
            self.say(format!("p {place} {value}"));
        }
        if self.random.chance(70) {
            self.say("o");
        } else {
            self.action(Theme::Ordinary);
        }
        if self.random.chance(60) {
            for (place, old) in changed.iter().rev() {
                self.say(format!("p {place} {old}"));
            }
            self.say("o");
        } else if self.random.chance(60) {
            self.format_and_open();
        }
    }

    /// Makes the slot hold these bytes, by pokes of the bytes that differ.
    fn poke_slot(&mut self, slot: u64, bytes: &[u8]) {
        let range = area_range(slot, BLOCK_SIZE);
        let old = self.store().log[range.clone()].to_vec();
        for j in 0..BLOCK_SIZE {
            if old[j] != bytes[j] {
                self.say(format!("p {} {}", range.start + j, bytes[j]));
            }
        }
    }

    /// Puts another valid block in the place of a stored one, and opens the log.
    fn forge_block(&mut self) {
        let state = self.state();
        let (slots, pages) = (state.slots, state.pages);
        if slots == 0 || self.store().log.len() as u64 != slots * BLOCK_SIZE as u64 {
            return;
        }
        let newest = state.next.wrapping_sub(1);
        let slot = slot_of(newest.wrapping_sub(self.random.below(3)), slots);
        let old = self.store().log[area_range(slot, BLOCK_SIZE)].to_vec();
        let Slot::Valid(mut block) = read_slot(&old, slot, slots, pages) else {
            return;
        };
        if self.random.chance(35) {
            let forged = with_changed_byte(&mut self.random, &old);
            self.poke_slot(slot, &forged);
            self.say("o");
            if self.random.chance(50) {
                self.poke_slot(slot, &old);
                self.say("o");
            }
            return;
        }
        match self.random.below(7) {
            0 => block.ticket += 1,
            1 => block.ticket = block.ticket.saturating_sub(1),
            2 => block.keep_from = block.keep_from.saturating_sub(1),
            3 => block.keep_from = block.sequence,
            4 => block.sequence += slots,
            _ => match &mut block.kind {
                Kind::Update { index, page, .. } => {
                    if self.random.chance(50) {
                        *index = self.random.from_to(1, 4);
                    } else {
                        *page = self.random.below(pages + 1);
                    }
                }
                Kind::Commit { updates } => *updates = self.random.from_to(1, 3),
                Kind::Clean { page } => *page = self.random.below(pages + 1),
            },
        }
        self.poke_slot(slot, &encode(&block));
        self.say("o");
        if self.random.chance(50) {
            self.reads_of_all_pages();
        }
        if self.random.chance(50) {
            self.poke_slot(slot, &old);
            self.say("o");
        }
    }

    /// A log made block by block: mostly in order, of groups, half groups and cleans.
    fn forged_log(&mut self) {
        self.lend_all();
        if self.random.chance(30) {
            self.areas(Theme::ForgedLogs);
        }
        self.say("f");
        let store = self.store();
        let slots = (store.log.len() / BLOCK_SIZE) as u64;
        let pages = (store.home.len() / PAGE_SIZE) as u64;
        let start = match self.random.below(8) {
            0..=2 => 1,
            3..=5 => self.random.from_to(1, 40),
            6 => SEQUENCE_LIMIT - self.random.from_to(1, slots),
            _ => self.random.from_to(1, 1 << 20),
        };
        let count = if self.random.chance(30) {
            slots
        } else {
            self.random.from_to(1, slots)
        };
        let mut committed = self.random.below(start.min(30));
        let mut blocks: Vec<Block> = Vec::new();
        // Where the groups start, cleans counted too: the places that keep-from may name.
        let mut starts = Vec::new();
        let mut index = 0;
        let mut sequence = start;
        while sequence < start + count && sequence < SEQUENCE_LIMIT {
            let kind = match self.random.below(20) {
                0..=9 => {
                    let page = self.random.below(pages);
                    let goes_on = index > 0 && self.random.chance(70);
                    index = if goes_on { index + 1 } else { 1 };
                    if index == 1 {
                        starts.push(sequence);
                    }
                    let length = self.random.from_to(1, 2);
                    Kind::Update {
                        index,
                        page,
                        offset: self.random.choose(&[0, 1, 511, 512, 1022]),
                        new_bytes: vec![self.random.from_to(1, 255) as u8; length as usize],
                    }
                }
                10..=17 if index > 0 && committed + 1 < sequence => {
                    committed += 1;
                    let updates = index;
                    index = 0;
                    Kind::Commit { updates }
                }
                10..=14 => {
                    index = 1;
                    starts.push(sequence);
                    Kind::Update {
                        index,
                        page: self.random.below(pages),
                        offset: self.random.from_to(0, 1023),
                        new_bytes: vec![self.random.from_to(0, 255) as u8],
                    }
                }
                _ => {
                    // A clean voids a half group; sometimes its blocks go on all the same.
                    if self.random.chance(80) {
                        index = 0;
                    }
                    starts.push(sequence);
                    Kind::Clean {
                        page: self.random.below(pages),
                    }
                }
            };
            let keep_from = if self.random.chance(60) {
                starts[0]
            } else {
                self.random.choose(&starts)
            };
            blocks.push(Block {
                sequence,
                keep_from,
                ticket: committed,
                kind,
            });
            sequence += 1;
        }
        // Sometimes something is wrong with it.
        if self.random.chance(45) {
            let which = self.random.below(blocks.len() as u64) as usize;
            let block = &mut blocks[which];
            match self.random.below(11) {
                0 => block.ticket += 1,
                1 => block.ticket = block.ticket.saturating_sub(1),
                2..=4 => match &mut block.kind {
                    Kind::Update { index, .. } => *index += 1,
                    Kind::Commit { updates } => *updates += 1,
                    Kind::Clean { page } => *page += 1,
                },
                5 => {
                    blocks.remove(which);
                }
                6 => block.keep_from = self.random.from_to(1, block.sequence),
                7 => block.sequence = block.sequence.saturating_sub(slots),
                8 => {
                    block.sequence = SEQUENCE_LIMIT - self.random.below(2);
                    block.keep_from = block.sequence;
                }
                9 => block.ticket = block.sequence,
                _ => block.sequence += slots,
            }
        }
        // Now and then an update so heavy that its sum A goes round.
        if self.random.chance(3) && !blocks.is_empty() {
            let which = self.random.below(blocks.len() as u64) as usize;
            if let Kind::Update {
                offset, new_bytes, ..
            } = &mut blocks[which].kind
            {
                *offset = 0;
                *new_bytes = vec![255; self.random.from_to(250, 270) as usize];
            }
        }
        for block in &blocks {
            let mut bytes = encode(block).to_vec();
            match self.random.below(50) {
                0 => {
                    let place = self.random.below(BLOCK_SIZE as u64) as usize;
                    bytes[place] = bytes[place].wrapping_add(1);
                }
                1 => bytes = with_changed_byte(&mut self.random, &bytes),
                _ => (),
            }
            self.poke_slot(slot_of(block.sequence, slots), &bytes);
        }
    }

    fn set_next(&mut self) {
        let next = self.state().next;
        let slots = self.state().slots.max(8);
        if self.sound() && self.random.chance(60) {
            let bounds = self.bounds_of_next();
            let bound = self.random.choose(&bounds);
            let new = match self.random.below(4) {
                0 => bound.wrapping_sub(1),
                1 => bound.wrapping_add(1),
                _ => bound,
            };
            self.say(format!("t {new}"));
            self.calls_after_next_is_set(next);
            return;
        }
        let new = match self.random.below(12) {
            0 => 0,
            1 => 1,
            2 => next.wrapping_sub(1),
            3 => next.wrapping_add(1),
            4 => next.wrapping_add(self.random.below(2 * slots)),
            5 => SEQUENCE_LIMIT,
            6 => SEQUENCE_LIMIT + 1,
            7 => u64::MAX,
            8 => self.random.choose(&ODD_NUMBERS),
            9 => SEQUENCE_LIMIT - self.random.below(12),
            _ => {
                self.clean_all();
                SEQUENCE_LIMIT - self.random.below(30)
            }
        };
        self.say(format!("t {new}"));
        self.calls_after_next_is_set(next);
    }

    /// The smallest and the largest next with which parts of soundness still hold.
    fn bounds_of_next(&self) -> Vec<u64> {
        let state = self.state();
        let mut bounds = vec![state.committed + 1, state.committed + state.stored + 1];
        if let Some(newest) = state.dirty.iter().map(|dirty| dirty.first_group).max() {
            bounds.push(newest + 1);
        }
        let open_room = if state.open.is_some() {
            2 * state.reserved() + 1
        } else {
            0
        };
        let log_room = state.held()
            + state.waiting_blocks()
            + state.dirty_count()
            + state.queued_updates()
            + open_room;
        let room = i128::from(state.slots) - log_room;
        bounds.push((i128::from(state.next) + room) as u64);
        let owed = state.waiting_blocks() + state.owed_blocks();
        bounds.push((i128::from(SEQUENCE_LIMIT) - owed) as u64);
        bounds
    }

    fn calls_after_next_is_set(&mut self, old_next: u64) {
        if self.sound() {
            if self.random.chance(70) {
                self.say("r 0");
                return;
            }
            for _ in 0..self.random.from_to(1, 4) {
                let line = self
                    .random
                    .choose(&["b 1", "d 0 0 1 1", "e", "l", "c", "g"]);
                self.say(line);
            }
        } else {
            // What an unsound state refuses; then the old next again, or an opening.
            for _ in 0..self.random.from_to(1, 5) {
                let lines = ["b 1", "d 0 0 1 1", "e", "l", "c", "r 0", "s 1"];
                let line = self.random.choose(&lines);
                self.say(line);
            }
            if self.random.chance(60) {
                self.say(format!("t {old_next}"));
            }
        }
    }

    /// A page at its third store while an open transaction or a queued one needs the last
    /// sequences, or all but one.
    fn last_sequences(&mut self) {
        self.clean_all();
        let back = self.random.from_to(2, 9);
        self.say(format!("t {}", SEQUENCE_LIMIT - back));
        self.say("b 1");
        self.describe();
        for line in ["e", "l", "l", "c", "c"] {
            self.say(line);
        }
        let left = SEQUENCE_LIMIT.saturating_sub(self.state().next);
        let updates = (left + self.random.below(3)).saturating_sub(2);
        self.say(format!("b {updates}"));
        if self.random.chance(40) {
            for _ in 0..updates.min(8) {
                self.describe();
            }
            self.say("e");
        }
        self.say("c");
    }

    fn bad_line(&mut self) {
        let log_length = self.store().log.len();
        let lines = [
            String::new(),
            " ".to_string(),
            "b".to_string(),
            "b  1".to_string(),
            "b 1 ".to_string(),
            " b 1".to_string(),
            "B 1".to_string(),
            "b -1".to_string(),
            "b +1".to_string(),
            "b 1.0".to_string(),
            "b\t1".to_string(),
            "b1".to_string(),
            "b 1\r".to_string(),
            "b 1 1".to_string(),
            "b 18446744073709551616".to_string(),
            "b 99999999999999999999999999".to_string(),
            "r 36893488147419103232".to_string(),
            "t 18446744073709551616".to_string(),
            "o 1".to_string(),
            "f 0".to_string(),
            "oo".to_string(),
            "o ".to_string(),
            "g g".to_string(),
            "z".to_string(),
            "1".to_string(),
            "a 7 1 1".to_string(),
            "a 65 1 1".to_string(),
            "a 8 0 1".to_string(),
            "a 8 17 1".to_string(),
            "a 8 1 0".to_string(),
            "a 8 1 9".to_string(),
            "a 8 1".to_string(),
            "a 18446744073709551615 1 1".to_string(),
            "d 0 0 513 0".to_string(),
            "d 0 0 18446744073709551615 0".to_string(),
            "d 0 0 1".to_string(),
            "p 0 256".to_string(),
            format!("p {log_length} 0"),
            format!("p {} 255", u64::MAX),
            "n 1 2 3".to_string(),
            "s".to_string(),
            "t".to_string(),
            // These have leading zeros, which are not bad.
            "r 00".to_string(),
            "b 000000000000000000000000000001".to_string(),
        ];
        let line = self.random.choose(&lines);
        self.say(line);
    }
}
