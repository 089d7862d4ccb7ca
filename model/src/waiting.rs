//! Request k: with nothing open and next at most 2^48 - 4,096, a Begin that is refused as full is
//! accepted after W log steps and then clean steps until none is dirty, at most 3 F of them.

use crate::block::{BLOCK_SIZE, MAX_UPDATE_LENGTH, PAGE_SIZE, SEQUENCE_LIMIT};
use crate::calls::{self, FreeChoice};
use crate::script::Store;
use crate::state::State;

/// How many steps a Begin waited for.
#[derive(Clone, Copy, Debug, PartialEq, Eq)]
pub struct Steps {
    pub log_steps: u64,
    pub clean_steps: u64,
}

/// Whether the request speaks of this store, where Begin is refused as full.
pub fn is_spoken_of(store: &Store) -> bool {
    let State {
        slots,
        pages,
        frames,
        next,
        ..
    } = store.state;
    store.state.open.is_none()
        && next <= SEQUENCE_LIMIT - 4096
        && store.lent_log as u64 == slots * BLOCK_SIZE as u64
        && store.lent_home as u64 == pages * PAGE_SIZE as u64
        && store.lent_frames as u64 == frames * PAGE_SIZE as u64
        && store.lent_staging as u64 == frames * MAX_UPDATE_LENGTH as u64
}

/// Makes these steps on a copy of the store, and asserts that each is accepted, that no page is dirty
/// after at most 3 F clean steps, and that the same Begin is accepted then. While a page is dirty Begin
/// is not tried: no other call comes between.
pub fn wait(store: &Store, updates: u64, choice: FreeChoice) -> Steps {
    let mut copy = store.clone();
    let log = &mut copy.log[..copy.lent_log];
    let home = &mut copy.home[..copy.lent_home];
    let frames = &mut copy.frames[..copy.lent_frames];
    let staging = &copy.staging[..copy.lent_staging];
    let state = &mut copy.state;
    let blocks = state.waiting_blocks();
    for _ in 0..blocks {
        calls::log_step(state, log, home, frames, staging, choice)
            .expect("request k: each of W log steps is accepted");
    }
    assert!(state.queue.is_empty(), "request k: nothing is queued");
    let mut clean_steps = 0;
    while !state.dirty.is_empty() {
        assert!(
            clean_steps < 3 * state.frames,
            "request k: at most 3 F clean steps"
        );
        calls::clean_step(state, log, home, frames)
            .expect("request k: each clean step is accepted while a page is dirty");
        clean_steps += 1;
    }
    calls::begin(state, updates).expect("request k: Begin is accepted");
    Steps {
        log_steps: blocks as u64,
        clean_steps,
    }
}

#[cfg(test)]
mod tests {
    use super::*;
    use crate::calls::Refusal;
    use crate::recovery;
    use std::fmt::Write;

    const CHOICE: FreeChoice = FreeChoice::Lowest;

    /// Transactions of at most 16 updates, one byte to a page, until each of the first pages is changed.
    fn change_pages(store: &mut Store, pages: u64, blocks_stored: bool) {
        let mut page = 0;
        while page < pages {
            let updates = 16.min(pages - page);
            calls::begin(&mut store.state, updates).unwrap();
            for _ in 0..updates {
                calls::describe(&mut store.state, &mut store.staging, page, 0, &[7], CHOICE)
                    .unwrap();
                page += 1;
            }
            calls::end(&mut store.state).unwrap();
        }
        while blocks_stored && !store.state.queue.is_empty() {
            let Store {
                log,
                home,
                frames,
                staging,
                state,
                ..
            } = store;
            calls::log_step(state, log, home, frames, staging, CHOICE).unwrap();
        }
    }

    /// A store of so many slots, pages and frames, formatted and opened.
    fn fresh(slots: u64, pages: u64, frames: u64) -> Store {
        let mut store = Store::new(slots, pages, frames);
        calls::format(&mut store.log).unwrap();
        let (state, answer) = recovery::open(
            &store.log,
            &store.home,
            &mut store.frames,
            &store.staging,
            CHOICE,
        );
        answer.unwrap();
        store.state = state;
        store
    }

    fn begins(store: &Store, updates: u64) -> Result<(), Refusal> {
        calls::begin(&mut store.state.clone(), updates)
    }

    fn clean(store: &mut Store) {
        let Store {
            log,
            home,
            frames,
            state,
            ..
        } = store;
        calls::clean_step(state, log, home, frames).unwrap();
    }

    /// The bound is attained for every F, with and without blocks to store: each frame gets a dirty page,
    /// and none of its three stores is made. With fewer than 3 F clean steps Begin is refused.
    #[test]
    fn three_stores_for_each_frame() {
        for frames in 1..=32 {
            let updates = 16.min(frames);
            let slots = 8.max(2 * frames + 2);
            let mut store = fresh(slots, 64, frames);
            change_pages(&mut store, frames, false);
            assert_eq!(begins(&store, updates), Err(Refusal::Full));
            assert!(is_spoken_of(&store));
            let steps = Steps {
                log_steps: frames + frames.div_ceil(16),
                clean_steps: 3 * frames,
            };
            assert_eq!(wait(&store, updates, CHOICE), steps);
            change_pages(&mut store, 0, true);
            for made in 0..3 * frames {
                assert_eq!(begins(&store, updates), Err(Refusal::Full));
                let steps = wait(&store, updates, CHOICE);
                assert_eq!((steps.log_steps, steps.clean_steps), (0, 3 * frames - made));
                clean(&mut store);
            }
            assert_eq!(begins(&store, updates), Ok(()));
        }
    }

    /// Where the last sequences are near the clean blocks take them, and Begin is then refused with 6.
    #[test]
    fn too_few_sequences() {
        let mut store = fresh(64, 16, 2);
        store.state.next = SEQUENCE_LIMIT - 5;
        change_pages(&mut store, 2, true);
        assert_eq!(store.state.next, SEQUENCE_LIMIT - 2);
        assert_eq!(begins(&store, 1), Err(Refusal::Full));
        assert!(!is_spoken_of(&store));
        for _ in 0..6 {
            clean(&mut store);
        }
        assert_eq!(begins(&store, 1), Err(Refusal::SequencesUsedUp));
    }

    /// Begin; where it is refused as full: log steps until one is refused, clean steps until one is
    /// refused, and Begin again. A step refused for another reason than that nothing is left to do ends
    /// it. `lent_staging` says how many bytes of staging the log steps are lent.
    fn begin_waiting(
        store: &mut Store,
        lent_staging: usize,
        updates: u64,
    ) -> (Steps, Result<(), Refusal>) {
        let Store {
            log,
            home,
            frames,
            staging,
            state,
            ..
        } = store;
        let staging = &staging[..lent_staging];
        let mut steps = Steps {
            log_steps: 0,
            clean_steps: 0,
        };
        if calls::begin(&mut state.clone(), updates) == Err(Refusal::Full) {
            loop {
                match calls::log_step(state, log, home, frames, staging, CHOICE) {
                    Ok(_) => steps.log_steps += 1,
                    Err(Refusal::NothingToDo) => break,
                    Err(refusal) => return (steps, Err(refusal)),
                }
            }
            loop {
                match calls::clean_step(state, log, home, frames) {
                    Ok(_) => steps.clean_steps += 1,
                    Err(Refusal::NothingToDo) => break,
                    Err(refusal) => return (steps, Err(refusal)),
                }
            }
        }
        (steps, calls::begin(state, updates))
    }

    /// Transactions of one byte each, ended and not stored.
    fn end_each(store: &mut Store, pages: u64) {
        for page in 0..pages {
            calls::begin(&mut store.state, 1).unwrap();
            calls::describe(&mut store.state, &mut store.staging, page, 0, &[42], CHOICE).unwrap();
            calls::end(&mut store.state).unwrap();
        }
    }

    /// The lines of program `waiting_run` for the same stores, from this model.
    fn all_lines() -> String {
        let mut text = String::new();
        let mut line = |store: &mut Store, lent_staging: usize, updates: u64| {
            let (steps, answer) = begin_waiting(store, lent_staging, updates);
            write!(
                text,
                "begin {updates} logged {} cleaned {}",
                steps.log_steps, steps.clean_steps
            )
            .unwrap();
            match answer {
                Ok(()) => text.push_str(" done"),
                Err(refusal) => write!(text, " refused {}", refusal.number()).unwrap(),
            }
            writeln!(text, " next {}", store.state.next).unwrap();
        };
        for frames in 1..=32 {
            let mut store = fresh(3 * frames + 5, 32, frames);
            end_each(&mut store, frames);
            let whole = store.staging.len();
            line(&mut store, whole, 1);
        }
        let small = || fresh(16, 4, 3);
        let whole = small().staging.len();

        let mut store = small();
        for updates in [3, 1, 0] {
            line(&mut store, whole, updates);
        }
        for made in 0..7 {
            let mut store = small();
            end_each(&mut store, 2);
            change_pages(&mut store, 0, true);
            for _ in 0..made {
                clean(&mut store);
            }
            line(&mut store, whole, 3);
        }
        let mut store = small();
        end_each(&mut store, 3);
        line(&mut store, whole - 1, 1);
        line(&mut store, whole, 1);
        for (pages, left, updates) in [(3, 8, 1), (2, 7, 2)] {
            let mut store = small();
            store.state.next = SEQUENCE_LIMIT - left;
            end_each(&mut store, pages);
            line(&mut store, whole, updates);
        }
        text
    }

    /// The program's first 32 lines also say how many frames there are.
    #[test]
    fn lines_of_the_program() {
        let mut expected = String::new();
        for (i, line) in all_lines().lines().enumerate() {
            if i < 32 {
                write!(expected, "frames {} ", i + 1).unwrap();
            }
            expected.push_str(line);
            expected.push('\n');
        }
        assert_eq!(expected, include_str!("../../crates/waiting_run/stdout"));
    }
}
