//! The worked cases of 01, the scope: as a script, and as tests against its numbers; and the desks of
//! request b of 02 and the damaged logs of its request f.

use crate::block::{encode, Block, Kind, BLOCK_SIZE};
use crate::copy_cases;

fn update(sequence: u64, keep_from: u64, ticket: u64, page: u64, new_bytes: &[u8]) -> Block {
    Block {
        sequence,
        keep_from,
        ticket,
        kind: Kind::Update {
            index: 1,
            page,
            offset: 0,
            new_bytes: new_bytes.to_vec(),
        },
    }
}

fn commit(sequence: u64, keep_from: u64, ticket: u64) -> Block {
    Block {
        sequence,
        keep_from,
        ticket,
        kind: Kind::Commit { updates: 1 },
    }
}

fn clean(sequence: u64, keep_from: u64, ticket: u64, page: u64) -> Block {
    Block {
        sequence,
        keep_from,
        ticket,
        kind: Kind::Clean { page },
    }
}

/// The block of case 2: one byte of page 0 becomes 42.
fn case_2() -> Block {
    update(1, 1, 0, 0, &[42])
}

/// The block of case 3: its commit.
fn case_3() -> Block {
    commit(2, 1, 1)
}

/// The block of case 4: page 0 is clean.
fn case_4() -> Block {
    clean(3, 3, 1, 0)
}

/// The update of case 13: byte 100 of the block is 0, byte 357 is 255, all other new bytes are 7.
fn case_13() -> Block {
    let mut new_bytes = [7; 472];
    new_bytes[100 - 36] = 0;
    new_bytes[357 - 36] = 255;
    update(1, 1, 0, 0, &new_bytes)
}

/// Lines that put a block into a slot of zeros.
fn pokes(slot: usize, block: &Block) -> Vec<String> {
    let mut lines = Vec::new();
    for (j, byte) in encode(block).iter().enumerate() {
        if *byte != 0 {
            lines.push(format!("p {} {byte}", slot * BLOCK_SIZE + j));
        }
    }
    lines
}

/// Adds the lines of a text with a stroke between each two.
fn say(lines: &mut Vec<String>, text: &str) {
    for line in text.split('/') {
        lines.push(line.to_string());
    }
}

/// Request b, the lines up to where the cleaning starts: page 14 is changed by a first transaction,
/// then four pages by a second one, described in some order. They take their frames in this order,
/// or, after a cut, in that of the opening.
fn desk_dirty(order: [u64; 4], cut: bool) -> Vec<String> {
    let mut lines = Vec::new();
    say(&mut lines, "a 16 16 8/f/o/b 1/d 14 0 1 14/e/l/l/b 4");
    for page in order {
        lines.push(format!("d {page} {page} 400 {page}"));
    }
    say(&mut lines, "e/l/l/l/l/l");
    if cut {
        say(&mut lines, "x/o");
    }
    lines
}

/// The lines after these: all five pages are cleaned, and ten blocks of one more page go over the four
/// updates, which are all that the order of describing may show in.
fn desk_clean() -> Vec<String> {
    let mut lines = Vec::new();
    say(&mut lines, &["c"; 15].join("/"));
    for seed in 0..5 {
        say(&mut lines, &format!("b 1/d 0 0 8 {seed}/e/l/l"));
    }
    say(&mut lines, "g");
    lines
}

/// Request f: logs whose end, newest block or older block is damaged in one byte, and mended again.
fn damaged_ends() -> Vec<String> {
    let mut lines = Vec::new();
    // A settled transaction: blocks 1 and 2 in slots 1 and 2.
    say(&mut lines, "a 8 4 2/f/o/b 1/d 0 0 1 42/e/l/l/s 1");
    // The slot after the newest block, with the newest state and after a cut.
    say(&mut lines, "p 1636 1/o/b 1/g/x/o/g/p 1636 0/o/s 1/r 0");
    // The newest block: its commit.
    say(&mut lines, "p 1124 1/x/o/p 1124 0/o/s 1/r 0");
    // An older block, alone and with the slot after the newest.
    say(&mut lines, "p 612 1/o/p 1636 1/o/p 612 0/o/p 1636 0/o");
    // A slot further on.
    say(&mut lines, "p 2148 1/o/r 0/p 2148 0");
    // Block 1 again, in slot 3.
    lines.extend(pokes(3, &case_2()));
    say(&mut lines, "o/r 0");
    // The only block.
    say(
        &mut lines,
        "a 8 4 2/f/o/b 1/d 0 0 1 42/e/l/p 612 1/o/p 612 0/o",
    );
    // The last two sequences, in slots 6 and 7: the slot after them, then the newest.
    say(
        &mut lines,
        "a 8 4 2/f/o/t 281474976710654/b 1/d 0 0 1 42/e/l/l/p 100 1/o/p 100 0/o/r 0/p 3684 1/o",
    );
    lines
}

/// Request k: Begin is refused as full, what waits is stored, what is dirty is cleaned, and Begin is accepted.
fn waits() -> Vec<String> {
    let mut lines = Vec::new();
    let cleanings = |count: usize| "c/".repeat(count);
    // All of 2 frames hold dirty pages: 6 clean steps, the seventh has nothing to do.
    let dirty = "a 8 4 2/f/o/b 2/d 0 0 1 1/d 1 0 1 2/e/l/l/l";
    say(&mut lines, &format!("{dirty}/b 2/{}c/b 2", cleanings(6)));
    // Begin after each of them: it is refused up to the last.
    say(&mut lines, dirty);
    for _ in 0..6 {
        say(&mut lines, "b 2/c");
    }
    say(&mut lines, "b 2");
    // Two groups wait, one update of them is stored: 3 log steps, the fourth has nothing to do, then 6 clean steps.
    say(
        &mut lines,
        &format!(
            "a 16 4 3/f/o/b 1/d 0 0 1 1/e/b 1/d 1 0 1 2/e/l/b 2/l/l/l/l/{}c/b 2",
            cleanings(6)
        ),
    );
    // A commit makes a cleaning idle at its third store: its page takes 3 clean steps again.
    say(
        &mut lines,
        "a 16 4 2/f/o/b 1/d 0 0 1 1/e/l/l/c/c/b 1/d 0 9 1 2/e/b 2/l/l/l/c/c/c/c/b 2",
    );
    // The largest store of a script: 8 frames, two groups of 4 updates, 24 clean steps.
    say(&mut lines, "a 64 16 8/f/o");
    for group in 0..2 {
        say(&mut lines, "b 4");
        for page in 4 * group..4 * group + 4 {
            lines.push(format!("d {page} {page} 1 {page}"));
        }
        lines.push("e".to_string());
    }
    say(
        &mut lines,
        &format!("b 8/{}/l/{}c/b 8", ["l"; 10].join("/"), cleanings(24)),
    );
    lines
}

/// Cases 5 to 13 in the script language, 8 slots, 4 pages and 2 frames unless said there; then three
/// desks of request b, whose last lines are the same; then the damaged logs of request f, and the Begins
/// of request k that wait; last the copies of request l.
pub fn script() -> String {
    let mut text = String::new();
    for line in desk_lines().into_iter().chain(copy_cases::lines()) {
        text += &line;
        text.push('\n');
    }
    text
}

/// The lines before those of request l.
fn desk_lines() -> Vec<String> {
    let mut lines: Vec<String> = Vec::new();
    let all = u64::MAX;

    // Case 5 by calls, then after a cut; cases 10 and 11 on it.
    say(
        &mut lines,
        "a 8 4 2/f/o/r 0/g/b 1/d 0 0 1 42/e/s 1/l/s 1/l/s 1/r 0/g",
    );
    say(&mut lines, "x/o/r 0/r 3/r 4/b 3/b 2/b 1/x/o");
    // Case 7 by calls: the page goes home.
    say(&mut lines, "c/c/c/c/g/x/o/r 0/b 2/x");
    // Case 6 by calls: the commit is cut off.
    say(&mut lines, "a 8 4 2/f/o/b 1/d 0 0 1 42/e/l/g/x/o/r 0");

    // Cases 5, 6 and 7 again, from blocks put in place. Case 6 comes first.
    say(&mut lines, "a 8 4 2/f");
    lines.extend(pokes(1, &case_2()));
    say(&mut lines, "g/o/r 0");
    lines.extend(pokes(2, &case_3()));
    say(&mut lines, "g/o/r 0/b 3/b 2/b 1");
    lines.extend(pokes(3, &case_4()));
    say(&mut lines, "g/o/r 0/b 2");

    // Case 8.
    say(
        &mut lines,
        "a 8 4 2/f/o/b 1/d 0 553 472 7/d 0 552 472 7/d 0 552 472 7/e/l/l/r 0/g",
    );

    // Case 9: sequence 8 in slot 0, then in slot 1.
    say(&mut lines, "f");
    lines.extend(pokes(0, &clean(8, 8, 0, 0)));
    say(&mut lines, "o/f");
    lines.extend(pokes(1, &clean(8, 8, 0, 0)));
    say(&mut lines, "o");

    // Case 12: two groups of one page each, then one group of two pages.
    say(
        &mut lines,
        "a 8 4 2/f/o/b 1/d 0 0 1 1/e/l/l/b 1/b 1/d 1 0 1 2/e/l/l",
    );
    say(
        &mut lines,
        &format!("n {all} {all} 1024 472/o/r 0/n {all} {all} {all} {all}/o/r 0/r 1"),
    );
    say(&mut lines, "a 8 4 2/f/o/b 2/d 0 0 1 1/d 1 0 1 2/e/l/l/l");
    say(
        &mut lines,
        &format!("n {all} {all} 1024 472/o/r 0/n {all} {all} {all} {all}/o/r 0/r 1"),
    );

    // Case 13: one byte changed is found, the two together are not. One place nearer, they are.
    say(&mut lines, "a 8 4 2/f");
    lines.extend(pokes(1, &case_13()));
    lines.extend(pokes(2, &commit(2, 1, 1)));
    let place = |byte: usize| BLOCK_SIZE + byte;
    say(&mut lines, "o/r 0");
    say(
        &mut lines,
        &format!("p {} 255/o/p {} 0/o/r 0", place(100), place(357)),
    );
    say(
        &mut lines,
        &format!("p {} 0/p {} 255/o/r 0", place(100), place(357)),
    );
    say(
        &mut lines,
        &format!("p {} 255/p {} 0/o", place(101), place(357)),
    );

    // Request b.
    for (order, cut) in [
        ([2, 5, 9, 12], false),
        ([12, 2, 9, 5], false),
        ([9, 12, 5, 2], true),
    ] {
        lines.extend(desk_dirty(order, cut));
        lines.extend(desk_clean());
    }

    lines.extend(damaged_ends());
    lines.extend(waits());
    lines
}

#[cfg(test)]
mod tests {
    use super::*;
    use crate::block::{check_numbers, place_is_legal, read_slot, slot_of, Slot, PAGE_SIZE};
    use crate::calls::{begin, read, FreeChoice, Refusal};
    use crate::logshow;
    use crate::random;
    use crate::recovery::{open, RefusedOpening};
    use crate::script::{digest, Runner};
    use crate::state::State;

    fn check_bytes(block: &Block) -> [u8; 4] {
        encode(block)[508..].try_into().unwrap()
    }

    fn home() -> Vec<u8> {
        (0..4 * PAGE_SIZE).map(|i| (i % 251) as u8).collect()
    }

    fn log_of(blocks: &[Block]) -> Vec<u8> {
        let mut log = vec![0; 8 * BLOCK_SIZE];
        for block in blocks {
            let first = slot_of(block.sequence, 8) as usize * BLOCK_SIZE;
            log[first..first + BLOCK_SIZE].copy_from_slice(&encode(block));
        }
        log
    }

    struct Opened {
        state: State,
        frames: Vec<u8>,
        answer: Result<u64, RefusedOpening>,
    }

    fn opened_with(blocks: &[Block], frame_count: usize) -> Opened {
        let mut frames = vec![170; frame_count * PAGE_SIZE];
        let staging = vec![170; frame_count * 472];
        let log = log_of(blocks);
        let (state, answer) = open(&log, &home(), &mut frames, &staging, FreeChoice::Lowest);
        Opened {
            state,
            frames,
            answer,
        }
    }

    fn opened(blocks: &[Block]) -> Opened {
        opened_with(blocks, 2)
    }

    #[test]
    fn case_1_zeros() {
        assert_eq!(check_numbers(&[0; 512]), (0, 0));
        assert_eq!(read_slot(&[0; 512], 3, 8, 4), Slot::Unused);
    }

    #[test]
    fn cases_2_to_4_check_bytes() {
        assert_eq!(check_bytes(&case_2()), [0x2F, 0x00, 0x1A, 0x57]);
        assert_eq!(check_bytes(&case_3()), [0x07, 0x00, 0x8E, 0x0D]);
        assert_eq!(check_bytes(&case_4()), [0x0A, 0x00, 0x74, 0x13]);
    }

    #[test]
    fn case_5_a_committed_update() {
        let found = opened(&[case_2(), case_3()]);
        assert_eq!(found.answer, Ok(1));
        assert_eq!(found.state.next, 3);
        let home = home();
        let page = read(&found.state, &home, &found.frames, 0).unwrap();
        assert_eq!(page[0], 42);
        assert_eq!(page[1..], home[1..PAGE_SIZE]);
    }

    #[test]
    fn case_6_an_update_alone() {
        let found = opened(&[case_2()]);
        assert_eq!(found.answer, Ok(0));
        assert_eq!(found.state.next, 2);
        let home = home();
        for page in 0..4 {
            let first = page as usize * PAGE_SIZE;
            let shown = read(&found.state, &home, &found.frames, page).unwrap();
            assert_eq!(shown, &home[first..first + PAGE_SIZE]);
        }
    }

    #[test]
    fn case_7_a_cleaned_page() {
        let found = opened(&[case_2(), case_3(), case_4()]);
        assert_eq!(found.answer, Ok(1));
        assert_eq!(found.state.next, 4);
        assert!(found.state.dirty.is_empty());
    }

    #[test]
    fn case_8_the_end_of_a_page() {
        assert!(place_is_legal(552, 472));
        assert!(!place_is_legal(553, 472));
    }

    #[test]
    fn case_9_slot_of_sequence_8() {
        assert_eq!(slot_of(8, 8), 0);
    }

    #[test]
    fn case_10_begin_after_case_5() {
        let state = opened(&[case_2(), case_3()]).state;
        let blocks = state.held() + state.waiting_blocks() + state.dirty_count();
        assert_eq!(blocks + state.queued_updates() + 2 + 1, 6);
        assert_eq!(begin(&mut state.clone(), 1), Ok(()));
        assert_eq!(begin(&mut state.clone(), 2), Err(Refusal::Full));
        assert_eq!(begin(&mut state.clone(), 3), Err(Refusal::OutOfRange));
    }

    #[test]
    fn case_11_reads_at_the_end_of_home() {
        let found = opened(&[case_2(), case_3()]);
        let home = home();
        assert!(read(&found.state, &home, &found.frames, 3).is_ok());
        let refused = read(&found.state, &home, &found.frames, 4);
        assert_eq!(refused, Err(Refusal::OutOfRange));
    }

    #[test]
    fn case_12_too_few_frames() {
        let blocks = [
            case_2(),
            case_3(),
            update(3, 1, 1, 1, &[9]),
            commit(4, 1, 2),
        ];
        assert_eq!(opened_with(&blocks, 2).answer, Ok(2));
        let found = opened_with(&blocks, 1);
        let refusal = Refusal::TooFewFrames;
        assert_eq!(found.answer, Err(RefusedOpening { refusal, place: 4 }));
        assert_eq!(found.state, State::all_zero());
        assert!(found.frames.iter().all(|byte| *byte == 0));
    }

    #[test]
    fn case_13_two_bytes_257_apart() {
        let mut bytes = encode(&case_13());
        assert_eq!((bytes[100], bytes[357]), (0, 255));
        let before = check_numbers(&bytes);
        bytes[100] = 255;
        bytes[357] = 0;
        assert_eq!(check_numbers(&bytes), before);
    }

    #[test]
    fn logshow_of_case_5() {
        let expected = "blocks 8 newest 2 keep 1 ticket 1\n\
                        1 update page 0 offset 0 length 1 ticket 0\n\
                        2 commit updates 1 ticket 1\n";
        assert_eq!(logshow::lines(&log_of(&[case_2(), case_3()])), expected);
        let cleaned = logshow::lines(&log_of(&[case_2(), case_3(), case_4()]));
        assert_eq!(
            cleaned,
            "blocks 8 newest 3 keep 3 ticket 1\n3 clean page 0 ticket 1\n"
        );
        let fresh = logshow::lines(&log_of(&[]));
        assert_eq!(fresh, "blocks 8 newest 0 keep 0 ticket 0\n");
        assert_eq!(logshow::lines(&[0; 7 * 512]), "refused 1 0\n");
        assert_eq!(logshow::lines(&[1; 8 * 512]), "refused 7 0\n");
    }

    /// Each way in which an opening is refused, and its place.
    #[test]
    fn refused_openings() {
        let refusal_of = |blocks: &[Block]| {
            let refused = opened(blocks).answer.unwrap_err();
            (refused.refusal.number(), refused.place)
        };
        // A missing block, the lowest one.
        assert_eq!(refusal_of(&[commit(4, 1, 1)]), (7, 1));
        assert_eq!(refusal_of(&[case_2(), commit(4, 1, 1)]), (7, 2));
        // A commit without a group, also as the first block.
        assert_eq!(refusal_of(&[commit(4, 4, 1)]), (8, 4));
        assert_eq!(refusal_of(&[case_2(), case_3(), commit(3, 1, 2)]), (8, 3));
        // A commit after a clean.
        assert_eq!(
            refusal_of(&[case_2(), clean(2, 1, 0, 0), commit(3, 1, 1)]),
            (8, 3)
        );
        // A commit of another count.
        let mut other_count = case_3();
        other_count.kind = Kind::Commit { updates: 2 };
        assert_eq!(refusal_of(&[case_2(), other_count]), (8, 2));
        // Wrong indexes: the first block, and one left out.
        let mut second = update(1, 1, 0, 0, &[1]);
        if let Kind::Update { index, .. } = &mut second.kind {
            *index = 2;
        }
        assert_eq!(refusal_of(&[second]), (8, 1));
        let mut third = update(2, 1, 0, 0, &[1]);
        if let Kind::Update { index, .. } = &mut third.kind {
            *index = 3;
        }
        assert_eq!(refusal_of(&[case_2(), third]), (8, 2));
        // Wrong tickets.
        assert_eq!(refusal_of(&[case_2(), update(2, 1, 1, 0, &[1])]), (8, 2));
        assert_eq!(refusal_of(&[case_2(), clean(2, 1, 1, 0)]), (8, 2));
        let early = update(5, 5, 3, 0, &[1]);
        assert_eq!(refusal_of(&[early.clone(), commit(6, 5, 3)]), (8, 6));
        assert_eq!(refusal_of(&[early.clone(), commit(6, 5, 5)]), (8, 6));
        // The first block's ticket is believed.
        assert_eq!(opened(&[early, commit(6, 5, 4)]).answer, Ok(4));
        // A page dirty over all eight slots: no room for its clean block.
        let mut full = vec![case_2(), case_3()];
        for sequence in 3..=8 {
            full.push(update(sequence, 1, 1, 1, &[5]));
        }
        assert_eq!(refusal_of(&full), (8, 8));
        full.pop();
        assert_eq!(opened(&full).answer, Ok(1));
    }

    /// A new index 1 and the end each void a half group.
    #[test]
    fn void_groups() {
        let voided = [
            update(1, 1, 0, 0, &[9, 9]),
            update(2, 2, 0, 0, &[42]),
            commit(3, 1, 1),
            update(4, 1, 1, 1, &[9]),
        ];
        let found = opened(&voided);
        assert_eq!((found.answer, found.state.next), (Ok(1), 5));
        let home = home();
        let page = read(&found.state, &home, &found.frames, 0).unwrap();
        assert_eq!(page[..2], [42, home[1]]);
        assert_eq!(found.state.dirty.len(), 1);
        assert_eq!(found.state.dirty[0].first_group, 2);
    }

    /// The lines that the script of the cases must print, as far as 01 has them. Those of request l are
    /// in copy_cases.rs.
    #[test]
    fn script_of_the_cases() {
        let script = desk_lines().join("\n") + "\n";
        let output = Runner::new(FreeChoice::Lowest).run_script(script.as_bytes());
        let pairs: Vec<(&str, &str)> = script.lines().zip(output.lines()).collect();
        assert_eq!(script.lines().count(), output.lines().count());
        let answers_of = |letter: &str| -> Vec<&str> {
            let of = pairs.iter().filter(|(line, _)| line.starts_with(letter));
            of.map(|(_, answer)| *answer).collect()
        };
        assert_eq!(
            answers_of("o"),
            vec![
                "opened 0 next 1", // by calls: a fresh log,
                "opened 1 next 3", // case 5,
                "opened 1 next 3", // again,
                "opened 1 next 4", // case 7,
                "opened 0 next 1", // a fresh log,
                "opened 0 next 2", // case 6
                "opened 0 next 2", // from blocks: case 6,
                "opened 1 next 3", // case 5,
                "opened 1 next 4", // case 7
                "opened 0 next 1", // case 8
                "opened 0 next 9", // case 9
                "refused 7 place 0",
                "opened 0 next 1", // case 12
                "refused 9 place 4",
                "opened 2 next 5",
                "opened 0 next 1",
                "refused 9 place 3",
                "opened 1 next 4",
                "opened 1 next 3", // case 13
                "refused 7 place 1",
                "opened 1 next 3",
                "opened 1 next 3",
                "refused 7 place 1",
                "opened 0 next 1", // request b
                "opened 0 next 1",
                "opened 0 next 1",
                "opened 2 next 8",
                "opened 0 next 1", // request f
                "refused 7 place 3",
                "refused 7 place 3",
                "opened 1 next 3",
                "refused 7 place 2",
                "opened 1 next 3",
                "refused 7 place 1",
                "refused 7 place 1",
                "refused 7 place 3",
                "opened 1 next 3",
                "opened 1 next 3",
                "refused 7 place 3",
                "opened 0 next 1", // the only block
                "refused 7 place 0",
                "opened 0 next 2",
                "opened 0 next 1", // the last sequences
                "refused 7 place 281474976710656",
                "opened 1 next 281474976710656",
                "refused 7 place 281474976710655",
                "opened 0 next 1", // request k
                "opened 0 next 1",
                "opened 0 next 1",
                "opened 0 next 1",
                "opened 0 next 1",
            ]
        );
        // Case 10, twice.
        let begins = answers_of("b");
        let case_10 = ["refused 3", "refused 5", "ok"];
        assert_eq!(begins[1..4], case_10);
        assert_eq!(
            begins.windows(3).filter(|three| **three == case_10).count(),
            2
        );
        // Case 11.
        let reads: Vec<&str> = pairs.iter().filter(|p| p.0 == "r 4").map(|p| p.1).collect();
        assert_eq!(reads, vec!["refused 3"]);
        assert!(pairs
            .iter()
            .any(|p| p.0 == "r 3" && p.1.starts_with("page ")));
        // Case 8.
        assert!(pairs.contains(&("d 0 553 472 7", "refused 3")));
        assert!(pairs.contains(&("d 0 552 472 7", "ok")));
        // The blocks by calls are the blocks put in place.
        let digests = answers_of("g");
        let log_of = |answer: &str| answer.split(' ').nth(1).unwrap().to_string();
        assert_eq!(log_of(digests[1]), log_of(digests[5]), "case 5");
        assert_eq!(log_of(digests[2]), log_of(digests[6]), "case 7");
        assert_eq!(log_of(digests[3]), log_of(digests[4]), "case 6");
        // Request b.
        let desks = &digests[digests.len() - 5..digests.len() - 2];
        assert_eq!((desks[1], desks[2]), (desks[0], desks[0]), "request b");
        // Request f: an opening that is refused writes neither log nor home.
        let refused = &digests[digests.len() - 2..];
        assert_eq!(refused[0], refused[1], "request f");
    }

    /// Request k, by hand: what each line of Begin, Log step and Clean step answers.
    #[test]
    fn waits_by_hand() {
        let mut runner = Runner::new(FreeChoice::Lowest);
        let mut answers = String::new();
        for line in waits() {
            let answer = runner.run_line(line.as_bytes());
            let letter = line.chars().next().unwrap();
            match letter {
                'a' => answers.push('|'),
                'b' | 'l' | 'c' => {
                    answers.push(letter);
                    answers += match answer.as_str() {
                        "refused 5" => "5",
                        "refused 10" => "10",
                        other => {
                            assert!(!other.starts_with("refused"), "{line}: {other}");
                            ""
                        }
                    };
                }
                _ => assert!(!answer.starts_with("refused"), "{line}: {answer}"),
            }
        }
        let expected = [
            "".to_string(),
            "blllb5ccccccc10b".to_string(),
            "blllb5cb5cb5cb5cb5cb5cb".to_string(),
            "bblb5llll10ccccccc10b".to_string(),
            "bllccbb5lll10cccc10b".to_string(),
            format!("bbb5{}l10{}c10b", "l".repeat(10), "c".repeat(24)),
        ];
        assert_eq!(answers, expected.join("|"));
    }

    /// The four numbers in every order.
    fn orders(pages: [u64; 4]) -> Vec<[u64; 4]> {
        let mut orders = Vec::new();
        for a in 0..4 {
            for b in 0..4 {
                for c in 0..4 {
                    if a != b && a != c && b != c {
                        let d = 6 - a - b - c;
                        orders.push([pages[a], pages[b], pages[c], pages[d]]);
                    }
                }
            }
        }
        orders
    }

    /// Request b: the smallest first group comes first, among equals the lowest page number, in
    /// whatever frames the pages are. So desks that differ in their frames end with the same bytes.
    #[test]
    fn cleaning_in_a_fixed_order() {
        let mut frames_seen = Vec::new();
        let mut ends = Vec::new();
        for order in orders([2, 5, 9, 12]) {
            for cut in [false, true] {
                for choice in [FreeChoice::Lowest, FreeChoice::Highest] {
                    let mut runner = Runner::new(choice);
                    for line in desk_dirty(order, cut) {
                        runner.run_line(line.as_bytes());
                    }
                    let state = &runner.store.as_ref().unwrap().state;
                    let mut frames: Vec<(u64, u64)> =
                        state.dirty.iter().map(|d| (d.page, d.frame)).collect();
                    frames.sort();
                    assert_eq!(frames.len(), 5);
                    if !frames_seen.contains(&frames) {
                        frames_seen.push(frames);
                    }
                    let mut last = String::new();
                    for line in desk_clean() {
                        last = runner.run_line(line.as_bytes());
                        assert!(!last.starts_with("refused") && last != "bad", "{line}");
                    }
                    let log = &runner.store.as_ref().unwrap().log;
                    let mut cleaned = Vec::new();
                    for sequence in 7..23 {
                        let slot = slot_of(sequence, 16);
                        let bytes = &log[slot as usize * BLOCK_SIZE..][..BLOCK_SIZE];
                        match read_slot(bytes, slot, 16, 16) {
                            Slot::Valid(block) => {
                                assert_eq!(block.sequence, sequence);
                                if let Kind::Clean { page } = block.kind {
                                    cleaned.push((sequence, page));
                                }
                            }
                            _ => panic!("slot {slot} has no block"),
                        }
                    }
                    let expected = vec![(8, 14), (9, 2), (10, 5), (11, 9), (12, 12)];
                    assert_eq!(cleaned, expected);
                    ends.push(last);
                }
            }
        }
        // 24 orders of describing, and the order of the pages' numbers that the model's opening takes,
        // each from the lowest frame up and from the highest down.
        assert_eq!(frames_seen.len(), 50);
        assert_eq!(ends.len(), 96);
        assert!(ends.iter().all(|end| *end == ends[0]));
    }

    #[test]
    fn digests() {
        assert_eq!(digest(&[]), 0);
        assert_eq!(digest(&[0]), 1);
        assert_eq!(digest(&[0, 255]), 257 + 256);
    }

    /// No answer depends on which frame or staging area is taken.
    #[test]
    fn free_choices_do_not_show() {
        for seed in 0..300 {
            let made = random::make(seed);
            let mut other = Runner::new(FreeChoice::Highest);
            let answers = other.run_script(made.text().as_bytes());
            assert!(
                answers.lines().eq(made.answers.iter().map(|a| a.as_str())),
                "{seed}"
            );
        }
    }

    /// The form of a line.
    #[test]
    fn bad_lines_change_nothing() {
        let mut runner = Runner::new(FreeChoice::Lowest);
        let lines: [&[u8]; 29] = [
            b"",
            b" ",
            b"b",
            b"b ",
            b"b  1",
            b"b 1 ",
            b" b 1",
            b"B 1",
            b"b -1",
            b"b +1",
            b"b 1.0",
            b"b\t1",
            b"b1",
            b"b 1\r",
            b"b 1 1",
            b"b 18446744073709551616",
            b"o 1",
            b"oo",
            b"z",
            b"1",
            b"a 7 4 2",
            b"a 65 4 2",
            b"a 8 0 2",
            b"a 8 17 2",
            b"a 8 4 0",
            b"a 8 4 9",
            b"d 0 0 513 0",
            b"p 0 256",
            b"p 4096 0",
        ];
        for line in ["f", "o", "x", "g", "n 1 1 1 1", "t 1", "p 0 0", "b 1"] {
            assert_eq!(runner.run_line(line.as_bytes()), "bad", "{line}");
        }
        assert_eq!(runner.run_line(b"a 8 4 2"), "areas");
        for line in lines {
            let before = runner.store.clone();
            assert_eq!(runner.run_line(line), "bad", "{line:?}");
            assert!(runner.store == before);
        }
        for line in ["a 64 16 8", "a 8 1 1", "a 008 01 0001"] {
            assert_eq!(runner.run_line(line.as_bytes()), "areas", "{line}");
        }
        assert_eq!(runner.run_script(b""), "");
        assert_eq!(runner.run_script(b"\n"), "bad\n");
        assert_eq!(runner.run_script(b"f\no"), "ok\nbad\n");
        assert_eq!(runner.run_script(b"t 18446744073709551615\n"), "next\n");
    }
}
