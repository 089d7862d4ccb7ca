//! What random scripts covered: each call's answers, and some events inside.

use std::collections::BTreeMap;

use crate::copy_script::{FED_ANSWERS, FED_KINDS};
use crate::random;
use crate::script::Counts;

const CALLS: [(&str, &str); 29] = [
    ("f", "Format"),
    ("o", "Open"),
    ("b", "Begin"),
    ("d", "Describe"),
    ("e", "End"),
    ("l", "Log step"),
    ("c", "Clean step"),
    ("r", "Read"),
    ("s", "Settled"),
    ("a", "areas"),
    ("x", "cut"),
    ("n", "lend"),
    ("p", "poke"),
    ("t", "set next"),
    ("g", "digests"),
    ("M", "copy made"),
    ("O", "its Open"),
    ("F", "feed"),
    ("W", "feed, held"),
    ("R", "its Read"),
    ("S", "its Settled"),
    ("X", "its cut"),
    ("N", "its lend"),
    ("P", "its poke"),
    ("D", "feed, desk"),
    ("B", "its Begin"),
    ("G", "its digests"),
    ("K", "poke, held"),
    ("H", "hold"),
];

/// The columns of the table: accepted, refused with 1 to 14, bad.
const BAD: usize = 15;
const COLUMNS: usize = 16;

/// The column of an answer.
fn column(answer: &str) -> usize {
    let mut words = answer.split(' ');
    match words.next() {
        Some("bad") => BAD,
        Some("refused") => words.next().unwrap().parse().unwrap(),
        _ => 0,
    }
}

pub fn table(count: u64, seed: u64) -> String {
    let mut cells: BTreeMap<String, [u64; COLUMNS]> = BTreeMap::new();
    let mut counts = Counts::default();
    let mut lines = 0;
    for number in 0..count {
        let made = random::make(seed.wrapping_add(number));
        for (line, answer) in made.lines.iter().zip(&made.answers) {
            let letter: String = line.chars().take(1).collect();
            cells.entry(letter).or_insert([0; COLUMNS])[column(answer)] += 1;
            lines += 1;
        }
        counts.add(&made.runner.counts);
    }

    let mut text = format!("{:<11}{:>9}", "", "accepted");
    for refusal in 1..BAD {
        text += &format!("{refusal:>7}");
    }
    text += &format!("{:>7}\n", "bad");
    let mut totals = [0; COLUMNS];
    for (letter, name) in CALLS {
        let row = cells.remove(letter).unwrap_or([0; COLUMNS]);
        text += &row_text(name, &row);
        for (total, cell) in totals.iter_mut().zip(row) {
            *total += cell;
        }
    }
    let mut others = [0; COLUMNS];
    for row in cells.values() {
        for (other, cell) in others.iter_mut().zip(row) {
            *other += cell;
        }
    }
    text += &row_text("no call", &others);
    for (total, cell) in totals.iter_mut().zip(others) {
        *total += cell;
    }
    text += &row_text("all", &totals);

    let events = [
        ("scripts", count),
        ("lines", lines),
        ("calls", counts.calls),
        ("commits", counts.commits),
        ("commits of several updates", counts.commits_of_several),
        ("clean blocks", counts.clean_blocks),
        ("cleanings given up for a commit", counts.cleanings_given_up),
        (
            "cleanings with a choice of page",
            counts.cleanings_among_equals,
        ),
        (
            ".. not that of the lowest frame",
            counts.cleanings_against_frames,
        ),
        (
            "blocks stored over an older block",
            counts.blocks_over_older_blocks,
        ),
        (
            "blocks with the last sequence",
            counts.blocks_at_the_last_sequence,
        ),
        (
            "openings with dirty pages",
            counts.openings_with_dirty_pages,
        ),
        (
            "openings that void a half group",
            counts.openings_of_half_groups,
        ),
        ("cuts in a half-stored group", counts.cuts_in_a_half_group),
        ("answers held to the book", counts.book_answers),
        ("openings held to the book", counts.book_openings),
        (
            "openings, the newest block damaged",
            counts.damaged_openings,
        ),
        ("openings, some slots damaged", counts.bad_openings),
        (".. of them accepted", counts.bad_openings_accepted),
        ("openings refused for the end", counts.damaged_ends),
        ("Begins that waited", counts.waits),
        (".. with a block to store", counts.waits_for_blocks),
        (".. with 3 F clean steps", counts.longest_waits),
    ];
    text.push('\n');
    for (name, number) in events {
        text += &format!("{name:<36}{number:>10}\n");
    }
    text += &format!("\n{:<13}", "fed blocks");
    for answer in FED_ANSWERS {
        text += &format!("{answer:>9}");
    }
    text.push('\n');
    for (name, row) in FED_KINDS.iter().zip(counts.copies.by_kind) {
        text += &format!("{name:<13}");
        for cell in row {
            match cell {
                0 => text += &format!("{:>9}", "."),
                _ => text += &format!("{cell:>9}"),
            }
        }
        text.push('\n');
    }
    text.push('\n');
    for (name, number) in counts.copies.lines() {
        text += &format!("{name:<36}{number:>10}\n");
    }
    text
}

/// Every outcome of a copy's calls that there is comes up in 200 scripts.
#[test]
fn two_hundred_scripts_cover_copies() {
    let mut answers: BTreeMap<(String, String), u64> = BTreeMap::new();
    let mut counts = Counts::default();
    for seed in 0..200 {
        let made = random::make(seed);
        for (line, answer) in made.lines.iter().zip(&made.answers) {
            let letter: String = line.chars().take(1).collect();
            let mut answer = answer.as_str();
            if let Some((refused, _)) = answer.split_once(" place ") {
                answer = refused;
            }
            *answers.entry((letter, answer.to_string())).or_default() += 1;
        }
        counts.add(&made.runner.counts);
    }
    let wanted = [
        ("F", "taken/not yet/had/refused 1/refused 2/refused 8/refused 9/refused 13/refused 14"),
        ("W", "taken/not yet/had/refused 1/refused 2/refused 7/refused 8/refused 9/refused 13/refused 14"),
        ("O", "refused 1/refused 7/refused 8/refused 9"),
        ("R", "refused 1/refused 2/refused 3"),
        ("S", "yes/refused 2/refused 3"),
        ("D", "refused 2"),
        ("B", "refused 2"),
    ];
    for (letter, texts) in wanted {
        for text in texts.split('/') {
            let key = (letter.to_string(), text.to_string());
            assert!(answers.contains_key(&key), "{letter}: {text}");
        }
    }
    // Nothing is queued at a copy, so that Settled never says no; and Begin is never accepted there.
    assert!(!answers.contains_key(&("S".to_string(), "no".to_string())));
    assert!(!answers.contains_key(&("B".to_string(), "ok".to_string())));
    for (name, number) in counts.copies.lines() {
        assert!(*number > 0, "{name}");
    }
    // By kind: a block takes one call, a clean of a dirty page three; 7 and 9 are a commit's alone.
    let possible = [
        "taken/had/8/14",
        "taken/had/7/8/9/14",
        "taken/1st half/2nd half/had/8/14",
        "taken/had/8/14",
    ];
    for (number, kind) in FED_KINDS.iter().enumerate() {
        let possible: Vec<&str> = possible[number].split('/').collect();
        for (answer, cell) in FED_ANSWERS.iter().zip(counts.copies.by_kind[number]) {
            assert_eq!(cell > 0, possible.contains(answer), "{kind}: {answer}");
        }
    }
}

fn row_text(name: &str, row: &[u64; COLUMNS]) -> String {
    let mut text = format!("{name:<11}{:>9}", row[0]);
    for cell in &row[1..] {
        if *cell == 0 {
            text += &format!("{:>7}", ".");
        } else {
            text += &format!("{cell:>7}");
        }
    }
    text.push('\n');
    text
}
