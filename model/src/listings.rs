//! The logs that program `listing_run` makes, built here from the rules' blocks, and its stored lines held to this model's.

use crate::block::{encode, slot_of, Block, Kind, BLOCK_SIZE};
use crate::logshow;

fn store(log: &mut [u8], sequence: u64, keep_from: u64, ticket: u64, kind: Kind) {
    let slots = (log.len() / BLOCK_SIZE) as u64;
    let first = slot_of(sequence, slots) as usize * BLOCK_SIZE;
    let block = Block {
        sequence,
        keep_from,
        ticket,
        kind,
    };
    log[first..first + BLOCK_SIZE].copy_from_slice(&encode(&block));
}

fn update(index: u64, page: u64) -> Kind {
    Kind::Update {
        index,
        page,
        offset: 7,
        new_bytes: vec![42],
    }
}

fn commit(updates: u64) -> Kind {
    Kind::Commit { updates }
}

/// An update of each of `updates` pages from `page` on, and their commit.
fn group(log: &mut [u8], sequence: u64, page: u64, updates: u64, ticket: u64) {
    for i in 0..updates {
        store(log, sequence + i, 1, ticket, update(i + 1, page + i));
    }
    store(log, sequence + updates, 1, ticket + 1, commit(updates));
}

fn all_lines() -> String {
    let mut shown = String::new();
    let mut show = |log: &[u8]| shown.push_str(&logshow::lines(log));

    let mut small = vec![0; 4096];
    show(&small);
    store(&mut small, 1, 1, 0, update(1, 0));
    show(&small);
    store(&mut small, 2, 1, 1, commit(1));
    show(&small);
    store(&mut small, 3, 3, 1, Kind::Clean { page: 0 });
    show(&small);

    let mut wrapped = vec![0; 4096];
    store(&mut wrapped, 3, 3, 1, Kind::Clean { page: 9 });
    store(&mut wrapped, 7, 7, 3, update(1, 4095));
    store(&mut wrapped, 8, 7, 4, commit(1));
    store(&mut wrapped, 9, 7, 4, update(1, 2));
    store(&mut wrapped, 10, 7, 5, commit(1));
    show(&wrapped);

    let mut damaged = vec![0; 4096];
    damaged[100] = 1;
    show(&damaged);
    store(&mut damaged, 1, 1, 0, update(1, 0));
    store(&mut damaged, 4, 1, 1, commit(1));
    show(&damaged);
    show(&[0; 3584]);
    show(&[0; 4095]);

    let mut end = vec![0; 4096];
    group(&mut end, 1, 0, 1, 0);
    end[1636] = 1;
    show(&end);
    let mut further = vec![0; 4096];
    group(&mut further, 1, 0, 1, 0);
    further[2148] = 1;
    show(&further);
    further[1124] = 1;
    show(&further);
    end[612] = 1;
    show(&end);

    let mut last = vec![0; 4096];
    let clean = Kind::Clean { page: 0 };
    store(
        &mut last,
        281474976710655,
        281474976710655,
        1,
        clean.clone(),
    );
    last[100] = 1;
    show(&last);
    store(&mut last, 281474976710648, 281474976710648, 1, clean);
    show(&last);

    let mut disordered = vec![0; 4096];
    store(&mut disordered, 1, 1, 0, update(1, 0));
    store(&mut disordered, 2, 1, 0, update(3, 1));
    show(&disordered);
    store(&mut disordered, 2, 1, 1, commit(2));
    show(&disordered);
    store(&mut disordered, 2, 1, 1, commit(1));
    store(&mut disordered, 3, 1, 2, Kind::Clean { page: 0 });
    show(&disordered);

    let mut crowded = vec![0; 4096];
    for g in 0..4 {
        group(&mut crowded, 2 * g + 1, g, 1, g);
    }
    show(&crowded);

    let mut many = vec![0; 65536];
    group(&mut many, 1, 0, 16, 0);
    group(&mut many, 18, 16, 16, 1);
    show(&many);
    group(&mut many, 35, 32, 1, 2);
    show(&many);
    shown
}

#[test]
fn the_stored_lines_are_the_models() {
    assert_eq!(all_lines(), include_str!("../../crates/listing_run/stdout"));
}
