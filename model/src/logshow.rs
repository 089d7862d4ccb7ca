//! What the program `logshow` prints for a log image.

use crate::block::{Kind, BLOCK_SIZE, MAX_UPDATE_LENGTH, PAGE_SIZE};
use crate::calls::{whole_count, FreeChoice};
use crate::recovery::{live_blocks, open};

const PAGES: usize = 4096;
const FRAMES: usize = 32;

pub fn lines(log: &[u8]) -> String {
    let Some(slots) = whole_count(log.len(), BLOCK_SIZE, 8, 128) else {
        return "refused 1 0\n".to_string();
    };
    let home = vec![0; PAGES * PAGE_SIZE];
    let mut frames = vec![0; FRAMES * PAGE_SIZE];
    let staging = vec![0; FRAMES * MAX_UPDATE_LENGTH];
    let (_, answer) = open(log, &home, &mut frames, &staging, FreeChoice::Lowest);
    let ticket = match answer {
        Ok(ticket) => ticket,
        Err(refused) => {
            return format!("refused {} {}\n", refused.refusal.number(), refused.place);
        }
    };
    let blocks = live_blocks(log, slots, PAGES as u64).unwrap();
    let newest = blocks.last().map_or(0, |block| block.sequence);
    let keep_from = blocks.last().map_or(0, |block| block.keep_from);
    let mut text = format!("blocks {slots} newest {newest} keep {keep_from} ticket {ticket}\n");
    for block in &blocks {
        let what = match &block.kind {
            Kind::Update {
                page,
                offset,
                new_bytes,
                ..
            } => {
                let length = new_bytes.len();
                format!("update page {page} offset {offset} length {length}")
            }
            Kind::Commit { updates } => format!("commit updates {updates}"),
            Kind::Clean { page } => format!("clean page {page}"),
        };
        text += &format!("{} {what} ticket {}\n", block.sequence, block.ticket);
    }
    text
}
