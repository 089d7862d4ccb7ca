//! A log block: its layout, its check bytes, and what a slot of the log can hold.

/// Bytes of a log block, and of a slot of the log.
pub const BLOCK_SIZE: usize = 512;
/// The most new bytes that one update carries, and the size of a staging area.
pub const MAX_UPDATE_LENGTH: usize = 472;
/// Bytes of a home page, and of a frame.
pub const PAGE_SIZE: usize = 1024;
/// The most updates of a group.
pub const MAX_GROUP_UPDATES: u64 = 16;
/// The first number that is no sequence any more.
pub const SEQUENCE_LIMIT: u64 = 1 << 48;

/// Where the new bytes start.
pub const NEW_BYTES_START: usize = 36;
/// Where the check starts; the check covers all bytes before it.
pub const CHECK_START: usize = 508;

#[derive(Clone, Debug, PartialEq, Eq)]
pub enum Kind {
    /// New bytes for a page. The index is the update's place in its group.
    Update {
        index: u64,
        page: u64,
        offset: u64,
        new_bytes: Vec<u8>,
    },
    /// The end of a group of this many updates.
    Commit { updates: u64 },
    /// The page is wholly at home.
    Clean { page: u64 },
}

#[derive(Clone, Debug, PartialEq, Eq)]
pub struct Block {
    pub sequence: u64,
    pub keep_from: u64,
    pub ticket: u64,
    pub kind: Kind,
}

/// What a slot of the log holds.
#[derive(Clone, Debug, PartialEq, Eq)]
pub enum Slot {
    Unused,
    Valid(Block),
    Damaged,
}

fn put_number(bytes: &mut [u8], first: usize, count: usize, value: u64) {
    let mut rest = value;
    for place in first..first + count {
        bytes[place] = (rest % 256) as u8;
        rest /= 256;
    }
    assert_eq!(rest, 0, "the number does not fit its field");
}

fn get_number(bytes: &[u8], first: usize, count: usize) -> u64 {
    let mut value = 0;
    for place in (first..first + count).rev() {
        value = value * 256 + u64::from(bytes[place]);
    }
    value
}

/// The numbers A and B of the first 508 bytes.
pub fn check_numbers(bytes: &[u8]) -> (u64, u64) {
    let mut a = 0;
    let mut b = 0;
    for i in 0..CHECK_START {
        a += u64::from(bytes[i]);
        b += (CHECK_START - i) as u64 * u64::from(bytes[i]);
    }
    (a % 65_535, b % 65_535)
}

/// Sets the check bytes from the bytes before them.
pub fn set_check(bytes: &mut [u8]) {
    let (a, b) = check_numbers(bytes);
    put_number(bytes, 508, 2, a);
    put_number(bytes, 510, 2, b);
}

/// Whether an update may change these bytes of a page: the rule for offset and length.
pub fn place_is_legal(offset: u64, length: u64) -> bool {
    let end = u128::from(offset) + u128::from(length);
    length >= 1 && length <= MAX_UPDATE_LENGTH as u64 && end <= PAGE_SIZE as u128
}

/// The slot that a sequence belongs in.
pub fn slot_of(sequence: u64, slots: u64) -> u64 {
    sequence % slots
}

/// The bytes of a block.
pub fn encode(block: &Block) -> [u8; BLOCK_SIZE] {
    let mut bytes = [0; BLOCK_SIZE];
    put_number(&mut bytes, 0, 8, block.sequence);
    put_number(&mut bytes, 8, 8, block.keep_from);
    put_number(&mut bytes, 28, 8, block.ticket);
    match &block.kind {
        Kind::Update {
            index,
            page,
            offset,
            new_bytes,
        } => {
            bytes[16] = 1;
            put_number(&mut bytes, 18, 2, *index);
            put_number(&mut bytes, 20, 2, *page);
            put_number(&mut bytes, 22, 2, *offset);
            put_number(&mut bytes, 24, 2, new_bytes.len() as u64);
            for (j, byte) in new_bytes.iter().enumerate() {
                bytes[NEW_BYTES_START + j] = *byte;
            }
        }
        Kind::Commit { updates } => {
            bytes[16] = 2;
            put_number(&mut bytes, 18, 2, *updates);
        }
        Kind::Clean { page } => {
            bytes[16] = 3;
            put_number(&mut bytes, 20, 2, *page);
        }
    }
    set_check(&mut bytes);
    bytes
}

/// Reads a block of a log of `slots` slots over a home of `pages` pages.
/// It is None where a rule of the layout is broken; the slot's own place is not looked at.
pub fn decode(bytes: &[u8], slots: u64, pages: u64) -> Option<Block> {
    let sequence = get_number(bytes, 0, 8);
    let keep_from = get_number(bytes, 8, 8);
    let kind = bytes[16];
    let index = get_number(bytes, 18, 2);
    let page = get_number(bytes, 20, 2);
    let offset = get_number(bytes, 22, 2);
    let length = get_number(bytes, 24, 2);
    let ticket = get_number(bytes, 28, 8);

    if sequence < 1 || sequence >= SEQUENCE_LIMIT {
        return None;
    }
    if keep_from < 1 || keep_from > sequence || sequence - keep_from + 1 > slots {
        return None;
    }
    if bytes[17] != 0 || bytes[26] != 0 || bytes[27] != 0 {
        return None;
    }
    if ticket >= sequence {
        return None;
    }
    let kind = match kind {
        1 => {
            if index < 1 || index > MAX_GROUP_UPDATES || page >= pages {
                return None;
            }
            if !place_is_legal(offset, length) {
                return None;
            }
            let end = NEW_BYTES_START + length as usize;
            Kind::Update {
                index,
                page,
                offset,
                new_bytes: bytes[NEW_BYTES_START..end].to_vec(),
            }
        }
        2 => {
            if index < 1 || index > MAX_GROUP_UPDATES || ticket < 1 {
                return None;
            }
            if page != 0 || offset != 0 || length != 0 {
                return None;
            }
            Kind::Commit { updates: index }
        }
        3 => {
            if index != 0 || page >= pages || offset != 0 || length != 0 {
                return None;
            }
            Kind::Clean { page }
        }
        _ => return None,
    };
    // The length is 0 where the block is no update, so all these bytes are zero then.
    let after_new_bytes = NEW_BYTES_START + length as usize;
    if bytes[after_new_bytes..CHECK_START].iter().any(|b| *b != 0) {
        return None;
    }
    let (a, b) = check_numbers(bytes);
    if get_number(bytes, 508, 2) != a || get_number(bytes, 510, 2) != b {
        return None;
    }
    Some(Block {
        sequence,
        keep_from,
        ticket,
        kind,
    })
}

/// What the slot of this number holds.
pub fn read_slot(bytes: &[u8], slot: u64, slots: u64, pages: u64) -> Slot {
    assert_eq!(bytes.len(), BLOCK_SIZE);
    if bytes.iter().all(|b| *b == 0) {
        return Slot::Unused;
    }
    match decode(bytes, slots, pages) {
        Some(block) if slot_of(block.sequence, slots) == slot => Slot::Valid(block),
        _ => Slot::Damaged,
    }
}

#[cfg(test)]
mod tests {
    use super::*;

    pub fn case_2() -> Block {
        Block {
            sequence: 1,
            keep_from: 1,
            ticket: 0,
            kind: Kind::Update {
                index: 1,
                page: 0,
                offset: 0,
                new_bytes: vec![42],
            },
        }
    }

    fn commit_of_case_3() -> Block {
        Block {
            sequence: 2,
            keep_from: 1,
            ticket: 1,
            kind: Kind::Commit { updates: 1 },
        }
    }

    #[test]
    fn every_kind_is_read_as_it_was_written() {
        let clean = Block {
            sequence: 3,
            keep_from: 3,
            ticket: 1,
            kind: Kind::Clean { page: 3 },
        };
        for block in [case_2(), commit_of_case_3(), clean] {
            let bytes = encode(&block);
            assert_eq!(
                read_slot(&bytes, block.sequence % 8, 8, 4),
                Slot::Valid(block.clone())
            );
            // In another slot it is damaged.
            assert_eq!(
                read_slot(&bytes, (block.sequence + 1) % 8, 8, 4),
                Slot::Damaged
            );
        }
    }

    /// Each rule of the layout, broken alone with a right check.
    #[test]
    fn each_broken_rule_is_damage() {
        let update = encode(&case_2());
        let commit = encode(&commit_of_case_3());
        let clean = encode(&Block {
            sequence: 1,
            keep_from: 1,
            ticket: 0,
            kind: Kind::Clean { page: 3 },
        });
        let broken_updates: [(usize, u8); 14] = [
            (0, 0),   // sequence 0
            (6, 1),   // sequence too large
            (8, 0),   // keep-from 0
            (8, 2),   // keep-from above the sequence
            (16, 0),  // no such kind
            (16, 4),  // no such kind
            (17, 1),  // a byte that must be zero
            (18, 0),  // index 0
            (18, 17), // index 17
            (20, 4),  // page 4 of 4
            (24, 0),  // length 0
            (26, 1),  // a byte that must be zero
            (27, 1),  // a byte that must be zero
            (28, 1),  // ticket not below the sequence
        ];
        for (place, value) in broken_updates {
            let mut bytes = update;
            bytes[place] = value;
            set_check(&mut bytes);
            let slot = get_number(&bytes, 0, 8) % 8;
            assert_eq!(read_slot(&bytes, slot, 8, 4), Slot::Damaged, "{place}");
        }
        let mut late = update;
        late[37] = 1; // a byte after the length
        set_check(&mut late);
        assert_eq!(read_slot(&late, 1, 8, 4), Slot::Damaged);

        for (place, value) in [
            (18, 0),
            (18, 17),
            (20, 1),
            (22, 1),
            (24, 1),
            (28, 0),
            (28, 2),
        ] {
            let mut bytes = commit;
            bytes[place] = value;
            set_check(&mut bytes);
            assert_eq!(read_slot(&bytes, 2, 8, 4), Slot::Damaged, "{place}");
        }
        for (place, value) in [(18, 1), (20, 4), (22, 1), (24, 1), (36, 1)] {
            let mut bytes = clean;
            bytes[place] = value;
            set_check(&mut bytes);
            assert_eq!(read_slot(&bytes, 1, 8, 4), Slot::Damaged, "{place}");
        }
        // Keep-from eight blocks back is legal with 8 slots, nine back is not.
        for (keep_from, legal) in [(9, true), (8, false)] {
            let block = Block {
                sequence: 16,
                keep_from,
                ticket: 0,
                kind: Kind::Clean { page: 0 },
            };
            let found = read_slot(&encode(&block), 0, 8, 4);
            assert_eq!(found == Slot::Valid(block), legal);
        }
    }

    #[test]
    fn any_change_of_one_byte_is_found() {
        for block in [case_2(), commit_of_case_3()] {
            let good = encode(&block);
            for place in 0..BLOCK_SIZE {
                for value in 0..=255 {
                    if good[place] == value {
                        continue;
                    }
                    let mut bytes = good;
                    bytes[place] = value;
                    assert_eq!(
                        read_slot(&bytes, block.sequence % 8, 8, 4),
                        Slot::Damaged,
                        "byte {place} to {value}"
                    );
                }
            }
        }
    }
}
