//! Request l: worked cases of a brokers' copy, by hand from 02. Each line stands with the answer that must
//! come out: 8 slots, 4 pages, 2 frames.

use crate::block::{encode, set_check, Block, Kind, BLOCK_SIZE, PAGE_SIZE};
use crate::script::{digest, Store};

/// Lines of a script with their answers, and the block that they hold aside.
struct Steps {
    lines: Vec<(String, String)>,
    held: Vec<u8>,
}

fn update(sequence: u64, keep_from: u64, ticket: u64, index: u64, page: u64, byte: u8) -> Block {
    let kind = Kind::Update {
        index,
        page,
        offset: 0,
        new_bytes: vec![byte],
    };
    Block {
        sequence,
        keep_from,
        ticket,
        kind,
    }
}

fn commit(sequence: u64, keep_from: u64, ticket: u64, updates: u64) -> Block {
    Block {
        sequence,
        keep_from,
        ticket,
        kind: Kind::Commit { updates },
    }
}

fn clean(sequence: u64, keep_from: u64, ticket: u64, page: u64) -> Block {
    Block {
        sequence,
        keep_from,
        ticket,
        kind: Kind::Clean { page },
    }
}

/// The line that Read prints for a page as `a` makes it, with its first byte changed or not.
fn page(number: usize, first_byte: Option<u8>) -> String {
    let home = Store::new(8, 4, 2).home;
    let mut bytes = home[number * PAGE_SIZE..][..PAGE_SIZE].to_vec();
    if let Some(byte) = first_byte {
        bytes[0] = byte;
    }
    format!("page {}", digest(&bytes))
}

impl Steps {
    /// Adds lines, a stroke between each two, each with `=` and its answer. `any` is an answer that is not
    /// worked out by hand, and `as g` that of the last g: the copy's log and home are the desk's.
    fn say(&mut self, text: &str) {
        for step in text.split('/') {
            let (line, answer) = step.split_once('=').expect("a line and its answer");
            if line.starts_with('a') {
                self.held.fill(0);
            }
            self.lines.push((line.to_string(), answer.to_string()));
        }
    }

    /// Makes these bytes the block held aside.
    fn hold_bytes(&mut self, bytes: &[u8]) {
        for j in 0..BLOCK_SIZE {
            if self.held[j] != bytes[j] {
                self.say(&format!("K {j} {}=poked", bytes[j]));
            }
        }
        self.held = bytes.to_vec();
    }

    /// Feeds the copy a block made up.
    fn feed(&mut self, block: &Block, answer: &str) {
        self.hold_bytes(&encode(block));
        self.say(&format!("W={answer}"));
    }

    /// Feeds the copy a block with one byte changed and its check made right again.
    fn feed_changed(&mut self, block: &Block, place: usize, value: u8, answer: &str) {
        let mut bytes = encode(block);
        bytes[place] = value;
        set_check(&mut bytes);
        self.hold_bytes(&bytes);
        self.say(&format!("W={answer}"));
    }

    /// A desk formatted and opened, and a copy made from it and opened.
    fn fresh(&mut self) {
        self.say("a 8 4 2=areas/f=ok/o=opened 0 next 1/M=made/O=opened 0 next 1");
    }

    /// The desk commits one byte of page 0: blocks 1 and 2.
    fn desk_commits(&mut self) {
        self.say("b 1=ok/d 0 0 1 42=ok/e=ticket 1/l=stored/l=settled 1");
    }

    /// The same, and the copy has it.
    fn both_commit(&mut self) {
        self.fresh();
        self.desk_commits();
        self.say("F 1=taken/F 2=taken");
    }

    /// The desk commits a byte of pages 0 and 1 in one transaction: blocks 1 to 3.
    fn desk_commits_two(&mut self) {
        self.say("b 2=ok/d 0 0 1 42=ok/d 1 0 1 43=ok/e=ticket 1/l=stored/l=stored/l=settled 1");
    }
}

fn steps() -> Vec<(String, String)> {
    let mut steps = Steps {
        lines: Vec::new(),
        held: vec![0; BLOCK_SIZE],
    };
    let all = u64::MAX;
    let [old_0, old_1, old_2] = [page(0, None), page(1, None), page(2, None)];
    let [new_0, new_1] = [page(0, Some(42)), page(1, Some(43))];

    // Before a copy is made there is none to open, feed or read.
    steps.say("a 8 4 2=areas/f=ok/o=opened 0 next 1");
    steps.say("O=bad/F 1=bad/W=bad/R 0=bad/S 1=bad/X=bad/N 1 1 1 1=bad/P 0 0=bad/B=bad/G=bad");
    steps.say("K 0 0=poked/H 0=held/D 0=refused 2 place 0/g=any/M=made/G=as g");
    // Its all-zero state is nobody's.
    steps.say("F 1=refused 2 place 0/W=refused 2 place 0/R 0=refused 2/S 1=refused 2/B=refused 2");

    // 1: an update is taken. It shows nowhere.
    steps.fresh();
    steps.say("b 1=ok/d 0 0 1 42=ok/e=ticket 1/l=stored/F 1=taken");
    steps.say(&format!("R 0={old_0}/S 1=refused 3"));
    // 2: the commit is taken, and the update shows.
    steps.say(&format!(
        "l=settled 1/F 2=taken/R 0={new_0}/R 1={old_1}/S 1=yes/S 2=refused 3/R 4=refused 3"
    ));
    // Copy and desk have the same newest block, and the same bytes.
    steps.say("g=any/G=as g");
    // 3 to 5: a clean block of a dirty page takes three calls. At the desk its three stores came first.
    steps.say(&format!(
        "c=stored/c=stored/c=stored/F 3=not yet/R 0={new_0}/F 3=not yet/F 3=taken/R 0={new_0}/g=any/G=as g"
    ));
    // 6: a clean block of a page that is not dirty takes one call.
    steps.feed(&clean(4, 4, 1, 1), "taken");
    // .. also while another page is dirty, whose first group it keeps.
    steps.both_commit();
    steps.feed(&clean(3, 1, 1, 1), "taken");
    steps.say(&format!("R 0={new_0}"));
    // The updates of a commit are those of the copy's own log: the desk's block 1 may be gone.
    steps.fresh();
    steps.say("b 1=ok/d 0 0 1 42=ok/e=ticket 1/l=stored/F 1=taken/p 548 7=poked/l=settled 1");
    steps.say(&format!("F 1=refused 13 place 0/F 2=taken/R 0={new_0}"));

    // Of two updates of the same byte the later one wins.
    steps.fresh();
    steps.say("b 2=ok/d 0 0 1 41=ok/d 0 0 1 42=ok/e=ticket 1/l=stored/l=stored/l=settled 1");
    steps.say(&format!("F 1=taken/F 2=taken/F 3=taken/R 0={new_0}"));

    // 7: page 0 is at its third store. Another dirty page's clean makes that cleaning idle and starts its
    // own first half; then page 0 starts again.
    steps.fresh();
    steps.desk_commits_two();
    steps.say("F 1=taken/F 2=taken/F 3=taken/c=stored/c=stored/c=stored");
    steps.say("F 4=not yet/F 4=not yet");
    steps.feed(&clean(4, 1, 1, 1), "not yet");
    steps.say("F 4=not yet/F 4=not yet/F 4=taken");
    steps.say(&format!("R 0={new_0}/R 1={new_1}"));
    // An update in between makes it idle too, so a clean block starts at the first half again.
    steps.both_commit();
    steps.say("c=stored/c=stored/c=stored/F 3=not yet/F 3=not yet");
    steps.feed(&update(3, 1, 1, 1, 2, 9), "taken");
    steps.feed(&clean(4, 4, 1, 0), "not yet");
    steps.say("W=not yet/W=taken");
    // A cut in between does so as well; a block had does not.
    steps.both_commit();
    steps.say("c=stored/c=stored/c=stored/F 3=not yet/F 3=not yet/X=cut/O=opened 1 next 3");
    steps.say("F 3=not yet/F 1=had/F 3=not yet/F 2=had/F 3=taken/F 3=had");

    // 8: a clean voids a half group once it is taken, not before.
    steps.both_commit();
    steps.say("b 1=ok/d 1 0 1 43=ok/e=ticket 2/l=stored/F 3=taken/x=cut/o=opened 1 next 4");
    steps.say("c=stored/c=stored/c=stored/F 4=not yet/F 4=not yet/F 4=taken");
    steps.feed(&commit(5, 5, 2, 1), "refused 8 place 5");
    steps.feed(&commit(5, 3, 2, 1), "refused 8 place 5");
    steps.both_commit();
    steps.say("b 1=ok/d 1 0 1 43=ok/e=ticket 2/l=stored/F 3=taken");
    steps.feed(&clean(4, 4, 1, 0), "not yet");
    steps.say(&format!(
        "W=not yet/l=settled 2/F 4=taken/R 0={new_0}/R 1={new_1}"
    ));
    // So does an update with index 1.
    steps.both_commit();
    steps.feed(&update(3, 1, 1, 1, 2, 9), "taken");
    steps.feed(&update(4, 1, 1, 1, 1, 43), "taken");
    steps.feed(&commit(5, 1, 2, 2), "refused 8 place 5");
    steps.feed(&commit(5, 1, 2, 1), "taken");
    steps.say(&format!("R 1={new_1}/R 2={old_2}/S 2=yes"));

    // 9: a block below next is had already, whatever it holds.
    steps.both_commit();
    steps.say("F 1=had/F 2=had");
    steps.feed(&update(2, 2, 1, 7, 3, 9), "had");
    // .. if it is a valid one.
    steps.feed(&update(2, 2, 2, 7, 3, 9), "refused 13 place 0");
    steps.say("g=any/G=as g");

    // 10: a copy's opening keeps the half group that the desk's own opening voids.
    steps.fresh();
    steps.say("b 2=ok/d 0 0 1 42=ok/d 1 0 1 43=ok/e=ticket 1/l=stored/l=stored");
    steps.say("M=made/O=opened 0 next 3/x=cut/o=opened 0 next 3/l=refused 10/M=made");
    steps.say("O=opened 0 next 3/X=cut/O=opened 0 next 3");
    steps.feed(&commit(3, 1, 1, 2), "taken");
    steps.say(&format!("R 0={new_0}/R 1={new_1}/S 1=yes"));

    // 11: a desk's state is not sound to the feed, nor a copy's to Begin.
    steps.both_commit();
    steps.say("D 1=refused 2 place 0/D 3=refused 2 place 0/B=refused 2");

    // 12: 511 bytes of a block, and other wrong lengths.
    steps.fresh();
    steps.desk_commits();
    steps.say(&format!(
        "N {all} {all} {all} 511=lent/F 1=refused 1 place 0"
    ));
    steps.say(&format!("N {all} {all} {all} 0=lent/W=refused 1 place 0"));
    steps.say("N 4095 4096 2048 512=lent/F 1=refused 1 place 0");
    steps.say("N 4096 3072 2048 512=lent/F 1=refused 1 place 0/R 0=refused 1");
    steps.say("N 4096 4096 1024 512=lent/F 1=refused 1 place 0/R 0=refused 1");
    // Opening looks at no block; with another length of log it is 1.
    steps.say("N 4096 4096 2048 0=lent/O=opened 0 next 1/N 3584 4096 2048 512=lent");
    steps.say("O=refused 1 place 0/F 1=refused 2 place 0");
    steps.say(&format!(
        "N {all} {all} {all} {all}=lent/O=opened 0 next 1/F 1=taken"
    ));

    // 13: an unused slot is no block.
    steps.both_commit();
    steps.say("F 3=refused 13 place 0/F 7=refused 13 place 0");
    // 14: the right sequence, and a page out of range; kinds that there are not; a wrong check; a
    // keep-from more than 8 slots back.
    steps.feed(&update(3, 1, 1, 1, 4, 9), "refused 13 place 0");
    steps.feed_changed(&clean(3, 3, 1, 0), 16, 4, "refused 13 place 0");
    steps.feed_changed(&clean(3, 3, 1, 0), 16, 5, "refused 13 place 0");
    steps.feed_changed(&clean(3, 3, 1, 0), 17, 1, "refused 13 place 0");
    steps.say("K 17 0=poked/W=refused 13 place 0");
    steps.held[17] = 0;
    steps.feed(&clean(11, 3, 1, 0), "refused 13 place 0");
    // 15: a sequence ahead, after 13.
    steps.feed(&clean(10, 3, 1, 0), "refused 14 place 0");
    steps.feed(&update(4, 1, 1, 1, 0, 9), "refused 14 place 0");
    steps.feed(&update(4, 1, 1, 1, 4, 9), "refused 13 place 0");

    // 16: an update of the half group is lacking in the copy's own log: 7 at the lowest such place, before
    // 8, and only at a commit.
    steps.fresh();
    steps.desk_commits_two();
    steps.say("F 1=taken/F 2=taken/P 1060 7=poked/F 3=refused 7 place 2");
    steps.say("P 548 7=poked/F 3=refused 7 place 1");
    steps.feed(&commit(3, 3, 1, 9), "refused 7 place 1");
    steps.feed(&commit(3, 3, 1, 0), "refused 13 place 0");
    steps.feed(&update(3, 1, 0, 3, 2, 9), "taken");
    steps.say("P 548 42=poked");
    steps.feed(&commit(4, 1, 1, 3), "refused 7 place 2");
    steps.say("P 1060 43=poked/W=refused 9 place 4");
    // A valid block of another index or sequence in the slot is lacking too.
    steps.fresh();
    steps.desk_commits_two();
    steps.say("F 1=taken/F 2=taken");
    let (third, second) = (
        encode(&update(2, 1, 0, 3, 1, 43)),
        encode(&update(2, 1, 0, 2, 1, 43)),
    );
    for j in 0..BLOCK_SIZE {
        if third[j] != second[j] {
            steps.say(&format!("P {} {}=poked", 2 * BLOCK_SIZE + j, third[j]));
        }
    }
    steps.say("F 3=refused 7 place 2");
    let tenth = encode(&update(10, 3, 0, 2, 1, 43));
    for j in 0..BLOCK_SIZE {
        if tenth[j] != third[j] {
            steps.say(&format!("P {} {}=poked", 2 * BLOCK_SIZE + j, tenth[j]));
        }
    }
    steps.say("F 3=refused 7 place 2/O=refused 7 place 3");

    // 17: a commit that closes nothing.
    steps.both_commit();
    steps.feed(&commit(3, 1, 2, 1), "refused 8 place 3");
    // 18: wrong indexes of an update, without and with a half group, and of a commit.
    steps.feed(&update(3, 1, 1, 2, 1, 43), "refused 8 place 3");
    steps.feed(&update(3, 1, 1, 1, 1, 43), "taken");
    steps.feed(&update(4, 1, 1, 3, 1, 43), "refused 8 place 4");
    steps.feed(&commit(4, 1, 2, 2), "refused 8 place 4");
    // 19: wrong tickets of each kind.
    steps.feed(&update(4, 1, 0, 2, 1, 43), "refused 8 place 4");
    steps.feed(&update(4, 1, 2, 2, 1, 43), "refused 8 place 4");
    steps.feed(&commit(4, 1, 1, 1), "refused 8 place 4");
    steps.feed(&commit(4, 1, 3, 1), "refused 8 place 4");
    steps.feed(&clean(4, 1, 2, 1), "refused 8 place 4");
    // 20: keep-from: page 0 is dirty since block 1. A clean of it leaves nothing dirty.
    steps.feed(&update(4, 3, 1, 2, 1, 43), "refused 8 place 4");
    steps.feed(&update(4, 4, 1, 1, 1, 43), "refused 8 place 4");
    steps.feed(&commit(4, 3, 2, 1), "refused 8 place 4");
    steps.feed(&clean(4, 1, 1, 0), "refused 8 place 4");
    steps.feed(&clean(4, 3, 1, 0), "refused 8 place 4");
    steps.feed(&clean(4, 4, 1, 1), "refused 8 place 4");
    steps.feed(&commit(4, 1, 2, 1), "taken");
    steps.say(&format!("R 1={new_1}"));
    // .. and with nothing dirty an update counts its own group's start.
    steps.fresh();
    steps.feed(&update(1, 1, 0, 1, 0, 42), "taken");
    steps.feed(&update(2, 2, 0, 2, 1, 43), "refused 8 place 2");
    steps.feed(&update(2, 1, 0, 1, 1, 43), "refused 8 place 2");
    steps.feed(&update(2, 2, 0, 1, 1, 43), "taken");

    // 21: page 0 is dirty since block 1: at block 8 H is 8 and D 1, above 8 slots.
    steps.both_commit();
    for sequence in 3..8 {
        steps.feed(&update(sequence, 1, 1, 1, 1, 43), "taken");
    }
    steps.feed(&update(8, 1, 1, 1, 1, 43), "refused 8 place 8");
    steps.feed(&update(8, 1, 1, 2, 1, 43), "refused 8 place 8");
    steps.feed(&commit(8, 1, 2, 1), "refused 8 place 8");
    steps.feed(&clean(8, 1, 1, 1), "refused 8 place 8");
    steps.feed(&clean(8, 8, 1, 0), "not yet");
    steps.say("W=not yet/W=taken");
    // A commit counts the pages that it makes dirty: H is 7, D 2.
    steps.both_commit();
    for sequence in 3..7 {
        steps.feed(&update(sequence, 1, 1, 1, 1, 43), "taken");
    }
    steps.feed(&commit(7, 1, 2, 1), "refused 8 place 7");

    // 22: too few frames, after 8, at a copy lent one.
    steps.fresh();
    steps.desk_commits_two();
    steps.say(&format!("N {all} {all} 1024 {all}=lent/O=opened 0 next 1"));
    steps.say("F 1=taken/F 2=taken/F 3=refused 9 place 3");
    steps.feed(&commit(3, 2, 1, 2), "refused 8 place 3");
    steps.say(&format!(
        "N {all} {all} {all} {all}=lent/F 3=refused 1 place 0/O=opened 0 next 3/F 3=taken/R 1={new_1}"
    ));
    // At block 5 H is 5 and D would be 3, more than the frames. At block 6 that is above 8 slots: 8 first,
    // with D counted past the frames.
    steps.both_commit();
    steps.feed(&update(3, 1, 1, 1, 1, 43), "taken");
    steps.feed(&update(4, 1, 1, 2, 2, 43), "taken");
    steps.feed(&commit(5, 1, 2, 2), "refused 9 place 5");
    steps.both_commit();
    steps.feed(&update(3, 1, 1, 1, 1, 43), "taken");
    steps.feed(&update(4, 1, 1, 1, 1, 43), "taken");
    steps.feed(&update(5, 1, 1, 2, 2, 43), "taken");
    steps.feed(&commit(6, 1, 2, 2), "refused 8 place 6");
    // Three pages in a group, at two frames.
    steps.fresh();
    for index in 1..4 {
        steps.feed(&update(index, 1, 0, index, index, 43), "taken");
    }
    steps.feed(&commit(4, 1, 1, 3), "refused 9 place 4");
    steps.say("G=any/O=opened 0 next 4");
    steps.feed(&commit(4, 1, 1, 3), "refused 9 place 4");

    // A desk goes round its log, and the copy with it; a copy made later has the same pages.
    steps.both_commit();
    steps.say("c=stored/c=stored/c=stored/F 3=not yet/F 3=not yet/F 3=taken");
    for ticket in 2..6 {
        let sequence = 3 * ticket - 2;
        steps.say(&format!(
            "b 1=ok/d 1 0 1 43=ok/e=ticket {ticket}/l=stored/F {sequence}=taken/l=settled {ticket}/F {}=taken",
            sequence + 1
        ));
        steps.say("c=stored/c=stored/c=stored");
        let clean = sequence + 2;
        steps.say(&format!(
            "F {clean}=not yet/F {clean}=not yet/F {clean}=taken"
        ));
    }
    steps.say(&format!("g=any/G=as g/F 15=had/F 8=had/R 1={new_1}"));
    steps.say(&format!(
        "M=made/O=opened 5 next 16/R 0={new_0}/R 1={new_1}/G=as g"
    ));
    // A desk formatted anew: its blocks are below next there. Blocks of its new life go to a copy made anew.
    steps.say("f=ok/o=opened 0 next 1/b 1=ok/d 2 0 1 7=ok/e=ticket 1/l=stored/F 1=had/M=made");
    steps.say("O=opened 0 next 2/l=settled 1/F 2=taken");
    // `x` leaves the copy as it is, `a` leaves none.
    steps.say("x=cut/F 2=had/S 1=yes/a 8 4 2=areas/S 1=bad/H 0=held/M=made/O=refused 7 place 0");
    steps.lines
}

/// The lines of these cases, as a part of the script of all cases.
pub fn lines() -> Vec<String> {
    steps().into_iter().map(|(line, _)| line).collect()
}

#[cfg(test)]
mod tests {
    use super::*;
    use crate::calls::{self, FreeChoice, Refusal};
    use crate::copies::{self, Fed, RefusedFeed};
    use crate::copy_script::CopyStore;
    use crate::recovery;
    use crate::script::Runner;
    use crate::state::{Cleaning, DirtyPage, OpenTransaction, StagedUpdate, State};

    const CHOICE: FreeChoice = FreeChoice::Lowest;

    /// Every line of the cases has the answer that stands with it.
    #[test]
    fn answers_by_hand() {
        let mut runner = Runner::new(CHOICE);
        let mut digests = String::new();
        for (number, (line, expected)) in steps().into_iter().enumerate() {
            let answer = runner.run_line(line.as_bytes());
            if line == "g" {
                digests.clone_from(&answer);
            }
            match expected.as_str() {
                "any" => assert!(answer != "bad" && !answer.starts_with("refused")),
                "as g" => assert_eq!(answer, digests, "step {number}: {line}"),
                _ => assert_eq!(answer, expected, "step {number}: {line}"),
            }
        }
    }

    /// The form of a line, and what is bad without areas or a copy.
    #[test]
    fn bad_lines_change_nothing() {
        let mut runner = Runner::new(CHOICE);
        let good = "M/O/F 1/K 0 0/H 0/W/R 0/S 1/X/N 1 1 1 1/P 0 0/D 0/B/G";
        for line in good.split('/') {
            assert_eq!(runner.run_line(line.as_bytes()), "bad", "{line}");
        }
        assert_eq!(runner.run_line(b"a 8 4 2"), "areas");
        for line in good.split('/') {
            let mut runner = Runner::new(CHOICE);
            runner.run_line(b"a 8 4 2");
            let is_good = ["M", "K 0 0", "H 0", "D 0"].contains(&line);
            assert_eq!(runner.run_line(line.as_bytes()) != "bad", is_good, "{line}");
        }
        for line in ["f", "o", "M", "O", "K 3 7", "N 9 9 9 9"] {
            assert_ne!(runner.run_line(line.as_bytes()), "bad", "{line}");
        }
        let bad = "M 1/O 1/F/F 1 1/F  1/F 18446744073709551616/K 512 0/K 0 256/K 0/H/W 1/R/S/X 1/\
                   N 1 1 1/N 1 1 1 1 1/P 4096 0/P 0 256/P 0/D/D 1 1/B 1/G 1/ M/M /A/C/E/I/J/L/Q/T/U/V/Y/Z/m";
        for line in bad.split('/') {
            let (store, copy) = (runner.store.clone(), runner.copy.clone());
            let held = runner.held.clone();
            assert_eq!(runner.run_line(line.as_bytes()), "bad", "{line}");
            assert!(runner.store == store && runner.copy == copy && runner.held == held);
        }
        // Leading zeros are not bad.
        for line in [
            "F 0001",
            "K 00511 0255",
            "H 18446744073709551615",
            "P 4095 255",
        ] {
            assert_ne!(runner.run_line(line.as_bytes()), "bad", "{line}");
        }
    }

    /// A copy of a fresh log over home as `a` makes it, opened.
    fn fresh_copy(frames: u64) -> CopyStore {
        let home = Store::new(8, 4, frames).home;
        let mut copy = CopyStore::new(&[0; 8 * BLOCK_SIZE], &home, frames);
        let (state, answer) = recovery::open_copy(&copy.log, &copy.home, &mut copy.frames, CHOICE);
        assert_eq!(answer, Ok(0));
        copy.state = state;
        copy
    }

    fn feed_bytes(copy: &mut CopyStore, bytes: &[u8]) -> Result<Fed, (u64, u64)> {
        let CopyStore {
            state,
            log,
            home,
            frames,
            ..
        } = copy;
        copies::feed(state, log, home, frames, bytes, CHOICE)
            .map_err(|RefusedFeed { refusal, place }| (refusal.number(), place))
    }

    fn feed(copy: &mut CopyStore, block: &Block) -> Result<Fed, (u64, u64)> {
        feed_bytes(copy, &encode(block))
    }

    fn take(copy: &mut CopyStore, blocks: &[Block]) {
        for block in blocks {
            assert_eq!(feed(copy, block), Ok(Fed::Taken));
        }
    }

    /// A byte of each half of page 1 becomes 9.
    fn both_halves() -> [Block; 3] {
        let mut second_half = update(2, 1, 0, 2, 1, 9);
        if let Kind::Update { offset, .. } = &mut second_half.kind {
            *offset = 1023;
        }
        [update(1, 1, 0, 1, 1, 9), second_half, commit(3, 1, 1, 2)]
    }

    /// Cases 1 to 6 byte by byte: what each call stores, and the state that it leaves.
    #[test]
    fn stores_of_a_clean() {
        let mut copy = fresh_copy(2);
        let found = copy.clone();
        let blocks = both_halves();
        take(&mut copy, &blocks[..2]);
        assert_eq!((copy.state.stored, copy.state.next), (2, 3));
        assert!(copy.home == found.home && copy.frames == found.frames);
        take(&mut copy, &blocks[2..]);
        let state = &copy.state;
        assert_eq!((state.stored, state.next, state.committed), (0, 4, 1));
        assert_eq!(state.ended, 1);
        let dirty = DirtyPage {
            page: 1,
            frame: 0,
            first_group: 1,
        };
        assert_eq!(state.dirty, vec![dirty]);
        assert_eq!((copy.frames[0], copy.frames[1023]), (9, 9));
        assert_eq!(copy.frames[1..1023], found.home[1025..2047]);
        assert!(copy.home == found.home);

        let cleaned = clean(4, 4, 1, 1);
        let stored = copy.clone();
        assert_eq!(feed(&mut copy, &cleaned), Ok(Fed::NotYet));
        assert_eq!((copy.home[1024], copy.home[2047]), (9, found.home[2047]));
        assert_eq!(copy.state.cleaning, Cleaning::Second(1));
        assert!(copy.log == stored.log && copy.frames == stored.frames);
        assert_eq!(feed(&mut copy, &cleaned), Ok(Fed::NotYet));
        assert_eq!((copy.home[1024], copy.home[2047]), (9, 9));
        assert_eq!(copy.state.cleaning, Cleaning::Third(1));
        assert!(copy.log == stored.log && copy.state.next == 4);
        assert_eq!(feed(&mut copy, &cleaned), Ok(Fed::Taken));
        assert_eq!(copy.log[4 * BLOCK_SIZE..][..BLOCK_SIZE], encode(&cleaned));
        assert!(copy.state.dirty.is_empty() && copy.state.cleaning == Cleaning::Idle);
        assert_eq!(copy.state.next, 5);

        let home = copy.home.clone();
        take(&mut copy, &[clean(5, 5, 1, 3)]);
        assert!(copy.home == home);
    }

    /// Case 7: the first half of the other page goes home, and the cleaning names that page.
    #[test]
    fn another_page_in_between() {
        let mut copy = fresh_copy(2);
        take(
            &mut copy,
            &[
                update(1, 1, 0, 1, 0, 42),
                update(2, 1, 0, 2, 1, 43),
                commit(3, 1, 1, 2),
            ],
        );
        for _ in 0..2 {
            assert_eq!(feed(&mut copy, &clean(4, 1, 1, 0)), Ok(Fed::NotYet));
        }
        assert_eq!(copy.state.cleaning, Cleaning::Third(0));
        assert_ne!(copy.home[1024], 43);
        assert_eq!(feed(&mut copy, &clean(4, 1, 1, 1)), Ok(Fed::NotYet));
        assert_eq!(copy.state.cleaning, Cleaning::Second(1));
        assert_eq!(copy.home[1024], 43);
        // Refused blocks and blocks had leave it so.
        assert_eq!(feed(&mut copy, &clean(4, 1, 0, 0)), Err((8, 4)));
        assert_eq!(feed(&mut copy, &commit(3, 1, 1, 2)), Ok(Fed::Had));
        assert_eq!(copy.state.cleaning, Cleaning::Second(1));
        // A commit makes it idle, whatever pages it changes.
        take(&mut copy, &[update(4, 1, 1, 1, 0, 1)]);
        assert_eq!(copy.state.cleaning, Cleaning::Idle);
        assert_eq!(feed(&mut copy, &clean(5, 1, 1, 1)), Ok(Fed::NotYet));
        take(&mut copy, &[commit(5, 1, 2, 1)]);
        assert_eq!(copy.state.cleaning, Cleaning::Idle);
        // So does a clean of a page that is not dirty.
        assert_eq!(feed(&mut copy, &clean(6, 1, 2, 1)), Ok(Fed::NotYet));
        take(&mut copy, &[clean(6, 1, 2, 2)]);
        assert_eq!(copy.state.cleaning, Cleaning::Idle);
    }

    /// Case 10 at the states: a copy's opening counts the updates of the half group, a desk's does not.
    #[test]
    fn half_group_at_an_opening() {
        let mut copy = fresh_copy(2);
        take(
            &mut copy,
            &[update(1, 1, 0, 1, 0, 42), update(2, 1, 0, 2, 1, 43)],
        );
        let mut frames = vec![170; 2 * PAGE_SIZE];
        let (again, answer) = recovery::open_copy(&copy.log, &copy.home, &mut frames, CHOICE);
        assert_eq!(answer, Ok(0));
        assert_eq!(again, copy.state);
        assert!(again.is_sound_copy() && !again.is_sound());
        let staging = vec![170; 2 * 472];
        let (desk, answer) = recovery::open(&copy.log, &copy.home, &mut frames, &staging, CHOICE);
        assert_eq!((answer, desk.stored, desk.next), (Ok(0), 0, 3));
        assert!(desk.is_sound() && !desk.is_sound_copy());
        // After a commit or a clean there is none.
        for block in [commit(3, 1, 1, 2), clean(3, 3, 0, 0)] {
            let mut copy = copy.clone();
            take(&mut copy, &[block]);
            let (again, _) = recovery::open_copy(&copy.log, &copy.home, &mut frames, CHOICE);
            assert_eq!((again.stored, again.next), (0, 4));
        }
    }

    /// Cases 11 and 12: 2 before 1, then 13; each wrong length is 1.
    #[test]
    fn refusals_before_the_block() {
        let mut copy = fresh_copy(2);
        let block = encode(&update(1, 1, 0, 1, 0, 42)).to_vec();
        let lengths = [(4095, 4096, 2048, 512), (4096, 4095, 2048, 512)];
        let more = [(4096, 4096, 1024, 512), (4096, 4096, 2048, 511)];
        for (log, home, frames, bytes) in lengths.into_iter().chain(more) {
            for zero_state in [false, true] {
                let mut state = match zero_state {
                    true => State::all_zero(),
                    false => copy.state.clone(),
                };
                let answer = copies::feed(
                    &mut state,
                    &mut copy.log[..log],
                    &mut copy.home[..home],
                    &mut copy.frames[..frames],
                    &block[..bytes],
                    CHOICE,
                );
                let refusal = match zero_state {
                    true => Refusal::NotSound,
                    false => Refusal::WrongLength,
                };
                assert_eq!(answer, Err(RefusedFeed { refusal, place: 0 }));
            }
        }
        let mut longer = block.clone();
        longer.push(0);
        assert_eq!(feed_bytes(&mut copy, &longer), Err((1, 0)));
        assert_eq!(feed_bytes(&mut copy, &[0; 512]), Err((13, 0)));
        assert_eq!(feed_bytes(&mut copy, &block), Ok(Fed::Taken));
    }

    /// Every call of a desk refuses a copy's state with 2, and the feed a desk's; Read and Settled take both.
    #[test]
    fn whose_state_it_is() {
        let mut copy = fresh_copy(2);
        take(&mut copy, &both_halves());
        let mut desk = Store::new(8, 4, 2);
        desk.log.clone_from(&copy.log);
        desk.home.clone_from(&copy.home);
        let Store {
            log,
            home,
            frames,
            staging,
            ..
        } = &mut desk;
        let state = &mut copy.state;
        let not_sound = Refusal::NotSound;
        assert_eq!(calls::begin(state, 1), Err(not_sound));
        assert_eq!(
            calls::describe(state, staging, 0, 0, &[1], CHOICE),
            Err(not_sound)
        );
        assert_eq!(calls::end(state), Err(not_sound));
        assert_eq!(
            calls::log_step(state, log, home, frames, staging, CHOICE),
            Err(not_sound)
        );
        assert_eq!(calls::clean_step(state, log, home, frames), Err(not_sound));
        assert!(calls::read(state, home, frames, 1).is_ok());
        assert_eq!(calls::settled(state, 1), Ok(true));
        assert_eq!(calls::settled(state, 2), Err(Refusal::OutOfRange));

        let (mut state, answer) = recovery::open(log, home, frames, staging, CHOICE);
        assert_eq!(answer, Ok(1));
        let block = encode(&clean(4, 4, 1, 1));
        let refused = copies::feed(&mut state, log, home, frames, &block, CHOICE).unwrap_err();
        assert_eq!((refused.refusal, refused.place), (not_sound, 0));
        assert!(calls::read(&state, home, frames, 1).is_ok());
        assert_eq!(calls::settled(&state, 1), Ok(true));
    }

    /// When a copy's state is sound, clause by clause.
    #[test]
    fn soundness_of_a_copy() {
        let mut copy = fresh_copy(2);
        take(&mut copy, &both_halves());
        take(&mut copy, &[update(4, 1, 1, 1, 0, 1)]);
        let sound = copy.state;
        assert!(sound.is_sound_copy() && sound.is_readable());
        let with = |change: &dyn Fn(&mut State)| {
            let mut state = sound.clone();
            change(&mut state);
            assert_eq!(
                state.is_readable(),
                state.is_sound_copy() || state.is_sound()
            );
            state.is_sound_copy()
        };
        let update = StagedUpdate {
            page: 0,
            offset: 0,
            length: 1,
            area: 0,
        };
        let unsound: [&dyn Fn(&mut State); 17] = [
            &|s| s.copy = false,
            &|s| s.slots = 7,
            &|s| s.pages = 0,
            &|s| s.frames = 33,
            &|s| s.dirty[0].page = 4,
            &|s| s.dirty[0].frame = 2,
            &|s| s.dirty[0].first_group = 0,
            &|s| s.dirty[0].first_group = 5,
            &|s| s.dirty.push(s.dirty[0].clone()),
            // The ticket 1 is below the half group's start 4, and not below 1.
            &|s| s.stored = 4,
            &|s| s.stored = 9,
            &|s| s.ended = 2,
            &|s| s.queue.push(vec![update.clone()]),
            &|s| {
                s.open = Some(OpenTransaction {
                    reserved: 1,
                    updates: Vec::new(),
                })
            },
            &|s| s.cleaning = Cleaning::Third(0),
            // Page 1 is dirty since block 1: H + D is 9.
            &|s| s.next = 9,
            &|s| {
                s.next = (1 << 48) + 1;
                s.dirty.clear();
            },
        ];
        for (number, change) in unsound.iter().enumerate() {
            assert!(!with(*change), "change {number}");
        }
        let still_sound: [&dyn Fn(&mut State); 6] = [
            &|s| s.stored = 0,
            &|s| s.stored = 3,
            &|s| s.next = 8,
            &|s| s.cleaning = Cleaning::First(1),
            &|s| s.cleaning = Cleaning::Third(1),
            &|s| {
                s.next = 1 << 48;
                s.dirty.clear();
            },
        ];
        for (number, change) in still_sound.iter().enumerate() {
            assert!(with(*change), "change {number}");
        }
        // More stored updates than a group can have, in a larger log.
        assert!(with(&|s| {
            s.slots = 64;
            s.next = 40;
            s.stored = 38;
        }));
        assert!(!State::all_zero().is_sound_copy() && !State::all_zero().is_readable());
    }

    /// From a state with a cleaning at its first store, which no call leaves, the first half comes first.
    #[test]
    fn a_cleaning_at_its_first_store() {
        let mut copy = fresh_copy(2);
        take(&mut copy, &both_halves());
        copy.state.cleaning = Cleaning::First(1);
        assert_eq!(feed(&mut copy, &clean(4, 4, 1, 1)), Ok(Fed::NotYet));
        assert_eq!(copy.state.cleaning, Cleaning::Second(1));
    }

    /// The last sequence is taken; then there is no next one.
    #[test]
    fn the_last_sequence() {
        let mut copy = fresh_copy(2);
        let last = (1 << 48) - 1;
        copy.state.next = last;
        assert_eq!(
            feed(&mut copy, &clean(last - 1, last - 1, 0, 0)),
            Ok(Fed::Had)
        );
        take(&mut copy, &[clean(last, last, 0, 0)]);
        assert_eq!(copy.state.next, last + 1);
        assert_eq!(feed(&mut copy, &clean(last, last, 0, 0)), Ok(Fed::Had));
        assert_eq!(
            feed(&mut copy, &clean(last + 1, last + 1, 0, 0)),
            Err((13, 0))
        );
    }

    /// A group of 16 updates, the most there are; a seventeenth index is no block.
    #[test]
    fn the_longest_group() {
        let home = Store::new(64, 16, 8).home;
        let mut copy = CopyStore::new(&[0; 64 * BLOCK_SIZE], &home, 8);
        let (state, _) = recovery::open_copy(&copy.log, &copy.home, &mut copy.frames, CHOICE);
        copy.state = state;
        for index in 1..=16 {
            take(&mut copy, &[update(index, 1, 0, index, index % 8, 7)]);
        }
        assert_eq!(feed(&mut copy, &update(17, 1, 0, 17, 0, 7)), Err((13, 0)));
        assert_eq!(feed(&mut copy, &update(17, 1, 0, 16, 0, 7)), Err((8, 17)));
        take(&mut copy, &[commit(17, 1, 1, 16)]);
        assert_eq!(copy.state.dirty.len(), 8);
    }
}
