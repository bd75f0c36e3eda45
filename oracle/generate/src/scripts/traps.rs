//! Two ways in which a shard comes to a stand with both nodes healthy, and the promotion that helps
//! (docs/DIFFERENCES.md).

use wire::{Change, Command, Key, Message};

use super::{ONE, Script, put};
use crate::stream::Stream;

const SHRINK: u8 = 0x17;
const EXPAND: u8 = 0x18;

impl Script {
    fn change(&mut self, command: u8, key: &Key, node: u64, epoch: u64) -> String {
        let key = key.clone();
        let change = Change { key, node, epoch };
        self.command(match command {
            SHRINK => Command::Shrink(change),
            _ => Command::Expand(change),
        })
    }

    /// A step of node 1's worker for node 2, its request carried over and the reply back.
    fn carry(&mut self, key: &Key, epoch: u64) -> String {
        let sent = self.s.step(1, key, epoch, 2, 0);
        let (kind, request) = sent.trim().split_once(' ').expect("a request");
        let step = ["align", "replicate", "copy"]
            .iter()
            .position(|w| *w == kind);
        let answer = self.s.bytes(2, crate::dome::unhex(request));
        let (word, number) = answer.trim().split_once(' ').expect("a reply");
        let number = number.parse().expect("a number");
        let reply = match word {
            "adopted" => Message::Adopted(number),
            _ => Message::Stored(number),
        };
        let step = step.expect("a listed word") as u8;
        self.s.ack(1, key, epoch, 2, step, &reply)
    }

    /// A write that node 2 does not get in time, so that its Shrink is proposed.
    fn shrink_proposed(&mut self, key: &Key) {
        self.carry(key, 1);
        self.s.write(1, key, 1, put(1, ONE));
        for now in [10, 111] {
            self.s.now = now;
            self.s.wait(1, key, 1, 1);
        }
    }

    /// Node 1 is promoted again: it aligns node 2, which is expanded.
    fn promoted_again(&mut self, key: &Key) {
        self.promote(key, 1, 1);
        self.s.shown(1, 0);
        self.carry(key, 2);
        self.change(EXPAND, key, 2, 1);
        self.change(EXPAND, key, 2, 2);
        self.s.outcome(1, key, 2, 2, EXPAND, true);
        self.s.write(1, key, 2, put(3, ONE));
        self.carry(key, 2);
        self.s.wait(1, key, 2, 2);
        self.s.map();
        self.s.held(1, key);
    }
}

/// Node 2 has caught up when its Shrink is applied: nothing is left to send, so that no ack brings
/// it back, and of two nodes in sync there is one.
pub fn caught_up_during_shrink() -> Stream {
    let (mut t, a) = Script::pair(2);
    t.shrink_proposed(&a);
    t.carry(&a, 1);
    t.s.wait(1, &a, 1, 1);
    t.change(SHRINK, &a, 2, 1);
    t.s.outcome(1, &a, 1, 2, SHRINK, true);
    for now in [112, 900] {
        t.s.now = now;
        t.s.step(1, &a, 1, 2, 0);
        t.s.write(1, &a, 1, put(2, ONE));
    }
    t.s.held(1, &a);
    t.promoted_again(&a);
    t.s
}

/// Node 2 has caught up again, its Expand is lost and told as a timeout: it is in the ack set and
/// not in sync, so that its Shrink is rejected when it fails.
pub fn lost_expand() -> Stream {
    let (mut t, a) = Script::pair(1);
    t.shrink_proposed(&a);
    t.change(SHRINK, &a, 2, 1);
    t.s.outcome(1, &a, 1, 2, SHRINK, true);
    t.carry(&a, 1);
    t.s.outcome(1, &a, 1, 2, EXPAND, false);
    t.s.ack(1, &a, 1, 2, 1, &Message::Stored(1));
    t.s.write(1, &a, 1, put(2, ONE));
    for now in [200, 301] {
        t.s.now = now;
        t.s.wait(1, &a, 1, 2);
    }
    for now in [302, 900] {
        t.s.now = now;
        t.change(SHRINK, &a, 2, 1);
        t.s.outcome(1, &a, 1, 2, SHRINK, false);
        t.s.wait(1, &a, 1, 2);
    }
    t.s.held(1, &a);
    t.promote(&a, 1, 1);
    t.s.shown(1, 0);
    t.s.wait(1, &a, 1, 2);
    t.s.write(1, &a, 2, put(2, ONE));
    t.s.wait(1, &a, 2, 3);
    t.s.map();
    t.s
}

#[cfg(test)]
mod tests {
    use super::*;

    /// The last answer of a call, by its number in docs/ORACLE.md.
    fn answers(stream: &Stream, call: u8) -> Vec<&str> {
        let all = stream.records.iter().zip(&stream.answers);
        all.filter(|(r, _)| r.call == call)
            .map(|(_, a)| a.trim())
            .collect()
    }

    #[test]
    fn writes_are_refused_until_the_promotion() {
        let stream = caught_up_during_shrink();
        let writes = ["accepted 1", "refused 20", "refused 20", "accepted 2"];
        assert_eq!(answers(&stream, 4), writes);
        let waits = ["waiting 0", "waiting 1\nshrink 2", "done 0", "done 0"];
        assert_eq!(answers(&stream, 9), waits);
    }

    #[test]
    fn no_write_is_acknowledged_until_the_promotion() {
        let stream = lost_expand();
        let asked = "waiting 1\nshrink 2";
        let waits = [
            "waiting 0",
            asked,
            "waiting 0",
            asked,
            asked,
            asked,
            "refused 18 2",
            "done 0",
        ];
        assert_eq!(answers(&stream, 9), waits);
        let applied = answers(&stream, 1);
        let rejected = applied.iter().filter(|a| a.contains("rejected 14"));
        assert_eq!(rejected.count(), 2);
    }
}
