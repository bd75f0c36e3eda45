//! How a lone entry goes, by its epoch.

use wire::{Entry, Key, Message};

use super::{ONE, Script, put};
use crate::dome::unhex;
use crate::stream::Stream;

/// A lone entry of an older epoch, of the primary's own and of a newer one, and the alignment after
/// the first.
pub fn lone_entry() -> Stream {
    let (mut t, a) = Script::pair(1);
    t.s.write(1, &a, 1, put(1, ONE));
    t.promote(&a, 1, 1);
    t.s.shown(1, 0);
    t.new_epoch(2, &a, 2, 1, &[(1, 1)]);
    t.s.ack(1, &a, 2, 2, 0, &Message::Adopted(0));
    let copy = t.s.step(1, &a, 2, 2, 0);
    t.s.message(
        2,
        &Message::Replicate {
            key: a.clone(),
            epoch: 2,
            offset: 1,
            op: put(1, ONE),
        },
    );
    t.s.held(2, &a);
    // As a Replicate the entry came under epoch 2, so the next alignment cuts it off; as a CopyShard it stays.
    t.s.make(3, [3, 7, 1000, 100, 1]);
    t.new_epoch(3, &a, 2, 1, &[(1, 1)]);
    let bytes = unhex(copy.trim().trim_start_matches("copy "));
    t.s.bytes(3, bytes);
    for slot in [2, 3] {
        t.new_epoch(slot, &a, 3, 1, &[(1, 1)]);
        t.s.held(slot, &a);
    }
    t.s.ack(1, &a, 2, 2, 2, &Message::Stored(1));
    t.s.write(1, &a, 2, put(2, ONE));
    t.s.step(1, &a, 2, 2, 0);
    t.s.held(1, &a);
    newer_entry(&mut t, &a);
    t.s
}

/// Node 2 has an entry of epoch 9 and becomes primary at epoch 3, which no run comes to.
fn newer_entry(t: &mut Script, a: &Key) {
    let entry = Entry {
        epoch: 9,
        offset: 1,
        op: put(2, ONE),
    };
    t.s.message(
        2,
        &Message::CopyShard {
            key: a.clone(),
            epoch: 3,
            entries: vec![entry],
        },
    );
    t.promote(a, 2, 2);
    t.s.shown(2, 0);
    t.s.ack(2, a, 3, 1, 0, &Message::Adopted(0));
    t.s.step(2, a, 3, 1, 0);
    t.s.ack(2, a, 3, 1, 2, &Message::Stored(1));
    t.s.write(2, a, 3, put(3, ONE));
    t.s.step(2, a, 3, 1, 0);
    t.s.ack(2, a, 3, 1, 0, &Message::Adopted(0));
    t.s.step(2, a, 3, 1, 0);
    t.s.held(2, a);
}
