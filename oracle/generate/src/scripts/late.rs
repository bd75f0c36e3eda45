//! Alignments that come late or again.

use wire::Message;

use super::{ONE, Script, put};
use crate::dome::unhex;
use crate::stream::{Stream, key};

/// A late alignment: NewEpoch at the replica's own epoch, repeated and behind entries of that epoch,
/// at a backup, at a shard that it began, at the primary itself and behind a higher one.
pub fn late_alignment() -> Stream {
    let (mut t, a) = Script::pair(1);
    t.s.write(1, &a, 1, put(1, ONE));
    t.promote(&a, 1, 1);
    t.s.shown(1, 0);
    let align = t.s.step(1, &a, 2, 2, 0);
    let align = unhex(align.trim().trim_start_matches("align "));
    t.s.bytes(2, align.clone());
    t.s.bytes(2, align.clone());
    t.s.ack(1, &a, 2, 2, 0, &Message::Adopted(0));
    t.s.write(1, &a, 2, put(2, ONE));
    let copy = t.s.step(1, &a, 2, 2, 0);
    let copy = unhex(copy.trim().trim_start_matches("copy "));
    t.s.bytes(2, copy.clone());
    // The alignment again: nothing is cut, and the answer is the last offset.
    t.s.bytes(2, align.clone());
    t.new_epoch(2, &a, 2, 0, &[]);
    t.s.held(2, &a);
    // An entry behind it, the batch once more, and the table of another log.
    t.s.message(
        2,
        &Message::Replicate {
            key: a.clone(),
            epoch: 2,
            offset: 3,
            op: put(3, ONE),
        },
    );
    t.s.bytes(2, copy);
    t.new_epoch(2, &a, 2, 9, &[(2, 9)]);
    t.s.held(2, &a);
    // Its own time as primary: the check for a primary is in front; then epochs around the own one.
    t.promote(&a, 2, 2);
    t.s.shown(2, 0);
    for epoch in [2, 3] {
        t.new_epoch(2, &a, epoch, 0, &[]);
    }
    t.s.ack(2, &a, 3, 1, 0, &Message::StaleEpoch(5));
    for epoch in [2, 3, 4] {
        t.new_epoch(2, &a, epoch, 1, &[(1, 1)]);
        t.s.held(2, &a);
    }
    // A shard that NewEpoch begins, at epoch 0 and above.
    let b = key("b", 0);
    for epoch in [0, 0, 1, 1] {
        t.new_epoch(2, &b, epoch, 0, &[]);
        t.copy(2, &b, epoch, 1..2);
    }
    t.s.held(2, &b);
    t.s
}
