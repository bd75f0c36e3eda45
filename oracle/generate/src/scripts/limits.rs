//! The node's limits met exactly and passed by one.

use wire::{Command, Message};

use super::{ONE, Script, put};
use crate::stream::{Stream, key};

/// A log of 1,024 entries and the 1,025th by Write, Replicate and CopyShard.
pub fn full_log() -> Stream {
    let (mut t, a) = Script::pair(1);
    t.new_epoch(2, &a, 1, 0, &[]);
    for start in [1, 257, 513] {
        t.copy(2, &a, 1, start..start + 256);
    }
    t.copy(2, &a, 1, 760..1016);
    t.copy(2, &a, 1, 1010..1021);
    // Too many, then held and behind a gap, which do not count; nothing is stored by the first.
    t.copy(2, &a, 1, 1021..1026);
    t.s.node(2);
    t.copy(2, &a, 1, (1018..1021).chain(1030..1040));
    t.copy(2, &a, 1, 1021..1023);
    let replicate = |offset, epoch| Message::Replicate {
        key: key("a", 0),
        epoch,
        offset,
        op: put(5, ONE),
    };
    for (offset, epoch) in [
        (1024, 1),
        (1023, 1),
        (1024, 1),
        (1025, 1),
        (1025, 2),
        (1026, 1),
    ] {
        t.s.message(2, &replicate(offset, epoch));
    }
    t.copy(2, &a, 1, 1024..1026);
    t.copy(2, &a, 1, 1020..1025);
    t.copy(2, &a, 2, 1024..1026);
    t.copy(2, &a, 1, 1026..1027);
    // As primary: no lease comes before a full log, a wrong epoch before both.
    t.promote(&a, 2, 1);
    t.s.shown(2, 0);
    t.s.write(2, &a, 2, put(1, ONE));
    t.s.write(2, &a, 1, put(1, ONE));
    t.s.now = 2000;
    t.s.write(2, &a, 2, put(1, ONE));
    t.s.now = 3;
    t.s.search(2, &a, 2, 9, vec![ONE], 1);
    t.s.search(2, &a, 2, 9, vec![ONE], 0);
    t.s.search(2, &a, 2, 0, vec![ONE], 0);
    // The former primary is aligned and brought up by batches.
    t.s.shown(1, 0);
    t.s.step(2, &a, 2, 1, 0);
    t.new_epoch(1, &a, 2, 1024, &[(1, 1024)]);
    t.s.ack(2, &a, 2, 1, 0, &Message::Adopted(0));
    t.s.step(2, &a, 2, 1, 0);
    t.s.ack(2, &a, 2, 1, 2, &Message::Stored(1023));
    t.s.step(2, &a, 2, 1, 0);
    t.s.ack(2, &a, 2, 1, 2, &Message::Stored(5000));
    t.s.step(2, &a, 2, 1, 0);
    t.new_epoch(2, &a, 3, 3, &[(1, 3)]);
    t.s.held(2, &a);
    t.s.node(2);
    t.s
}

/// Eight shards and the ninth, by map and by NewEpoch; a freed place used again.
pub fn nine_shards() -> Stream {
    let mut t = Script::new();
    t.s.make(1, [1, 7, 1000, 100, 1]);
    t.register(1, 7);
    t.create("a", 0, &[&[1], &[1], &[1], &[1]]);
    t.create("b", 1, &[&[1], &[1], &[1]]);
    t.s.shown(1, 0);
    t.new_epoch(1, &key("z", 0), 0, 9, &[]);
    t.new_epoch(1, &key("z", 1), 4, 9, &[]);
    t.new_epoch(1, &key("z", 0), 5, 9, &[(1, 1)]);
    t.new_epoch(1, &key("z", 0), 4, 9, &[(1, 1)]);
    t.s.node(1);
    // The map has nine shards for this node; z goes only if the map is taken.
    t.create("c", 0, &[&[1], &[1]]);
    t.s.shown(1, 0);
    t.s.node(1);
    t.command(Command::Drop { name: b"a".into() });
    t.s.shown(1, 0);
    t.s.node(1);
    t.s.held(1, &key("a", 0));
    t.s.held(1, &key("z", 0));
    // Three are dropped and six come at once: eight after removals.
    t.command(Command::Drop { name: b"b".into() });
    t.create("d", 0, &[&[1u64] as &[u64]; 6]);
    t.s.shown(1, 0);
    t.s.node(1);
    t.new_epoch(1, &key("d", 9), 1, 0, &[]);
    t.s.held(1, &key("d", 5));
    t.s
}

/// 32 workers of one primary and the 33rd; a removed peer keeps its place.
pub fn many_workers() -> Stream {
    let mut t = Script::new();
    let a = key("a", 0);
    t.s.make(1, [1, 7, 1000, 100, 1]);
    t.register(1, 7);
    t.create("a", 0, &[&[1]]);
    t.s.shown(1, 0);
    for node in 2..=33 {
        t.add(&a, node, 9, 1);
        t.s.shown(1, 0);
        if node < 33 {
            t.remove(&a, node, 1);
        }
    }
    t.s.step(1, &a, 1, 2, 0);
    t.s.step(1, &a, 1, 33, 0);
    t.add(&a, 34, 9, 1);
    t.s.shown(1, 0);
    t.s.node(1);
    t.s.step(1, &a, 1, 33, 0);
    t.s.step(1, &a, 1, 34, 0);
    t.s.ack(1, &a, 1, 34, 0, &Message::Adopted(0));
    t.remove(&a, 34, 1);
    t.add(&a, 2, 9, 1);
    t.s.shown(1, 0);
    // A new epoch begins with fresh workers.
    t.promote(&a, 1, 1);
    t.add(&a, 34, 9, 2);
    t.s.shown(1, 0);
    t.s.held(1, &a);
    t.s
}
