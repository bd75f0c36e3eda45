//! The starred cases of the log, and every remembered reason.

use wire::{Entry, Message};

use super::{ONE, Script, put};
use crate::maps;
use crate::stream::{Stream, key};

/// The starred cases of the log: entries of epochs 1, 1, 2 against three tables, and epochs.
pub fn starred() -> Stream {
    let mut t = Script::new();
    let a = key("a", 0);
    let log = |t: &mut Script, slot: u8| {
        t.s.make(slot, [u64::from(slot), 7, 1000, 100, 1]);
        t.new_epoch(slot, &a, 2, 0, &[]);
        let entries = [(1, 1), (1, 2), (2, 3)].map(|(epoch, offset)| Entry {
            epoch,
            offset,
            op: put(offset, ONE),
        });
        let message = Message::CopyShard {
            key: a.clone(),
            epoch: 2,
            entries: entries.to_vec(),
        };
        t.s.message(slot, &message);
    };
    for slot in 1..=6 {
        log(&mut t, slot);
    }
    t.new_epoch(1, &a, 3, 5, &[(1, 2), (3, 5)]);
    t.new_epoch(2, &a, 3, 1, &[(1, 2), (3, 5)]);
    t.new_epoch(3, &a, 3, 5, &[]);
    t.new_epoch(4, &a, 2, 1, &[]);
    t.new_epoch(5, &a, 1, 5, &[(1, 2), (2, 3)]);
    t.new_epoch(6, &a, 3, 5, &[(2, 1), (1, 2), (2, 9)]);
    let replicate = Message::Replicate {
        key: a.clone(),
        epoch: 3,
        offset: 4,
        op: put(9, ONE),
    };
    t.s.message(4, &replicate);
    t.s.message(1, &replicate);
    (1..=6).for_each(|slot| drop(t.s.held(slot, &a)));
    // An empty CopyShard at any epoch, and to a shard that is not held.
    for epoch in [0, 2, 9] {
        t.copy(4, &a, epoch, 0..0);
        t.copy(4, &key("none", 0), epoch, 0..0);
    }
    t.s
}

/// Every remembered rejection with its operands, each under a client of its own, and the map.
pub fn sessions() -> Stream {
    let mut s = Stream::new();
    let (before, rejected) = maps::reasons();
    for (n, command) in before.into_iter().enumerate() {
        s.apply(1, 1 + n as u64, command);
    }
    for (n, command) in rejected.into_iter().enumerate() {
        s.apply(2 + n as u64, 1, command);
    }
    s.map();
    s
}
