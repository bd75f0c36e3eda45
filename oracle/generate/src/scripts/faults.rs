//! Calls with two things wrong at once: the earlier rule answers.

use front::replay::call;
use wire::{Entry, Key, Message};

use super::{ONE, Script, TIME, put};
use crate::stream::{Stream, key, longs};

/// Two things wrong in one call: the earlier rule answers.
pub fn two_faults() -> Stream {
    let (mut t, a) = Script::pair(3);
    let none = key("none", 0);
    let nan = 0x7fc0_0000;
    // 22 before 17 and 18; 17 before 19; 18 before 19; 19 before 20.
    t.s.write(1, &none, 1, put(1, nan));
    t.s.write(2, &a, 1, put(1, nan));
    t.s.write(1, &none, 1, put(1, ONE));
    t.s.now = 5000;
    t.s.write(2, &a, 1, put(1, ONE));
    t.s.write(1, &a, 2, put(1, ONE));
    t.s.write(1, &a, 1, put(1, ONE));
    t.s.search(1, &a, 1, 1, vec![ONE], 0);
    t.s.search(1, &a, 0, 1, vec![ONE], 0);
    t.s.search(1, &none, 1, 1, vec![nan], 0);
    t.s.now = 5;
    t.s.write(1, &a, 1, put(1, ONE));
    // 21 before 22; a time above the limit is 21 and counted, a time at it is read.
    t.s.now = TIME + 1;
    t.s.write(1, &a, 1, put(1, nan));
    t.s.search(1, &none, 1, 1, vec![nan], 0);
    t.s.wait(1, &none, 1, 1);
    t.s.shown(1, 0);
    t.s.node(1);
    t.s.now = TIME;
    t.s.write(1, &a, 1, put(1, ONE));
    t.s.wait(1, &a, 1, 0);
    t.s.now = 5;
    t.s.call(call::SEARCH, 1, vec![0, 0, 0]);
    t.s.call(call::SEARCH, 1, vec![0, 0, 0, 0]);
    t.s.call(call::WRITE, 1, vec![]);
    t.s.call(call::APPLY, 0, vec![1]);
    t.s.node(1);
    entries(&mut t, &a);
    acks(&mut t, &a);
    grants(&mut t);
    t.s.held(1, &a);
    t.s.held(2, &a);
    t.s
}

/// 22 before StaleEpoch and before what is already held; operands of another length.
fn entries(t: &mut Script, a: &Key) {
    let nan = 0x7fc0_0000;
    for (shard, epoch, offset) in [(key("none", 0), 1, 1), (a.clone(), 9, 1), (a.clone(), 0, 7)] {
        let op = put(1, nan);
        t.s.message(
            2,
            &Message::Replicate {
                key: shard.clone(),
                epoch,
                offset,
                op: op.clone(),
            },
        );
        let good = Entry {
            epoch,
            offset: 1,
            op: put(1, ONE),
        };
        let bad = Entry { epoch, offset, op };
        t.s.message(
            2,
            &Message::CopyShard {
                key: shard,
                epoch,
                entries: vec![good, bad],
            },
        );
    }
    t.s.held(2, a);
    // A message of another kind, and none.
    for call in [
        call::WRITE,
        call::REPLICATE,
        call::NEW_EPOCH,
        call::COPY_SHARD,
    ] {
        t.s.call(call, 1, wire::write(&Message::Stored(1)));
        t.s.call(call, 1, vec![]);
    }
    let mut unclean = wire::key(a);
    unclean[32] = b'x';
    for call in [call::HELD, call::REPLACEMENT, call::WAIT, call::STEP] {
        t.s.call(call, 1, unclean.clone());
    }
    t.s.call(call::HELD, 1, wire::key(a)[..36].to_vec());
    t.s.call(call::SHOWN, 1, vec![0; 9]);
    t.s.call(call::SHOWN, 1, vec![0; 7]);
    t.s.call(call::NODE, 1, vec![0]);
    t.s.call(call::MAP, 0, vec![0]);
    let mut step = [wire::key(a), longs(&[1, 2]), vec![2, 0]].concat();
    t.s.call(call::STEP, 1, step.clone());
    step[53..].copy_from_slice(&[0, 2]);
    t.s.call(call::STEP, 1, step);
    for tail in [[0x16, 0], [0x19, 0], [0x17, 2]] {
        let outcome = [wire::key(a), longs(&[1, 2]), tail.to_vec()].concat();
        t.s.call(call::OUTCOME, 1, outcome);
    }
    let ack = [wire::key(a), longs(&[1, 2]), vec![3]].concat();
    t.s.call(call::ACK, 1, [ack, wire::write(&Message::Gap(1))].concat());
}

/// 21 before all, a foreign shard or epoch before 26, 26 before a step down.
fn acks(t: &mut Script, a: &Key) {
    let none = key("none", 0);
    let stale = Message::StaleEpoch(9);
    for (key, epoch, peer) in [(&none, 1, 2), (a, 2, 2), (a, 1, 5), (a, 1, 1)] {
        t.s.ack(1, key, epoch, peer, 1, &Message::Gap(0));
        t.s.ack(1, key, epoch, peer, 0, &Message::Stored(TIME + 1));
        t.s.ack(1, key, epoch, peer, 1, &Message::Adopted(TIME + 1));
        t.s.ack(1, key, epoch, peer, 2, &stale);
    }
    // Kinds that a step does not get; the limit itself; unalign after a Send alone.
    t.s.ack(1, a, 1, 2, 0, &Message::Stored(1));
    t.s.ack(1, a, 1, 2, 1, &Message::Adopted(1));
    t.s.ack(1, a, 1, 2, 2, &Message::Gap(1));
    t.s.ack(1, a, 1, 2, 0, &Message::Adopted(TIME));
    t.s.held(1, a);
    t.s.ack(1, a, 1, 2, 0, &Message::StaleEpoch(1));
    t.s.held(1, a);
    t.s.ack(1, a, 1, 2, 1, &Message::StaleEpoch(0));
    t.s.held(1, a);
    t.s.ack(1, a, 1, 2, 1, &Message::Gap(TIME));
    t.s.ack(1, a, 1, 2, 1, &Message::Stored(4));
    t.s.held(1, a);
    t.s.ack(1, a, 1, 2, 0, &Message::Adopted(3));
    t.s.held(1, a);
    t.s.ack(1, a, 1, 2, 0, &Message::StaleEpoch(2));
    t.s.ack(1, a, 1, 2, 1, &stale);
    t.s.held(1, a);
    t.s.shown(1, 0);
}

/// Times of a grant and of the settings at the limit and above it.
fn grants(t: &mut Script) {
    t.s.make(3, [3, 7, TIME, TIME + 1, 0]);
    t.s.make(4, [4, 7, TIME + 1, 0, 0]);
    t.s.grant(3, 7, TIME + 1);
    t.s.grant(3, 8, TIME);
    t.s.node(3);
    t.s.grant(3, 7, TIME);
    t.s.grant(3, 7, 5);
    t.s.node(3);
    t.s.grant(4, 7, 5);
    t.s.wait(3, &key("none", 0), 1, 1);
    t.s.wait(4, &key("none", 0), 1, 1);
    t.s.node(5);
    t.s.node(0);
    t.s.make(0, [1; 5]);
    t.s.call(call::MAKE, 5, longs(&[1, 2, 3, 4]));
    t.s.call(call::PLACE, 9 - 1, vec![1; 7]);
}
