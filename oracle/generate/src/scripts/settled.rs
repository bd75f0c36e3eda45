//! What the Rust does and a reader easily misses.

use wire::{Change, Command, Key, Message};

use super::{ONE, Script, put};
use crate::stream::Stream;

/// What the Rust does and a reader easily misses: a peer added again, late replies of a removed
/// peer, starting over, an outcome that names the node itself, equal clocks.
pub fn settled() -> Stream {
    let (mut t, a) = Script::pair(1);
    t.s.write(1, &a, 1, put(3, ONE));
    // A peer removed and added again gets no second worker; its row stays.
    t.remove(&a, 2, 1);
    t.s.shown(1, 0);
    t.s.step(1, &a, 1, 2, 0);
    t.s.ack(1, &a, 1, 2, 0, &Message::Adopted(0));
    t.s.held(1, &a);
    // A late reply of the removed peer brings it into the ack set.
    t.s.ack(1, &a, 1, 2, 1, &Message::Stored(1));
    t.s.held(1, &a);
    t.s.outcome(1, &a, 1, 2, 0x18, false);
    t.add(&a, 2, 7, 1);
    t.s.shown(1, 0);
    t.s.held(1, &a);
    // The removed peer itself lost the shard, and has it again with nothing.
    t.s.shown(2, 0);
    t.s.held(2, &a);
    // Timeouts: equal is not yet over, a clock that ran back counts as no time.
    t.s.write(1, &a, 1, put(4, ONE));
    for now in [500, 600, 20] {
        t.s.now = now;
        t.s.wait(1, &a, 1, 2);
    }
    // The first write is done although the peer lacks the second and is to leave.
    t.s.now = 601;
    t.s.wait(1, &a, 1, 1);
    t.s.wait(1, &a, 1, 2);
    t.s.held(1, &a);
    // An outcome that is not applied leaves the peer where it is, and it is proposed again.
    t.s.outcome(1, &a, 1, 2, 0x17, false);
    t.s.held(1, &a);
    t.s.wait(1, &a, 1, 2);
    t.s.outcome(1, &a, 1, 2, 0x17, true);
    t.s.held(1, &a);
    t.s.wait(1, &a, 1, 2);
    // The lease ends at 1001, which is no longer within it.
    for now in [1000, 1001] {
        t.s.now = now;
        t.s.write(1, &a, 1, put(5, ONE));
        t.s.search(1, &a, 1, 9, vec![ONE], 9);
    }
    t.s.now = 601;
    // The node's own outcome, and a step for itself.
    t.s.outcome(1, &a, 1, 1, 0x17, true);
    t.s.step(1, &a, 1, 1, 0);
    t.s.held(1, &a);
    t.s.write(1, &a, 1, put(4, ONE));
    starting_over(&mut t, &a);
    t.s
}

/// A node marked dead starts over: nothing held, no lease, version 0, its count kept.
fn starting_over(t: &mut Script, a: &Key) {
    t.s.write(2, a, 1, put(1, ONE));
    t.command(Command::MarkNodeDead {
        node: 2,
        incarnation: 7,
    });
    t.s.shown(2, 7);
    t.s.node(2);
    t.s.shown(2, 8);
    t.s.node(2);
    t.s.grant(2, 7, 3);
    t.s.node(2);
    t.s.shown(2, 9);
    t.s.node(2);
    t.register(2, 8);
    t.s.shown(2, 9);
    t.s.held(2, a);
    // A version that falls: the node that knows a later one takes no notice.
    t.s.shown(1, 0);
    t.s.node(1);
    let change = Change {
        key: a.clone(),
        node: 1,
        epoch: 1,
    };
    t.s.apply_at(2, 5, 1, Command::Promote(change));
    t.s.shown(1, 0);
    t.s.node(1);
    t.s.map();
    t.s.replacement(a);
    t.s.place(16, 1);
    t.s.place(17, 1);
    t.s.place(17, 3);
    t.s.place(0, 1);
    t.s.place(2, 0);
    t.s.place(2, 9);
}
