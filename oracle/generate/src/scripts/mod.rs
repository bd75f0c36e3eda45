//! Streams of `replay` written out, and what they share: a stream with its own client, and a pair
//! of nodes to begin with.

mod chosen;
mod faults;
mod late;
mod limits;
mod lone;
mod replies;
mod settled;
mod traps;

use wire::{Change, Command, Entry, Key, Message, Op, Spec};

use crate::stream::{Stream, key};

pub use chosen::{sessions, starred};
pub use faults::two_faults;
pub use late::late_alignment;
pub use limits::{full_log, many_workers, nine_shards};
pub use lone::lone_entry;
pub use replies::replies;
pub use settled::settled;
pub use traps::{caught_up_during_shrink, lost_expand};

const TIME: u64 = 1 << 62;

/// A stream with its own client.
pub struct Script {
    pub s: Stream,
    seq: u64,
}

impl Script {
    fn new() -> Self {
        Script {
            s: Stream::new(),
            seq: 0,
        }
    }

    fn command(&mut self, command: Command) -> String {
        self.seq += 1;
        self.s.apply(1, self.seq, command)
    }

    fn register(&mut self, node: u64, incarnation: u64) -> String {
        self.command(Command::Register {
            node,
            address: vec![],
            incarnation,
        })
    }

    fn create(&mut self, name: &str, metric: u8, lists: &[&[u64]]) -> String {
        self.command(Command::Create {
            name: name.as_bytes().to_vec(),
            spec: Spec {
                dimension: 1,
                metric,
                shards: lists.len() as u32,
                replication: 8,
            },
            placement: lists.iter().map(|l| l.to_vec()).collect(),
        })
    }

    fn add(&mut self, key: &Key, node: u64, incarnation: u64, epoch: u64) -> String {
        self.command(Command::AddReplica {
            key: key.clone(),
            node,
            incarnation,
            epoch,
        })
    }

    fn remove(&mut self, key: &Key, node: u64, epoch: u64) -> String {
        let key = key.clone();
        self.command(Command::Remove(Change { key, node, epoch }))
    }

    fn promote(&mut self, key: &Key, node: u64, epoch: u64) -> String {
        let key = key.clone();
        self.command(Command::Promote(Change { key, node, epoch }))
    }

    /// Nodes 1 and 2 in slots 1 and 2 with a lease, and shard `a/0` on both, primary 1.
    fn pair(min_in_sync: u64) -> (Self, Key) {
        let mut t = Script::new();
        for n in 1..=2 {
            t.s.make(n as u8, [n, 7, 1000, 100, min_in_sync]);
            t.register(n, 7);
        }
        t.create("a", 0, &[&[1, 2]]);
        for n in 1..=2 {
            t.s.shown(n, 0);
            t.s.grant(n, 7, 1);
        }
        (t, key("a", 0))
    }

    fn new_epoch(&mut self, slot: u8, key: &Key, epoch: u64, end: u64, table: &[(u64, u64)]) {
        self.s.message(
            slot,
            &Message::NewEpoch {
                key: key.clone(),
                epoch,
                end_offset: end,
                epochs: table.to_vec(),
                metric: 0,
            },
        );
    }

    fn copy(&mut self, slot: u8, key: &Key, epoch: u64, offsets: impl Iterator<Item = u64>) {
        let entries = offsets.map(|offset| Entry {
            epoch: epoch.min(1),
            offset,
            op: Op::Delete { id: offset % 3 },
        });
        self.s.message(
            slot,
            &Message::CopyShard {
                key: key.clone(),
                epoch,
                entries: entries.collect(),
            },
        );
    }
}

fn put(id: u64, bits: u32) -> Op {
    Op::Put {
        id,
        vector: vec![bits],
    }
}

const ONE: u32 = 0x3f80_0000;
