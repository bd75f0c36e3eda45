//! How a full run begins: logs near their end, and many peers under one primary.

use wire::{Change, Command, Entry, Key, Message, Op};

use super::Dome;

impl Dome {
    /// Entries about the end of a full log, as a primary of `epoch` might send them.
    pub(super) fn overfill(&mut self, slot: u8, key: Key, epoch: u64) {
        let first = 1012 + self.rng.below(14) as u64;
        let count = self.rng.below(12) as u64;
        let op = self.op();
        let message = match count {
            0 => Message::Replicate {
                key,
                epoch,
                offset: first,
                op,
            },
            _ => Message::CopyShard {
                key,
                epoch,
                entries: (first..first + count)
                    .map(|offset| Entry {
                        epoch,
                        offset,
                        op: op.clone(),
                    })
                    .collect(),
            },
        };
        self.stream.message(slot, &message);
    }

    /// Logs of some thousand entries at every node, as if copied at epoch 1.
    pub(super) fn fill(&mut self) {
        let key = self.keys[0].clone();
        let last = 1014 + self.rng.below(12) as u64;
        for slot in 1..=self.nodes.len() as u8 {
            let align = Message::NewEpoch {
                key: key.clone(),
                epoch: 1,
                end_offset: 0,
                epochs: vec![],
                metric: 0,
            };
            self.stream.message(slot, &align);
            for first in [1, 257, 513, 769] {
                let entry = |offset| Entry {
                    epoch: 1,
                    offset,
                    op: Op::Delete { id: offset % 5 },
                };
                let entries = (first..last.min(first + 256)).map(entry).collect();
                let copy = Message::CopyShard {
                    key: key.clone(),
                    epoch: 1,
                    entries,
                };
                self.stream.message(slot, &copy);
            }
        }
    }

    /// Peers that come and go under one primary, some thirty of them.
    pub(super) fn crowd(&mut self) {
        let key = self.keys[0].clone();
        let (slot, _) = self.primary(&key);
        for node in 0..27 + self.rng.below(9) as u64 {
            let (node, epoch) = (100 + node, 1);
            self.command(Command::AddReplica {
                key: key.clone(),
                node,
                incarnation: 1,
                epoch,
            });
            self.show(slot);
            let key = key.clone();
            self.command(Command::Remove(Change { key, node, epoch }));
        }
    }
}
