//! What a wild run adds: any command, replies and outcomes out of nowhere, damaged operands.

use front::replay::call;
use wire::{Change, Command, Key, Message};

use super::Dome;
use crate::{damage, maps};

impl Dome {
    /// Changes that a run has not, but calls may meet.
    pub(super) fn disturb(&mut self) {
        let key = self.any_key();
        let (slot, epoch) = self.primary(&key);
        if self.full && self.rng.once_in(3) {
            let key = self.keys[0].clone();
            let (slot, epoch) = self.primary(&key);
            return self.overfill(slot, key, epoch);
        }
        match self.rng.below(12) {
            0..4 => {
                let map = self.stream.replay.map.machine.map().clone();
                let command = maps::command(&mut self.rng, &map);
                self.command(command);
            }
            4 => {
                let (id, incarnation) = self.nodes[usize::from(slot) - 1];
                let command = match self.rng.once_in(2) {
                    true => Command::MarkNodeDead {
                        node: id,
                        incarnation,
                    },
                    false => Command::Register {
                        node: id,
                        address: vec![],
                        incarnation,
                    },
                };
                self.command(command);
                self.show(slot);
            }
            5..7 => {
                let replies = [
                    Message::Stored(self.rng.corner()),
                    Message::Gap(self.rng.corner()),
                    Message::Adopted(self.rng.corner()),
                    Message::StaleEpoch(self.rng.corner()),
                ];
                let peer = self.rng.pick(&self.nodes).0;
                let reply = self.rng.pick(&replies).clone();
                let step = self.rng.below(3) as u8;
                self.stream.ack(slot, &key, epoch, peer, step, &reply);
            }
            7 => {
                let peer = self.rng.pick(&self.nodes).0;
                let code = 0x17 + self.rng.below(2) as u8;
                let applied = self.rng.once_in(2);
                self.stream.outcome(slot, &key, epoch, peer, code, applied);
            }
            8 => self.add_again(key, slot),
            9 => self.any_record(slot),
            10 => {
                let shards = if self.rng.once_in(4) { 15 } else { 0 } + self.rng.below(4);
                let replication = self.rng.below(5);
                self.stream.place(shards as u32, replication as u32);
                self.stream.replacement(&key);
            }
            _ => {
                let bytes = damage::random(&mut self.rng);
                self.stream.bytes(slot, bytes);
            }
        }
    }

    /// A replica is added, and the primary sees it.
    pub(super) fn add_again(&mut self, key: Key, slot: u8) {
        let (node, incarnation) = *self.rng.pick(&self.nodes);
        let shard = front::convert::key(&key);
        let map = self.stream.replay.map.machine.map();
        let epoch = map.shards.get(&shard).map_or(1, |i| i.epoch.0);
        let command = match self.rng.once_in(2) {
            true => Command::Remove(Change { key, node, epoch }),
            false => Command::AddReplica {
                key,
                node,
                incarnation,
                epoch,
            },
        };
        self.command(command);
        self.show(slot);
    }

    /// A call with operands that are cut short, too long or not even its own.
    pub(super) fn any_record(&mut self, slot: u8) {
        let call = self.rng.below(18) as u8;
        let length = self.rng.below(70);
        let operands = match self.rng.once_in(2) {
            true => (0..length).map(|_| self.rng.next() as u8).collect(),
            false => damage::random(&mut self.rng),
        };
        if call != call::MAKE {
            self.stream.call(call, slot, operands);
        }
    }
}
