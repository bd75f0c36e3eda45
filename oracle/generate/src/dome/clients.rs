//! What clients do: writes, searches, and waits for acks.

use wire::Op;

use super::{Accepted, Dome};
use crate::floats;

impl Dome {
    pub(super) fn op(&mut self) -> Op {
        let id = self.rng.below(6) as u64;
        if self.rng.once_in(4) {
            return Op::Delete { id };
        }
        let kind = *self.rng.pick(&floats::KINDS);
        let length = 1 + self.rng.below(3);
        let mut vector = floats::vector(&mut self.rng, kind, length);
        if self.rng.once_in(40) {
            vector[0] = *self.rng.pick(&floats::OUTSIDE);
        }
        Op::Put { id, vector }
    }

    pub(super) fn write(&mut self) {
        let key = self.any_key();
        let (slot, epoch) = self.primary(&key);
        let op = self.op();
        let answer = self.stream.write(slot, &key, epoch, op.clone());
        if let Some(offset) = answer.strip_prefix("accepted ") {
            let offset = offset.trim().parse().expect("an offset");
            self.writes.push(Accepted {
                slot,
                key,
                epoch,
                offset,
                op,
            });
        }
    }

    pub(super) fn search(&mut self) {
        let key = self.any_key();
        let (slot, epoch) = self.primary(&key);
        let kind = *self.rng.pick(&floats::KINDS);
        let length = 1 + self.rng.below(3);
        let mut vector = floats::vector(&mut self.rng, kind, length);
        if self.rng.once_in(40) {
            vector[0] = *self.rng.pick(&floats::OUTSIDE);
        }
        let k = self.rng.below(7) as u32;
        let room = if self.rng.once_in(6) { k / 2 } else { 8 };
        self.stream.search(slot, &key, epoch, k, vector, room);
    }

    pub(super) fn wait(&mut self) {
        if self.writes.is_empty() {
            return;
        }
        let recent = self.rng.below(self.writes.len().min(4));
        let place = self.writes.len() - 1 - recent;
        let write = self.writes[place].clone();
        let (slot, key, epoch) = (write.slot, write.key.clone(), write.epoch);
        let answer = self.stream.wait(slot, &key, epoch, write.offset);
        if answer.starts_with("done") {
            self.acknowledged.push(write);
        }
        for line in answer.lines() {
            if let Some(peer) = line.strip_prefix("shrink ") {
                let peer = peer.parse().expect("a node");
                self.propose(slot, key.clone(), epoch, peer, 0x17);
            }
        }
    }
}
