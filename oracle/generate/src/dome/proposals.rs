//! Proposals on their way to the map, their outcomes, and promotions.

use wire::{Change, Command, Key};

use super::{Dome, Proposal};

impl Dome {
    pub(super) fn propose(&mut self, slot: u8, key: Key, epoch: u64, peer: u64, code: u8) {
        let change = Change {
            key,
            node: peer,
            epoch,
        };
        self.proposals.push(Proposal { slot, change, code });
    }

    /// A proposal arrives, or times out and may yet arrive, or never does.
    pub(super) fn arrive(&mut self) {
        if let Some(proposal) = self.stray.pop_if(|_| self.rng.once_in(3)) {
            self.commit(&proposal);
            return;
        }
        if self.proposals.is_empty() {
            return;
        }
        let place = self.rng.below(self.proposals.len());
        let proposal = self.proposals.remove(place);
        if self.rng.once_in(6) {
            // It timed out. Perhaps it is still on its way, and its outcome will not matter.
            self.outcomes.push((proposal.clone(), false));
            if self.rng.once_in(2) {
                self.stray.push(proposal);
            }
            return;
        }
        let applied = self.commit(&proposal);
        let lost = self.rng.once_in(8);
        self.outcomes.push((proposal, applied && !lost));
    }

    /// The map takes a proposal; whether it was applied.
    pub(super) fn commit(&mut self, proposal: &Proposal) -> bool {
        let change = proposal.change.clone();
        let command = match proposal.code {
            0x17 => Command::Shrink(change),
            _ => Command::Expand(change),
        };
        self.seqs += 1;
        let client = 2000 + u64::from(proposal.slot);
        let answer = self.stream.apply(client, self.seqs, command);
        answer.contains(" applied ")
    }

    pub(super) fn outcome(&mut self) {
        if self.outcomes.is_empty() {
            return;
        }
        let place = self.rng.below(self.outcomes.len());
        let (p, applied) = self.outcomes.remove(place);
        let Change { key, node, epoch } = p.change;
        self.stream
            .outcome(p.slot, &key, epoch, node, p.code, applied);
    }

    pub(super) fn promote(&mut self) {
        let key = self.any_key();
        let shard = front::convert::key(&key);
        let Some(info) = self.stream.replay.map.machine.map().shards.get(&shard) else {
            return;
        };
        let epoch = info.epoch.0;
        let members: Vec<u64> = info.in_sync.iter().map(|n| n.0).collect();
        if !members.is_empty() {
            let node = *self.rng.pick(&members);
            self.command(Command::Promote(Change { key, node, epoch }));
        }
    }
}
