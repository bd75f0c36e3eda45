//! One node: each call of paper 01 over the unchanged transitions. Refusals 21 and 22 come before
//! the Rust is reached; 23 where the Rust's own answer would pass a limit, the state put back.

use std::collections::BTreeMap;
use std::sync::Arc;

use datanode::node::Node as Rust;
use datanode::node::inside::{self, Asked, Header, Held, Reply, Settings, Started};
use rpc::{
    CopyShard, CopyShardAck, Epoch, Neighbor, NewEpoch, NewEpochAck, Refusal, Replicate,
    ReplicateAck, SearchQuery, SearchResult, ShardKey, ShardMap, Write,
};
use tokio::Task;
use wire::Message;

use crate::{ENTRIES, SHARDS_HELD, TIME, WORKERS, convert};

/// A refusal's number, with the own epoch of 18.
#[derive(Debug, Clone, Copy, PartialEq, Eq)]
pub enum Refused {
    Number(u8),
    NotPrimary(u64),
}

pub type Answer<T> = Result<T, Refused>;

const UNDECODABLE: Refused = Refused::Number(21);
const OUTSIDE: Refused = Refused::Number(22);
const FULL: Refused = Refused::Number(23);
const NO_WORKER: Refused = Refused::Number(26);

impl From<Refusal> for Refused {
    fn from(refusal: Refusal) -> Self {
        match refusal {
            Refusal::UnknownShard => Refused::Number(17),
            Refusal::NotPrimary { epoch } => Refused::NotPrimary(epoch.0),
            Refusal::NoLease => Refused::Number(19),
            Refusal::TooFewInSync => Refused::Number(20),
        }
    }
}

/// The step that an ack answers.
#[derive(Debug, Clone, Copy, PartialEq, Eq)]
pub enum Step {
    Align,
    Replicate,
    Copy,
}

/// Shard, epoch and peer: what a worker or a proposal is known by.
#[derive(Debug, Clone, PartialEq, Eq, PartialOrd, Ord)]
pub struct Peer {
    pub key: ShardKey,
    pub epoch: u64,
    pub peer: u64,
}

pub struct Node {
    rust: Arc<Rust>,
    settings: Settings,
    pub refused: u32,
    /// The worker of each peer that waits for a reply, with the step that it took.
    waiting: BTreeMap<Peer, (Step, Task)>,
    /// The proposals under way: Shrink is `true`.
    proposals: BTreeMap<(Peer, bool), Task>,
}

impl Node {
    pub fn new(settings: Settings) -> Self {
        Node {
            rust: inside::make(&settings),
            settings,
            refused: 0,
            waiting: BTreeMap::new(),
            proposals: BTreeMap::new(),
        }
    }

    pub fn header(&self) -> Header {
        inside::header(&self.rust)
    }

    pub fn held(&self, key: &ShardKey) -> Option<Held> {
        inside::held(&self.rust, key)
    }

    /// Counts a refused Write or Search.
    fn counted<T>(&mut self, answer: Answer<T>) -> Answer<T> {
        if answer.is_err() {
            self.refused = self.refused.saturating_add(1);
        }
        answer
    }

    /// Runs `call`; if more entries than a log holds come of it, puts the state back: 23.
    fn within_log<T>(&self, key: &ShardKey, call: impl FnOnce() -> T) -> Answer<T> {
        let near =
            |extra| inside::last_offset(&self.rust, key).is_some_and(|last| last + extra > ENTRIES);
        let saved = near(wire::BATCH as u64).then(|| inside::save(&self.rust));
        let answer = call();
        if near(0) {
            inside::restore(&self.rust, saved.expect("it was near"));
            return Err(FULL);
        }
        Ok(answer)
    }

    pub fn shown(&mut self, map: &ShardMap, fresh: u64) -> Answer<Vec<Started>> {
        let saved = inside::save(&self.rust);
        let started = inside::show(&self.rust, map.clone(), fresh);
        let header = self.header();
        if header.held > SHARDS_HELD || header.workers > WORKERS {
            inside::restore(&self.rust, saved);
            return Err(FULL);
        }
        Ok(started)
    }

    pub fn grant(&mut self, incarnation: u64, sent: u64) -> Answer<()> {
        if sent > TIME || self.settings.lease > TIME {
            return Err(UNDECODABLE);
        }
        inside::grant(&self.rust, incarnation, sent);
        Ok(())
    }

    pub fn write(&mut self, now: u64, message: &[u8]) -> Answer<u64> {
        let answer = self.try_write(now, message);
        self.counted(answer)
    }

    fn try_write(&self, now: u64, message: &[u8]) -> Answer<u64> {
        let Some(Message::Write { key, epoch, op }) = wire::read(message) else {
            return Err(UNDECODABLE);
        };
        if now > TIME {
            return Err(UNDECODABLE);
        }
        if !convert::op_in_domain(&op) {
            return Err(OUTSIDE);
        }
        let shard = convert::key(&key);
        let write = Write {
            shard: shard.clone(),
            epoch: Epoch(epoch),
            op: convert::op(&op),
        };
        let offset = self.within_log(&shard, || inside::write(&self.rust, now, write))??;
        Ok(offset)
    }

    pub fn search(&mut self, now: u64, room: u32, message: &[u8]) -> Answer<Vec<Neighbor>> {
        let answer = self.try_search(now, room, message);
        self.counted(answer)
    }

    fn try_search(&self, now: u64, room: u32, message: &[u8]) -> Answer<Vec<Neighbor>> {
        let Some(Message::Search {
            key,
            epoch,
            k,
            vector,
        }) = wire::read(message)
        else {
            return Err(UNDECODABLE);
        };
        if now > TIME {
            return Err(UNDECODABLE);
        }
        if !vector.iter().all(|&b| wire::in_domain(b)) {
            return Err(OUTSIDE);
        }
        let query = SearchQuery {
            shard: convert::key(&key),
            epoch: Epoch(epoch),
            vector: convert::floats(&vector),
            k,
        };
        match inside::search(&self.rust, now, &query) {
            SearchResult::Refused(refusal) => Err(refusal.into()),
            SearchResult::Found(found) if found.len() > room as usize => Err(FULL),
            SearchResult::Found(found) => Ok(found),
        }
    }

    pub fn replicate(&mut self, message: &[u8]) -> Answer<ReplicateAck> {
        let Some(Message::Replicate {
            key,
            epoch,
            offset,
            op,
        }) = wire::read(message)
        else {
            return Err(UNDECODABLE);
        };
        if !convert::op_in_domain(&op) {
            return Err(OUTSIDE);
        }
        let shard = convert::key(&key);
        let message = Replicate {
            shard: shard.clone(),
            epoch: Epoch(epoch),
            offset,
            op: convert::op(&op),
        };
        self.within_log(&shard, || inside::replicate(&self.rust, message))
    }

    pub fn new_epoch(&mut self, message: &[u8]) -> Answer<NewEpochAck> {
        let Some(Message::NewEpoch {
            key,
            epoch,
            end_offset,
            epochs,
            metric,
        }) = wire::read(message)
        else {
            return Err(UNDECODABLE);
        };
        let shard = convert::key(&key);
        let header = self.header();
        if header.held == SHARDS_HELD && inside::last_offset(&self.rust, &shard).is_none() {
            return Err(FULL);
        }
        let epochs = epochs.into_iter().map(|(e, end)| (Epoch(e), end));
        Ok(inside::new_epoch(
            &self.rust,
            NewEpoch {
                shard,
                epoch: Epoch(epoch),
                end_offset,
                epochs: epochs.collect(),
                metric: convert::metric(metric),
            },
        ))
    }

    pub fn copy_shard(&mut self, message: &[u8]) -> Answer<CopyShardAck> {
        let Some(Message::CopyShard {
            key,
            epoch,
            entries,
        }) = wire::read(message)
        else {
            return Err(UNDECODABLE);
        };
        if !entries.iter().all(|e| convert::op_in_domain(&e.op)) {
            return Err(OUTSIDE);
        }
        let shard = convert::key(&key);
        let message = CopyShard {
            shard: shard.clone(),
            epoch: Epoch(epoch),
            entries: entries.iter().map(convert::entry).collect(),
        };
        self.within_log(&shard, || inside::copy_shard(&self.rust, message))
    }

    /// Whether the write is acknowledged, and which peers a Shrink is now proposed for.
    pub fn wait(
        &mut self,
        now: u64,
        key: &ShardKey,
        epoch: u64,
        offset: u64,
    ) -> Answer<(bool, Vec<u64>)> {
        if now > TIME || self.settings.ack_timeout > TIME {
            return Err(UNDECODABLE);
        }
        let (done, shrinks) = inside::wait(&self.rust, now, key, epoch, offset)?;
        let mut peers = Vec::new();
        for shrink in shrinks {
            peers.push(shrink.peer);
            let peer = Peer {
                key: key.clone(),
                epoch,
                peer: shrink.peer,
            };
            self.proposals.insert((peer, true), shrink.task);
        }
        Ok((done, peers))
    }

    /// A worker's step. The worker stays and waits for the reply.
    pub fn step(&mut self, peer: Peer, metric: u8) -> Asked {
        let metric = convert::metric(metric);
        let (asked, task) = inside::step(&self.rust, &peer.key, peer.epoch, peer.peer, metric);
        let step = match &asked {
            Asked::Wait | Asked::Stop => None,
            Asked::Align(_) => Some(Step::Align),
            Asked::Replicate(_) => Some(Step::Replicate),
            Asked::Copy(_) => Some(Step::Copy),
        };
        match step {
            Some(step) => self.waiting.insert(peer, (step, task)),
            None => self.waiting.remove(&peer),
        };
        asked
    }

    /// A reply to a step; whether an Expand is now proposed. If the peer's worker waits for a
    /// reply to such a step it gets this one, else the functions that it would call do.
    pub fn ack(&mut self, peer: Peer, step: Step, reply: &[u8]) -> Answer<bool> {
        let reply = wire::read(reply).ok_or(UNDECODABLE)?;
        match reply {
            Message::Gap(0) => return Err(UNDECODABLE),
            Message::Stored(n) | Message::Gap(n) | Message::Adopted(n) if n > TIME => {
                return Err(UNDECODABLE);
            }
            Message::Stored(_) | Message::Gap(_) | Message::Adopted(_) | Message::StaleEpoch(_) => {
            }
            _ => return Err(UNDECODABLE),
        }
        match inside::worker_at(&self.rust, &peer.key, peer.epoch, peer.peer) {
            None => return Ok(false),
            Some(false) => return Err(NO_WORKER),
            Some(true) => {}
        }
        let Some(reply) = typed(step, &reply) else {
            return Ok(false);
        };
        let expand = match self.waiting.remove(&peer) {
            Some((asked, mut worker)) if asked == step => inside::resume(&mut worker, reply),
            _ => self.late(&peer, reply),
        };
        let proposed = expand.is_some();
        if let Some(task) = expand {
            self.proposals.insert((peer, false), task);
        }
        Ok(proposed)
    }

    fn late(&self, peer: &Peer, reply: Reply) -> Option<Task> {
        let Peer { key, epoch, peer } = peer;
        let (through, aligned) = match reply {
            Reply::Align(NewEpochAck::Adopted { through }) => (through, true),
            Reply::Replicate(ReplicateAck::Stored { through })
            | Reply::Copy(CopyShardAck::Stored { through }) => (through, false),
            Reply::Replicate(ReplicateAck::Gap { next }) => (next - 1, false),
            Reply::Align(NewEpochAck::StaleEpoch { epoch: newer })
            | Reply::Replicate(ReplicateAck::StaleEpoch { epoch: newer })
            | Reply::Copy(CopyShardAck::StaleEpoch { epoch: newer }) => {
                if newer.0 > *epoch {
                    inside::step_down(&self.rust, key, *epoch);
                } else if !matches!(reply, Reply::Align(_)) {
                    inside::unalign(&self.rust, key, *epoch, *peer);
                }
                return None;
            }
        };
        inside::record_ack(&self.rust, key, *epoch, *peer, through, aligned)
    }

    /// The outcome of a proposal. Its task gets it; if there is none under way, one is made.
    pub fn outcome(&mut self, peer: Peer, shrink: bool, applied: bool) {
        match self.proposals.remove(&(peer.clone(), shrink)) {
            Some(task) => inside::settle(task, applied),
            None => inside::settle_foreign(
                &self.rust, shrink, &peer.key, peer.epoch, peer.peer, applied,
            ),
        }
    }
}

/// The reply as a step of that kind gets it, if it can.
fn typed(step: Step, reply: &Message) -> Option<Reply> {
    Some(match (step, reply) {
        (Step::Align, Message::Adopted(through)) => {
            Reply::Align(NewEpochAck::Adopted { through: *through })
        }
        (Step::Align, Message::StaleEpoch(e)) => {
            Reply::Align(NewEpochAck::StaleEpoch { epoch: Epoch(*e) })
        }
        (Step::Replicate, Message::Stored(through)) => {
            Reply::Replicate(ReplicateAck::Stored { through: *through })
        }
        (Step::Replicate, Message::Gap(next)) => {
            Reply::Replicate(ReplicateAck::Gap { next: *next })
        }
        (Step::Replicate, Message::StaleEpoch(e)) => {
            Reply::Replicate(ReplicateAck::StaleEpoch { epoch: Epoch(*e) })
        }
        (Step::Copy, Message::Stored(through)) => {
            Reply::Copy(CopyShardAck::Stored { through: *through })
        }
        (Step::Copy, Message::StaleEpoch(e)) => {
            Reply::Copy(CopyShardAck::StaleEpoch { epoch: Epoch(*e) })
        }
        _ => return None,
    })
}
