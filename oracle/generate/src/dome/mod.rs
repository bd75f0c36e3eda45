//! Runs of a dome: nodes, their workers, messages and proposals under way, driven by what `replay`
//! answers. A tame run keeps the rules of a run of papers 01 and 02 (messages overtake and repeat, a
//! reply counts for the latest request, a proposal and its outcome arrive once); a wild one breaks
//! them, damages bytes, changes the map at will and starts nodes over. A full one begins near the limits: logs, shards and workers.

mod clients;
mod disturb;
mod fill;
mod proposals;
mod traffic;

use wire::{Change, Command, Key, Op, Spec};

use crate::rng::Rng;
use crate::stream::Stream;

struct Worker {
    slot: u8,
    key: Key,
    peer: u64,
    epoch: u64,
    metric: u8,
    /// How many requests it has sent; a reply counts for the latest alone.
    sent: u64,
}

/// A request to `worker`'s peer, or the reply to it.
#[derive(Clone)]
struct Flight {
    worker: usize,
    sent: u64,
    step: u8,
    bytes: Vec<u8>,
    back: bool,
}

/// A write that a node accepted.
#[derive(Clone)]
pub struct Accepted {
    pub slot: u8,
    pub key: Key,
    pub epoch: u64,
    pub offset: u64,
    pub op: Op,
}

#[derive(Clone)]
struct Proposal {
    slot: u8,
    change: Change,
    code: u8,
}

/// What a run is like.
#[derive(Clone, Copy, PartialEq, Eq)]
pub struct Shape {
    pub wild: bool,
    pub full: bool,
}

pub const TAME: Shape = Shape {
    wild: false,
    full: false,
};
pub const WILD: Shape = Shape {
    wild: true,
    full: false,
};
pub const FULL: Shape = Shape {
    wild: true,
    full: true,
};

pub struct Dome {
    pub stream: Stream,
    rng: Rng,
    wild: bool,
    full: bool,
    /// Number and incarnation of the node in each slot.
    nodes: Vec<(u64, u64)>,
    keys: Vec<Key>,
    workers: Vec<Worker>,
    flights: Vec<Flight>,
    proposals: Vec<Proposal>,
    /// Proposals that timed out and are still on their way.
    stray: Vec<Proposal>,
    outcomes: Vec<(Proposal, bool)>,
    writes: Vec<Accepted>,
    /// The writes that a wait called done.
    pub acknowledged: Vec<Accepted>,
    seqs: u64,
}

/// Bytes from their digits.
pub fn unhex(text: &str) -> Vec<u8> {
    let digits = |n: usize| u8::from_str_radix(&text[n..n + 2], 16).expect("two digits");
    (0..text.len()).step_by(2).map(digits).collect()
}

impl Dome {
    /// A fresh dome: nodes registered, one collection or two, everybody shown the map.
    pub fn new(seed: u64, shape: Shape) -> Self {
        let mut rng = Rng::new(seed);
        let count = 2 + rng.below(4);
        let mut dome = Dome {
            stream: Stream::new(),
            wild: shape.wild,
            full: shape.full,
            nodes: (1..=count as u64).map(|n| (n, 100 + n)).collect(),
            keys: Vec::new(),
            workers: Vec::new(),
            flights: Vec::new(),
            proposals: Vec::new(),
            stray: Vec::new(),
            outcomes: Vec::new(),
            writes: Vec::new(),
            acknowledged: Vec::new(),
            seqs: 0,
            rng,
        };
        if dome.rng.once_in(4) {
            dome.nodes[0].0 = dome.rng.corner() | 8;
        }
        dome.begin();
        dome
    }

    fn begin(&mut self) {
        for slot in 1..=self.nodes.len() as u8 {
            let (id, incarnation) = self.nodes[usize::from(slot) - 1];
            let min = 1 + self.rng.below(2) as u64;
            self.stream.make(slot, [id, incarnation, 1000, 100, min]);
            let command = Command::Register {
                node: id,
                address: format!("host{slot}").into_bytes(),
                incarnation,
            };
            self.command(command);
        }
        let names: &[&str] = if self.rng.once_in(3) {
            &["a", "b"]
        } else {
            &["a"]
        };
        for name in names {
            self.create(name);
        }
        for slot in 1..=self.nodes.len() as u8 {
            self.show(slot);
            self.grant(slot);
        }
        if self.full {
            self.fill();
            self.crowd();
        }
    }

    fn create(&mut self, name: &str) {
        let shards = match self.rng.below(3) {
            _ if self.full => 4 + self.rng.below(3) as u32,
            0 => 2,
            _ => 1,
        };
        let replication = 2 + self.rng.below(self.nodes.len() - 1);
        let placement = (0..shards)
            .map(|_| {
                let mut list: Vec<u64> = self.nodes.iter().map(|n| n.0).collect();
                while list.len() > replication {
                    list.swap_remove(self.rng.below(list.len()));
                }
                let first = self.rng.below(list.len());
                list.swap(0, first);
                list
            })
            .collect();
        let spec = Spec {
            dimension: 2,
            metric: self.rng.below(2) as u8,
            shards,
            replication: replication as u32,
        };
        self.command(Command::Create {
            name: name.as_bytes().to_vec(),
            spec,
            placement,
        });
        for shard in 0..shards {
            self.keys.push(crate::stream::key(name, shard));
        }
    }

    /// A command from nobody's node, under a client number of its own.
    fn command(&mut self, command: Command) -> String {
        self.seqs += 1;
        self.stream.apply(1000, self.seqs, command)
    }

    fn slot_of(&self, id: u64) -> Option<u8> {
        let place = self.nodes.iter().position(|n| n.0 == id)?;
        Some(place as u8 + 1)
    }

    fn any_slot(&mut self) -> u8 {
        1 + self.rng.below(self.nodes.len()) as u8
    }

    fn any_key(&mut self) -> Key {
        if self.rng.once_in(40) {
            return crate::stream::key("no such", 0);
        }
        self.rng.pick(&self.keys).clone()
    }

    /// The primary's slot and epoch by the map; at times another node or epoch.
    fn primary(&mut self, key: &Key) -> (u8, u64) {
        let shard = front::convert::key(key);
        let map = self.stream.replay.map.machine.map();
        let info = map.shards.get(&shard);
        let slot = info.and_then(|i| i.primary).and_then(|n| self.slot_of(n.0));
        let epoch = info.map_or(1, |i| i.epoch.0);
        let slot = match slot {
            Some(slot) if !self.rng.once_in(8) => slot,
            _ => self.any_slot(),
        };
        let epoch = match self.rng.below(16) {
            0 => epoch + 1,
            1 => epoch - 1,
            _ => epoch,
        };
        (slot, epoch)
    }

    fn show(&mut self, slot: u8) {
        let fresh = 1000 + self.stream.now;
        let answer = self.stream.shown(slot, fresh);
        for line in answer.lines().filter(|l| l.starts_with("worker ")) {
            let words: Vec<&str> = line.split(' ').collect();
            let number = |n: usize| words[n].parse().expect("a number");
            self.workers.push(Worker {
                slot,
                key: wire::read_key(&unhex(words[1])).expect("a key"),
                peer: number(2),
                epoch: number(3),
                metric: words[4].parse().expect("a metric"),
                sent: 0,
            });
        }
        let line = self.stream.node(slot);
        let incarnation = line.split(' ').nth(2).and_then(|w| w.parse().ok());
        self.nodes[usize::from(slot) - 1].1 = incarnation.expect("a number");
    }

    fn grant(&mut self, slot: u8) {
        let mut incarnation = self.nodes[usize::from(slot) - 1].1;
        if self.rng.once_in(12) {
            incarnation ^= 1;
        }
        let sent = self.stream.now.saturating_sub(self.rng.next() % 200);
        self.stream.grant(slot, incarnation, sent);
    }

    fn tick(&mut self) {
        self.stream.now = match self.rng.below(60) {
            0 => self.stream.now.saturating_sub(60),
            1..4 => self.stream.now + 150,
            _ => self.stream.now + self.rng.next() % 8,
        };
    }

    /// One event.
    pub fn event(&mut self) {
        self.tick();
        if self.wild && self.rng.once_in(8) {
            return self.disturb();
        }
        match self.rng.below(100) {
            0..16 => self.write(),
            16..21 => self.search(),
            21..43 => self.step(),
            43..73 => self.deliver(),
            73..80 => self.wait(),
            80..85 => self.arrive(),
            85..89 => self.outcome(),
            89..95 => {
                let slot = self.any_slot();
                self.show(slot);
            }
            95..98 => {
                let slot = self.any_slot();
                self.grant(slot);
            }
            98 => self.promote(),
            _ => self.look(),
        }
    }

    /// An acknowledged write that a node lacks whom the map lists in sync: the node and the write.
    pub fn missing(&self) -> Option<(u64, Accepted)> {
        for write in &self.acknowledged {
            let shard = front::convert::key(&write.key);
            let info = &self.stream.replay.map.machine.map().shards[&shard];
            let lacks = |id: &&rpc::DataNodeId| {
                let slot = self.slot_of(id.0).expect("every holder has a slot");
                let held = self.stream.replay.held(slot, &shard);
                let log = held.map_or(vec![], |h| h.replica.entries_from(write.offset, 1));
                log.first().map(|e| &e.op) != Some(&front::convert::op(&write.op))
            };
            if let Some(id) = info.in_sync.iter().find(lacks) {
                return Some((id.0, write.clone()));
            }
        }
        None
    }

    fn look(&mut self) {
        let slot = self.any_slot();
        let key = self.any_key();
        self.stream.held(slot, &key);
        self.stream.node(slot);
    }

    /// Everything that is held, at the end.
    pub fn look_at_all(&mut self) {
        self.stream.map();
        for slot in 1..=self.nodes.len() as u8 {
            self.stream.node(slot);
            for key in self.keys.clone() {
                self.stream.held(slot, &key);
            }
        }
    }
}

/// A run of `events` events, and a look at what is left.
pub fn run(seed: u64, events: usize, shape: Shape) -> Stream {
    let mut dome = Dome::new(seed, shape);
    for _ in 0..events {
        dome.event();
    }
    dome.look_at_all();
    dome.stream
}
