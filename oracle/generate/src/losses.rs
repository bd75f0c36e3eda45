//! Maps that requests build, and which of their live nodes matter: program `losses` of paper 02, 2.9.

use front::history::record;
use front::losses::call;
use wire::{Command, Key, Spec};

use crate::maps::Requests;
use crate::rng::Rng;

/// Records with the map that they lead to. A list begins with an empty map.
pub struct Made {
    requests: Requests,
    pub records: Vec<Vec<u8>>,
}

impl Made {
    fn new() -> Self {
        Made {
            requests: Requests::default(),
            records: vec![record(call::EMPTY, &[])],
        }
    }

    fn empty(&mut self) {
        self.requests = Requests::default();
        self.records.push(record(call::EMPTY, &[]));
    }

    fn raw(&mut self, call: u8, operands: &[u8]) {
        self.records.push(record(call, operands));
    }

    fn send(&mut self) {
        let request = self.requests.records.last().expect("a request").clone();
        self.raw(call::APPLY, &request);
    }

    fn apply(&mut self, command: Command) {
        self.requests.add(1, command);
        self.send();
    }

    /// A new map of so many live nodes, ids from 1 on.
    fn live(&mut self, count: u64) {
        self.empty();
        (1..=count).for_each(|n| self.apply(register(n)));
    }

    fn losses(&mut self, row: u32, name: &[u8]) {
        self.raw(call::LOSSES, &[&row.to_le_bytes(), name].concat());
    }

    /// Of every collection of the map, and of one that it lacks.
    fn ask(&mut self) {
        let names = self.requests.map.machine.map().collections.keys();
        let names: Vec<String> = names.cloned().collect();
        for (row, name) in names.iter().enumerate() {
            self.losses(row as u32, name.as_bytes());
        }
        self.losses(0, b"absent");
    }

    /// The same with the first collection's spec changed in the image.
    fn ask_as(&mut self, shards: u32, replication: u32) {
        let words = [0u32, shards, replication].map(u32::to_le_bytes);
        self.raw(call::SPEC, &words.concat());
        self.ask();
    }
}

fn register(node: u64) -> Command {
    Command::Register {
        node,
        address: vec![],
        incarnation: 1,
    }
}

fn dead(node: u64) -> Command {
    Command::MarkNodeDead {
        node,
        incarnation: 1,
    }
}

/// A collection whose lists may be shorter than its replication, as Create takes them.
fn create(name: &str, replication: u32, lists: &[&[u64]]) -> Command {
    Command::Create {
        name: name.as_bytes().to_vec(),
        spec: Spec {
            dimension: 2,
            metric: 0,
            shards: lists.len() as u32,
            replication,
        },
        placement: lists.iter().map(|l| l.to_vec()).collect(),
    }
}

pub fn chosen() -> Made {
    let mut m = Made::new();
    nobody(&mut m);
    enough(&mut m);
    nine(&mut m);
    sixteen(&mut m);
    ids(&mut m);
    loads(&mut m);
    images(&mut m);
    operands(&mut m);
    m
}

/// A map without anything.
fn nobody(m: &mut Made) {
    m.ask();
}

/// As many live nodes as replicas, one fewer and one more, with a dead node beside them.
fn enough(m: &mut Made) {
    m.live(5);
    m.apply(create("c", 3, &[&[1, 2, 3], &[4, 5]]));
    m.apply(create("d", 3, &[&[5]]));
    m.ask();
    m.apply(dead(2));
    m.ask();
    m.apply(dead(4));
    m.ask();
    m.apply(dead(5));
    m.ask();
}

/// Replication 9 with 8, 9 and 10 live nodes, and the highest that Create takes.
fn nine(m: &mut Made) {
    m.live(8);
    m.apply(create("c", 9, &[&[1]]));
    m.apply(create("d", u32::MAX, &[&[2]]));
    m.ask();
    m.apply(register(9));
    m.ask();
    m.apply(register(10));
    m.ask();
}

/// 16 lists of 8 on 8, 9 and 32 nodes.
fn sixteen(m: &mut Made) {
    for count in [8, 9, 32] {
        m.live(count);
        m.apply(create("c", 8, &[[1].as_slice(); 16]));
        m.ask();
    }
}

/// The lowest id and the highest.
fn ids(m: &mut Made) {
    m.empty();
    for node in [u64::MAX, 0, 1 << 32, 7] {
        m.apply(register(node));
    }
    m.apply(create("c", 2, &[&[7], &[7, 7]]));
    m.ask();
}

/// Loads that differ by a repeated holder, a holder that the map does not know, and a dead one that holds much.
fn loads(m: &mut Made) {
    m.live(6);
    m.apply(create("c", 3, &[&[2, 2, 1], &[5, 1], &[2]]));
    m.apply(create("d", 2, &[&[4, 4], &[6]]));
    m.ask();
    let add = |node| Command::AddReplica {
        key: Key {
            name: b"d".to_vec(),
            shard: 1,
        },
        node,
        incarnation: 1,
        epoch: 1,
    };
    m.apply(add(77));
    m.apply(add(5));
    m.ask();
    m.apply(dead(2));
    m.ask();
    m.apply(dead(6));
    m.ask();
}

/// Specs that stand in no map that requests made, and that are not malformed: 17 shards, no shard, no replica.
fn images(m: &mut Made) {
    m.live(4);
    m.apply(create("c", 2, &[&[1, 2]]));
    for (shards, replication) in [
        (17, 4),
        (17, 3),
        (17, 5),
        (0, 4),
        (0, 3),
        (0, 5),
        (2, 0),
        (0, 0),
        (17, 0),
        (u32::MAX, 4),
        (16, 4),
        (1, u32::MAX),
    ] {
        m.ask_as(shards, replication);
    }
}

/// Names that no message carries, and operands that are cut.
fn operands(m: &mut Made) {
    m.losses(0, &[b'p'; 33]);
    m.losses(0, &[b'p'; 32]);
    m.losses(0, &[0x1f]);
    m.losses(0, &[b'p', 0x7f]);
    m.losses(16, b"c");
    m.raw(call::LOSSES, &[0, 0, 0]);
    m.raw(call::SPEC, &[0; 11]);
    m.raw(call::EMPTY, &[0]);
    m.raw(call::APPLY, &[0]);
}

/// Random requests, and after each the losses of one collection.
pub fn random(seed: u64, count: usize) -> Made {
    let mut rng = Rng::new(seed);
    let mut m = Made::new();
    for node in 0..2 + rng.below(12) as u64 {
        m.apply(register(node * 3 % 17));
    }
    for _ in 0..count {
        m.requests.random(&mut rng);
        m.send();
        let names = m.requests.map.machine.map().collections.keys();
        let names: Vec<String> = names.cloned().collect();
        if names.is_empty() || rng.once_in(10) {
            m.losses(0, b"absent");
            continue;
        }
        let row = rng.below(names.len());
        m.losses(row as u32, names[row].as_bytes());
    }
    m
}
