//! Maps that requests build, and where each puts new replicas: `place` and `replacement`.

use front::history::record;
use front::placement::call;
use wire::{Change, Command, Key, Spec};

use crate::maps::Requests;
use crate::rng::Rng;

/// Records with the map that they lead to. A list begins with an empty map.
pub struct Made {
    requests: Requests,
    pub records: Vec<Vec<u8>>,
}

impl Made {
    fn new() -> Self {
        Made {
            requests: Requests::default(),
            records: vec![record(call::EMPTY, &[])],
        }
    }

    fn empty(&mut self) {
        self.requests = Requests::default();
        self.records.push(record(call::EMPTY, &[]));
    }

    fn raw(&mut self, call: u8, operands: &[u8]) {
        self.records.push(record(call, operands));
    }

    /// The request that was added last.
    fn send(&mut self) {
        let request = self.requests.records.last().expect("a request").clone();
        self.raw(call::APPLY, &request);
    }

    fn apply(&mut self, command: Command) {
        self.requests.add(1, command);
        self.send();
    }

    fn place(&mut self, shards: u32, replication: u32) {
        let operands = [shards.to_le_bytes(), replication.to_le_bytes()].concat();
        self.raw(call::PLACE, &operands);
    }

    fn replacement(&mut self, name: &[u8], shard: u32) {
        let operands = [&shard.to_le_bytes(), name].concat();
        self.raw(call::REPLACEMENT, &operands);
    }

    /// How many placements of at most so many lists of at most so many nodes pass, for a spec of
    /// dimension, shards and replication.
    fn count(&mut self, name: &[u8], spec: [u32; 3], ids: &[u64], lists: u32, nodes: u32) {
        let numbers = [spec[0], spec[1], spec[2], lists, nodes].map(u32::to_le_bytes);
        let mut operands = numbers.concat();
        operands.push(8 * ids.len() as u8);
        operands.extend(ids.iter().flat_map(|id| id.to_le_bytes()));
        operands.extend(name);
        self.raw(call::COUNT, &operands);
    }

    /// A placement of each of some sizes, and a replacement for each shard of the map.
    fn ask(&mut self) {
        for (shards, replication) in [(1, 1), (5, 1), (3, 2), (2, 3), (2, 5)] {
            self.place(shards, replication);
        }
        let keys = self.requests.map.machine.map().shards.keys();
        let keys: Vec<_> = keys.cloned().collect();
        for key in keys {
            self.replacement(key.collection.as_bytes(), key.shard);
        }
    }
}

fn register(node: u64, incarnation: u64) -> Command {
    Command::Register {
        node,
        address: vec![],
        incarnation,
    }
}

fn dead(node: u64, incarnation: u64) -> Command {
    Command::MarkNodeDead { node, incarnation }
}

fn create(name: &str, replication: u32, lists: &[&[u64]]) -> Command {
    Command::Create {
        name: name.as_bytes().to_vec(),
        spec: Spec {
            dimension: 2,
            metric: 0,
            shards: lists.len() as u32,
            replication,
        },
        placement: lists.iter().map(|l| l.to_vec()).collect(),
    }
}

fn key(name: &str, shard: u32) -> Key {
    Key {
        name: name.as_bytes().to_vec(),
        shard,
    }
}

/// Every limit, ties, dead nodes, repeated nodes, too few nodes, shards that the map lacks.
pub fn chosen() -> Made {
    let mut m = Made::new();
    nobody(&mut m);
    limits(&mut m);
    loads(&mut m);
    holders(&mut m);
    full(&mut m);
    operands(&mut m);
    m
}

/// No node at all: none, but where no replica is asked for; then 23.
fn nobody(m: &mut Made) {
    for (shards, replication) in [(1, 1), (17, 1), (0, 0), (3, 0), (17, 0), (1, 9)] {
        m.place(shards, replication);
    }
    m.replacement(b"", 0);
}

/// Ten nodes without a replica, whose ids stand far apart: 8 and 9 replicas, 16 and 17 shards, 10 and 11 nodes.
fn limits(m: &mut Made) {
    m.empty();
    for node in [9, 3, u64::MAX, 0, 7, 1 << 32, 4, 8, 6, 5] {
        m.apply(register(node, 1));
    }
    for replication in 1..=11 {
        m.place(1, replication);
    }
    let sizes = [
        (0, 0),
        (2, 0),
        (0, 8),
        (0, 9),
        (0, 11),
        (16, 1),
        (17, 1),
        (16, 8),
        (17, 8),
        (16, 9),
        (17, 11),
        (u32::MAX, 1),
        (1, u32::MAX),
        (7, 3),
    ];
    for (shards, replication) in sizes {
        m.place(shards, replication);
    }
}

/// Uneven loads: a node listed twice in a shard counts twice, a dead one not at all, one that the
/// map does not know neither; loads move with Add, Remove, Drop and a node that comes back.
fn loads(m: &mut Made) {
    m.empty();
    (1..=6).for_each(|n| m.apply(register(n, 1)));
    m.ask();
    m.apply(create("c", 3, &[&[2, 2, 1], &[5, 1], &[2]]));
    m.apply(create("d", 3, &[&[4, 3, 4], &[6]]));
    m.ask();
    m.apply(dead(6, 1));
    m.ask();
    m.apply(dead(3, 1));
    m.ask();
    m.apply(register(6, 2));
    m.ask();
    let add = |node| Command::AddReplica {
        key: key("d", 1),
        node,
        incarnation: 1,
        epoch: 1,
    };
    m.apply(add(5));
    m.apply(add(77));
    m.ask();
    m.apply(Command::Remove(Change {
        key: key("c", 1),
        node: 1,
        epoch: 1,
    }));
    m.ask();
    m.apply(Command::Drop { name: b"c".into() });
    m.ask();
    m.apply(register(2, 1));
    m.apply(register(77, 4));
    m.ask();
}

/// Every live node holds the shard, or none is left; a shard, a collection that the map lacks; names of which one is the
/// beginning of another.
fn holders(m: &mut Made) {
    m.empty();
    (1..=3).for_each(|n| m.apply(register(n, 1)));
    m.apply(create("a", 3, &[&[3, 1, 2], &[3], &[2]]));
    m.apply(create("ab", 2, &[&[1, 1]]));
    m.ask();
    m.apply(dead(2, 1));
    m.ask();
    m.place(1, 2);
    m.place(1, 3);
    for (name, shard) in [
        ("a", 3),
        ("a", u32::MAX),
        ("", 0),
        ("b", 0),
        ("abc", 0),
        ("ab", 1),
    ] {
        m.replacement(name.as_bytes(), shard);
    }
    m.apply(dead(1, 1));
    m.apply(dead(3, 1));
    m.ask();
    m.place(1, 0);
}

/// 32 nodes and 64 shards of up to 8 replicas.
fn full(m: &mut Made) {
    m.empty();
    (1..=32).for_each(|n| m.apply(register(n, 1)));
    for name in ["p", "q", "r", "s"] {
        let list = |n: u64| (0..1 + n % 8).map(|k| 1 + (n * n + 3 * k) % 31).collect();
        let lists: Vec<Vec<u64>> = (0..16).map(list).collect();
        let lists: Vec<&[u64]> = lists.iter().map(Vec::as_slice).collect();
        m.apply(create(name, 8, &lists));
    }
    m.apply(create("t", 1, &[&[32]]));
    m.ask();
    m.place(16, 8);
}

/// Operands of the wrong length, a request that does not decode, names that are none.
fn operands(m: &mut Made) {
    m.raw(call::EMPTY, &[0]);
    m.raw(call::APPLY, &[]);
    m.raw(call::APPLY, &[1; 26]);
    for length in [0, 4, 7, 9, 12] {
        m.raw(call::PLACE, &vec![0; length]);
    }
    m.raw(call::REPLACEMENT, &[0, 0, 0]);
    m.replacement(&[b'p'; 33], 0);
    m.replacement(&[b'p'; 32], 0);
    m.replacement(&[0x1f], 0);
    m.replacement(&[b'p', 0x7f], 0);
}

/// How many placements pass: every ending, no list and no node, more lists than shards and fewer,
/// more nodes than the replication and fewer, unknown, dead and no ids, a full map, 35 and 36.
pub fn counts() -> Made {
    let mut m = Made::new();
    sizes(&mut m);
    (1..=3).for_each(|n| m.apply(register(n, 1)));
    m.apply(dead(2, 1));
    sizes(&mut m);
    m.apply(create("a", 2, &[&[1], &[3]]));
    sizes(&mut m);
    m.count(b"a", [2, 2, 2], &[1, 2], 2, 2);
    m.count(b"", [2, 1, 1], &[1], 1, 1);
    bounds(&mut m);
    crowd(&mut m);
    m
}

/// Small sizes of one spec after the other.
fn sizes(m: &mut Made) {
    for ids in [&[][..], &[1], &[1, 2], &[3, 1, 9], &[1, 2, 3, 9]] {
        for (lists, nodes) in [
            (0, 0),
            (1, 0),
            (0, 2),
            (1, 1),
            (2, 1),
            (3, 1),
            (2, 2),
            (1, 3),
        ] {
            let each: u64 = (0..=nodes).map(|n| (ids.len() as u64).pow(n)).sum();
            if (0..=lists).map(|n| each.pow(n)).sum::<u64>() > 1000 {
                continue;
            }
            for spec in [
                [2, 1, 1],
                [2, 2, 1],
                [1, 1, 2],
                [2, 2, 2],
                [1, 2, 9],
                [1, 3, 1],
            ] {
                m.count(b"b", spec, ids, lists, nodes);
            }
        }
    }
    for spec in [[0, 1, 1], [1, 0, 1], [1, 1, 0], [1, u32::MAX, u32::MAX]] {
        m.count(b"b", spec, &[1, 2], 2, 1);
    }
    m.count(b"b", [1, 16, 1], &[], 16, 8);
    m.count(b"b", [1, 4, 3], &[1], 4, 3);
    m.count(b"b", [1, 3, 2], &[1, 9], 3, 2);
}

/// 35 and 36, at and past each edge; 36 first; names and ids that are none.
fn bounds(m: &mut Made) {
    let four = &[1, 2, 3, 4][..];
    for (ids, lists, nodes) in [
        (four, 16, 8),
        (four, 10, 3),
        (&four[..2], 13, 4),
        (&four[..3], 13, 3),
    ] {
        m.count(b"b", [1, 1, 1], ids, lists, nodes);
    }
    for (ids, lists, nodes) in [
        (&[1, 1][..], 16, 8),
        (&[1, 2, 1], 1, 1),
        (&[1, 2, 3, 4, 5], 0, 0),
        (&[1], 17, 0),
        (&[1], 0, 9),
        (&[], u32::MAX, u32::MAX),
    ] {
        m.count(b"b", [1, 1, 1], ids, lists, nodes);
    }
    m.count(&[b'b'; 33], [1, 1, 1], &[1], 1, 1);
    m.count(&[b'b'; 32], [1, 1, 1], &[1], 1, 1);
    m.count(&[0x7f], [1, 1, 1], &[1], 1, 1);
    m.raw(call::COUNT, &[0; 20]);
    m.raw(call::COUNT, &[[0; 20].as_slice(), &[1, 0]].concat());
    m.raw(call::COUNT, &[[0; 20].as_slice(), &[9, 0]].concat());
}

/// 62 shards, then 64, then 16 collections.
fn crowd(m: &mut Made) {
    m.empty();
    (1..=2).for_each(|n| m.apply(register(n, 1)));
    let one: &[u64] = &[1];
    for name in ["c", "d", "e"] {
        m.apply(create(name, 1, &[one; 16]));
    }
    m.apply(create("f", 1, &[one; 14]));
    for shards in 1..=3 {
        m.count(b"b", [1, shards, 1], &[1, 2], 3, 1);
    }
    m.apply(create("g", 1, &[one; 2]));
    m.count(b"b", [1, 1, 1], &[1, 9], 2, 1);
    m.empty();
    m.apply(register(1, 1));
    for n in 0..16u8 {
        m.apply(create(&char::from(b'c' + n).to_string(), 1, &[one]));
        m.count(b"b", [1, 1, 1], &[1, 9], 2, 1);
    }
}

/// Random requests, and after each a question.
pub fn random(seed: u64, count: usize) -> Made {
    let mut rng = Rng::new(seed);
    let mut m = Made::new();
    for node in 0..2 + rng.below(12) as u64 {
        m.apply(register(node * 3 % 17, 1));
    }
    for _ in 0..count {
        m.requests.random(&mut rng);
        m.send();
        if rng.once_in(2) {
            let replication = match rng.once_in(8) {
                true => 8 + rng.below(2),
                false => rng.below(6),
            };
            m.place(rng.below(18) as u32, replication as u32);
        } else {
            ask_shard(&mut m, &mut rng);
        }
    }
    m
}

/// A replacement for a shard of the map, or rarely for any.
fn ask_shard(m: &mut Made, rng: &mut Rng) {
    let keys = m.requests.map.machine.map().shards.keys();
    let keys: Vec<_> = keys.cloned().collect();
    if keys.is_empty() || rng.once_in(10) {
        m.replacement(b"ab", rng.below(3) as u32);
        return;
    }
    let key = rng.pick(&keys);
    m.replacement(key.collection.as_bytes(), key.shard);
}
