//! Rows of requests for the load sheet: ids at the ends of their width, a node listed twice, nodes
//! that the map does not know, dead ones, a full map, requests that change nothing.

use wire::{Change, Command, Request, Spec};

use super::Requests;

fn register(node: u64, incarnation: u64) -> Command {
    Command::Register {
        node,
        address: vec![],
        incarnation,
    }
}

fn create(name: &str, lists: &[&[u64]]) -> Command {
    Command::Create {
        name: name.as_bytes().to_vec(),
        spec: Spec {
            dimension: 1,
            metric: 0,
            shards: lists.len() as u32,
            replication: 8,
        },
        placement: lists.iter().map(|list| list.to_vec()).collect(),
    }
}

fn add(name: &str, shard: u32, node: u64) -> Command {
    Command::AddReplica {
        key: crate::stream::key(name, shard),
        node,
        incarnation: 1,
        epoch: 1,
    }
}

fn remove(name: &str, shard: u32, node: u64) -> Command {
    Command::Remove(Change {
        key: crate::stream::key(name, shard),
        node,
        epoch: 1,
    })
}

fn row(commands: Vec<Command>) -> Requests {
    let mut r = Requests::default();
    commands.into_iter().for_each(|command| r.add(1, command));
    r
}

/// Nodes registered in falling order: the lowest and the highest id, one and two digits, one with
/// no record.
pub fn ids() -> Requests {
    row(vec![
        register(u64::MAX, 1),
        register(100, 1),
        register(10, 1),
        register(9, 1),
        register(0, 1),
        create("a", &[&[0, u64::MAX], &[9, 10, 0]]),
    ])
}

/// One node eight times in one shard, and once in another.
pub fn repeated() -> Requests {
    row(vec![
        register(1, 1),
        register(2, 1),
        create("a", &[&[1; 8], &[2, 1]]),
    ])
}

/// Two nodes that the map does not know in three records, with a dead node that it knows.
pub fn unknown() -> Requests {
    row(vec![
        register(1, 1),
        register(2, 1),
        create("a", &[&[1, 2], &[2]]),
        add("a", 0, 7),
        add("a", 0, 8),
        add("a", 1, 7),
        Command::MarkNodeDead {
            node: 2,
            incarnation: 1,
        },
    ])
}

/// The same, and then one of them registers.
pub fn known_later() -> Requests {
    let mut r = unknown();
    r.add(1, register(7, 3));
    r
}

/// A node listed twice is removed, and a collection dropped.
pub fn removed() -> Requests {
    row(vec![
        register(1, 1),
        register(2, 1),
        create("a", &[&[1, 2, 2], &[2, 1]]),
        create("b", &[&[2, 1], &[1, 1]]),
        remove("a", 0, 2),
        Command::Drop { name: b"b".into() },
    ])
}

/// A node out of sync, one marked dead, and one that came back under a new incarnation.
pub fn lives() -> Requests {
    let mut r = row(vec![
        register(1, 1),
        register(2, 1),
        register(3, 1),
        create("a", &[&[1, 2, 3]]),
        Command::Shrink(Change {
            key: crate::stream::key("a", 0),
            node: 3,
            epoch: 1,
        }),
    ]);
    for node in [2, 3] {
        r.add(
            1,
            Command::MarkNodeDead {
                node,
                incarnation: 1,
            },
        );
    }
    r.add(1, register(2, 2));
    r
}

/// As many records as there can be, with what no longer fits.
pub fn full() -> Requests {
    let mut r = row((1..=32).map(|node| register(node, 1)).collect());
    for n in 0..16u64 {
        let lists: Vec<Vec<u64>> = (0..4)
            .map(|s| (0..8).map(|m| 1 + (n * 7 + s * 3 + m * m) % 32).collect())
            .collect();
        let lists: Vec<&[u64]> = lists.iter().map(|list| &list[..]).collect();
        r.add(1, create(&format!("c{n:02}"), &lists));
    }
    r.add(1, register(33, 1));
    r.add(1, create("one more", &[&[1]]));
    r.add(1, add("c00", 0, 33));
    r
}

/// A client too many, a repeated command and an older one: each leaves the map.
pub fn clients() -> Requests {
    let mut r = row(vec![register(1, 1), create("a", &[&[1, 1]])]);
    (2..=64).for_each(|c| r.add(c, Command::Bench { bytes: vec![] }));
    r.add(65, register(2, 1));
    for (seq, node) in [(2, 3), (1, 4)] {
        r.put(Request {
            index: 500,
            client: 1,
            seq,
            command: register(node, 1),
        });
    }
    r
}
