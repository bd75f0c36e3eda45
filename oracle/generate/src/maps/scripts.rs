//! Rows of requests written out: limits, two things wrong at once, every reason.

use wire::{Change, Command, Request, Spec};

use super::Requests;

/// Every limit of the map met exactly and passed by one, freed places used again.
pub fn limits() -> Requests {
    let mut r = Requests::default();
    let register = |node| Command::Register {
        node,
        address: vec![b'h'; 64],
        incarnation: 1,
    };
    let spec = |shards, replication| Spec {
        dimension: 4,
        metric: 1,
        shards,
        replication,
    };
    let create = |name: String, shards: u32| Command::Create {
        name: name.into_bytes(),
        spec: spec(shards, 8),
        placement: (0..shards).map(|s| vec![1 + u64::from(s)]).collect(),
    };
    (1..=33).for_each(|n| r.add(1, register(n)));
    r.add(1, register(32));
    (0..5).for_each(|n| r.add(1, create(format!("c{n}"), if n < 4 { 15 } else { 4 })));
    r.add(1, create("one more shard".into(), 1));
    r.add(1, Command::Drop { name: b"c4".into() });
    (0..13).for_each(|n| r.add(1, create(format!("d{n}"), u32::from(n < 4))));
    (0..4).for_each(|n| r.add(1, create(format!("e{n}"), 1)));
    r.add(1, Command::Drop { name: b"c0".into() });
    (0..14).for_each(|n| r.add(1, create(format!("f{n}"), 1)));
    let key = crate::stream::key("c1", 0);
    let add = |node| Command::AddReplica {
        key: key.clone(),
        node,
        incarnation: 1,
        epoch: 1,
    };
    (2..=10).for_each(|n| r.add(1, add(n)));
    r.add(1, add(8));
    r.add(
        1,
        Command::Remove(Change {
            key: key.clone(),
            node: 5,
            epoch: 1,
        }),
    );
    (20..22).for_each(|n| r.add(1, add(n)));
    (2..=66).for_each(|c| r.add(c, Command::Bench { bytes: vec![] }));
    r.add(
        1,
        Command::Bench {
            bytes: vec![7; 1024],
        },
    );
    r.add(
        64,
        Command::Drop {
            name: b"none".into(),
        },
    );
    r.add(
        66,
        Command::Drop {
            name: b"none".into(),
        },
    );
    r
}

/// Requests with two things wrong at once: the earlier rule of the paper answers.
pub fn two_faults() -> Requests {
    let mut r = Requests::default();
    let key = crate::stream::key("c", 0);
    let create = |name: &str, shards: u32, replication: u32, lists: &[&[u64]]| Command::Create {
        name: name.as_bytes().to_vec(),
        spec: Spec {
            dimension: 2,
            metric: 0,
            shards,
            replication,
        },
        placement: lists.iter().map(|l| l.to_vec()).collect(),
    };
    for node in 1..=4 {
        r.add(
            1,
            Command::Register {
                node,
                address: vec![],
                incarnation: 3,
            },
        );
    }
    r.add(
        1,
        Command::MarkNodeDead {
            node: 4,
            incarnation: 3,
        },
    );
    r.add(1, create("c", 1, 2, &[&[1, 2]]));
    // Exists and zero, zero and mismatch, mismatch and not alive, two not alive in both walks.
    r.add(1, create("c", 0, 2, &[&[9]]));
    r.add(1, create("d", 0, 2, &[&[9]]));
    r.add(1, create("d", 2, 2, &[&[9]]));
    r.add(1, create("d", 2, 2, &[&[1, 4], &[9]]));
    r.add(1, create("d", 2, 3, &[&[1], &[9, 4, 8]]));
    r.add(1, create("d", 1, 1, &[&[1, 2]]));
    r.add(1, create("d", 1, 1, &[&[]]));
    let change = |node, epoch| Change {
        key: key.clone(),
        node,
        epoch,
    };
    let elsewhere = |node, epoch| Change {
        key: crate::stream::key("c", 1),
        node,
        epoch,
    };
    for make in [
        Command::Remove as fn(Change) -> Command,
        Command::Shrink,
        Command::Expand,
        Command::Promote,
    ] {
        r.add(1, make(elsewhere(9, 9)));
        r.add(1, make(change(9, 9)));
        r.add(1, make(change(1, 0)));
        r.add(1, make(change(9, 1)));
        r.add(1, make(change(1, 1)));
    }
    r.add(2, Command::Shrink(change(2, 2)));
    r.add(2, Command::Expand(change(1, 2)));
    r.add(2, Command::Expand(change(1, 2)));
    r.add(2, Command::Remove(change(1, 2)));
    r.add(2, Command::Remove(change(2, 2)));
    r.add(2, Command::Promote(change(2, 2)));
    // An older seq of a bad command, an equal seq with another command.
    r.put(Request {
        index: 90,
        client: 2,
        seq: 1,
        command: Command::Drop { name: b"d".into() },
    });
    r.put(Request {
        index: 91,
        client: 1,
        seq: r.seqs[&1],
        command: Command::Bench { bytes: vec![] },
    });
    // A repeated node in a list, and the version set to a lower index.
    r.put(Request {
        index: 3,
        client: 3,
        seq: 1,
        command: create("e", 1, 3, &[&[2, 2, 1]]),
    });
    let twice = Change {
        key: crate::stream::key("e", 0),
        node: 2,
        epoch: 1,
    };
    r.add(4, Command::Remove(twice.clone()));
    r.add(
        4,
        Command::Promote(Change {
            node: 1,
            ..twice.clone()
        }),
    );
    r.add(4, Command::Remove(Change { epoch: 2, ..twice }));
    r
}

/// Commands that are applied, and then one for each reason from 2 to 16.
pub fn reasons() -> (Vec<Command>, Vec<Command>) {
    let register = |node, incarnation| Command::Register {
        node,
        address: b"h".to_vec(),
        incarnation,
    };
    let create = |name: &str, shards, lists: &[u64]| Command::Create {
        name: name.as_bytes().to_vec(),
        spec: Spec {
            dimension: 1,
            metric: 0,
            shards,
            replication: 3,
        },
        placement: vec![lists.to_vec()],
    };
    let key = crate::stream::key("x/1", 0);
    let change = |node, epoch| Change {
        key: key.clone(),
        node,
        epoch,
    };
    let add = |node| Command::AddReplica {
        key: key.clone(),
        node,
        incarnation: 5,
        epoch: 1,
    };
    let before = vec![
        register(1, 5),
        register(2, 5),
        create("x/1", 1, &[1, 2]),
        add(3),
    ];
    let rejected = vec![
        create("x/1", 1, &[1]),
        create("", 0, &[1]),
        create("", 2, &[1]),
        create("", 1, &[1, 77]),
        Command::Drop { name: vec![] },
        register(2, 4),
        Command::MarkNodeDead {
            node: 2,
            incarnation: 6,
        },
        Command::Promote(Change {
            key: crate::stream::key(" is at epoch 3", 9),
            node: 1,
            epoch: 1,
        }),
        Command::Expand(change(1, u64::MAX)),
        add(3),
        Command::Remove(change(1, 1)),
        Command::Remove(change(9, 1)),
        Command::Promote(change(3, 1)),
        Command::Shrink(change(1, 1)),
        Command::Expand(change(2, 1)),
    ];
    (before, rejected)
}

/// Every rejection asked for again under its seq, with another command: the old answer; then an
/// older seq, and the next one.
pub fn repeats() -> Requests {
    let mut r = Requests::default();
    let (before, rejected) = reasons();
    before.into_iter().for_each(|c| r.add(1, c));
    for (n, command) in rejected.into_iter().enumerate() {
        let client = 2 + n as u64;
        r.add(client, Command::Bench { bytes: vec![] });
        r.add(client, command);
        for seq in [2, 1, 2, 3] {
            r.put(Request {
                index: 500 + r.index,
                client,
                seq,
                command: Command::Bench { bytes: vec![1] },
            });
        }
    }
    r
}
