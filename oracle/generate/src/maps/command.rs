//! A random command that looks at the map.

use rpc::{NodeStatus, ShardInfo, ShardMap};
use wire::{Change, Command, Key, Spec};

use crate::rng::Rng;

/// Names with the signs that the Rust's own words use, the shortest and the longest.
const NAMES: [&str; 10] = [
    "",
    "a",
    "ab",
    "b",
    "/",
    "x/1",
    " is at epoch 3, not 4",
    "~~~~~~~~~~~~~~~~~~~~~~~~~~~~~~~~",
    " ",
    "node 1 is not alive",
];

pub fn name(rng: &mut Rng) -> Vec<u8> {
    if rng.once_in(4) {
        let length = rng.below(wire::NAME_BYTES + 1);
        return (0..length).map(|_| 0x20 + rng.below(0x5f) as u8).collect();
    }
    rng.pick(&NAMES).as_bytes().to_vec()
}

fn address(rng: &mut Rng) -> Vec<u8> {
    let length = match rng.below(4) {
        0 => 0,
        1 => wire::ADDRESS_BYTES,
        _ => rng.below(12),
    };
    (0..length).map(|_| 0x20 + rng.below(0x5f) as u8).collect()
}

/// A node of the map, or rarely any number.
fn node(rng: &mut Rng, map: &ShardMap) -> u64 {
    let known: Vec<u64> = map.nodes.keys().map(|n| n.0).collect();
    if known.is_empty() || rng.once_in(6) {
        return rng.corner();
    }
    *rng.pick(&known)
}

fn alive(map: &ShardMap) -> Vec<u64> {
    let nodes = map.nodes.iter();
    nodes
        .filter(|(_, info)| info.status == NodeStatus::Alive)
        .map(|(id, _)| id.0)
        .collect()
}

fn lists(rng: &mut Rng, map: &ShardMap, spec: &Spec) -> Vec<Vec<u64>> {
    let alive = alive(map);
    let mut lists = Vec::new();
    for _ in 0..spec.shards.min(16) {
        let length = 1 + rng.below(spec.replication.clamp(1, 8) as usize);
        let mut list: Vec<u64> = Vec::new();
        while list.len() < length {
            let any = alive.is_empty() || rng.once_in(24);
            let next = if any {
                node(rng, map)
            } else {
                *rng.pick(&alive)
            };
            if list.contains(&next) && !rng.once_in(3) && alive.len() >= length {
                continue;
            }
            list.push(next);
        }
        lists.push(list);
    }
    match rng.below(24) {
        0 => drop(lists.pop()),
        1 => lists.iter_mut().take(1).for_each(Vec::clear),
        2 => lists
            .iter_mut()
            .for_each(|l| l.resize(8, l.first().copied().unwrap_or(1))),
        _ => {}
    }
    lists
}

fn create(rng: &mut Rng, map: &ShardMap) -> Command {
    let mut spec = Spec {
        dimension: 1 + rng.below(32) as u32,
        metric: rng.below(2) as u8,
        shards: 1 + rng.below(3) as u32,
        replication: 1 + rng.below(4) as u32,
    };
    match rng.below(20) {
        0 => spec.dimension = 0,
        1 => spec.shards = 0,
        2 => spec.replication = 0,
        3 => spec.shards = 12 + rng.below(5) as u32,
        4 => spec.replication = u32::MAX,
        _ => {}
    }
    let placement = lists(rng, map, &spec);
    Command::Create {
        name: name(rng),
        spec,
        placement,
    }
}

fn shard<'a>(rng: &mut Rng, map: &'a ShardMap) -> (Key, Option<&'a ShardInfo>) {
    let all: Vec<_> = map.shards.iter().collect();
    if all.is_empty() || rng.once_in(12) {
        let shard = rng.below(3) as u32;
        return (
            Key {
                name: name(rng),
                shard,
            },
            None,
        );
    }
    let (key, info) = *rng.pick(&all);
    let key = Key {
        name: key.collection.clone().into_bytes(),
        shard: key.shard,
    };
    (key, Some(info))
}

fn change(rng: &mut Rng, map: &ShardMap) -> Change {
    let (key, info) = shard(rng, map);
    let holders: Vec<u64> = info.map_or(vec![], |i| i.replicas.iter().map(|r| r.node.0).collect());
    let node = match holders.is_empty() || rng.once_in(4) {
        true => node(rng, map),
        false => *rng.pick(&holders),
    };
    let own = info.map_or(1, |i| i.epoch.0);
    let epoch = match rng.below(12) {
        0 => own + 1,
        1 => own - 1,
        2 => rng.corner(),
        _ => own,
    };
    Change { key, node, epoch }
}

/// A command that suits `map`, more or less.
pub fn command(rng: &mut Rng, map: &ShardMap) -> Command {
    match rng.below(26) {
        0..3 => create(rng, map),
        3 => Command::Drop { name: name(rng) },
        4..8 => {
            let node = match rng.once_in(2) {
                true => 1 + rng.below(12) as u64,
                false => node(rng, map),
            };
            let known = map.nodes.get(&rpc::DataNodeId(node));
            let next = known.map_or(1, |info| info.incarnation.saturating_add(1));
            Command::Register {
                node,
                address: address(rng),
                incarnation: next.saturating_sub(rng.below(3) as u64 / 2),
            }
        }
        8..10 => {
            let node = node(rng, map);
            let known = map.nodes.get(&rpc::DataNodeId(node));
            let incarnation = known.map_or(1, |info| info.incarnation);
            Command::MarkNodeDead {
                node,
                incarnation: if rng.once_in(4) {
                    rng.corner()
                } else {
                    incarnation
                },
            }
        }
        10..13 => {
            let Change { key, epoch, .. } = change(rng, map);
            let node = node(rng, map);
            let known = map.nodes.get(&rpc::DataNodeId(node));
            Command::AddReplica {
                key,
                node,
                incarnation: known.map_or_else(|| rng.corner(), |info| info.incarnation),
                epoch,
            }
        }
        13..15 => Command::Remove(change(rng, map)),
        15..18 => Command::Promote(change(rng, map)),
        18..21 => Command::Shrink(change(rng, map)),
        21..25 => Command::Expand(change(rng, map)),
        _ => {
            let length = if rng.once_in(8) { 1024 } else { rng.below(9) };
            Command::Bench {
                bytes: (0..length).map(|_| rng.next() as u8).collect(),
            }
        }
    }
}
