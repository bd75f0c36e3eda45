//! Program `losses` of paper 02, 2.9: a row of calls on one map, at first empty, and what each answers. Which single live
//! node, marked dead, changes the answer of the Rust's `place` is found by trying: the map is copied with that node dead,
//! and `place` is asked again. Records are those of program `placement`.

use std::collections::BTreeMap;
use std::fmt::Write;

use rpc::{DataNodeId, NodeStatus, ShardMap};

use crate::map::{Map, Placed, place_on};
use crate::placement::{Lines, apply, is_name};
use crate::{convert, replay};

/// Calls by number.
pub mod call {
    /// no operands: the map is empty again
    pub const EMPTY: u8 = 0;
    /// message 01
    pub const APPLY: u8 = 1;
    /// place of the collection's row u32, and the bytes of its name
    pub const LOSSES: u8 = 2;
    /// place of a collection's row u32, shards u32, replication u32: its spec from now on, as no command makes it
    pub const SPEC: u8 = 3;
}

const COLLECTIONS: u32 = 16;

/// A map, and the specs that were changed in its image.
#[derive(Default)]
struct Lent {
    map: Map,
    specs: BTreeMap<String, (u32, u32)>,
}

fn read(input: &[u8]) -> Option<(u8, &[u8], &[u8])> {
    let (&[call, low, high], rest) = input.split_first_chunk::<3>()?;
    let (operands, rest) = rest.split_at_checked(usize::from(u16::from_le_bytes([low, high])))?;
    (call <= call::SPEC).then_some((call, operands, rest))
}

pub fn run(mut input: &[u8]) -> String {
    let mut lent = Lent::default();
    let mut out = String::new();
    while let Some((call, operands, rest)) = read(input) {
        input = rest;
        let lines = match call {
            call::EMPTY => empty(&mut lent, operands),
            call::APPLY => apply(&mut lent.map, operands),
            call::LOSSES => losses(&lent, operands),
            _ => spec(&mut lent, operands),
        };
        out.push_str(&lines.unwrap_or_else(|number| format!("refused {number}\n")));
    }
    out
}

fn empty(lent: &mut Lent, operands: &[u8]) -> Lines {
    if !operands.is_empty() {
        return Err(21);
    }
    *lent = Lent::default();
    Ok("ok\n".into())
}

fn spec(lent: &mut Lent, operands: &[u8]) -> Lines {
    let (words, []) = operands.as_chunks::<4>() else {
        return Err(21);
    };
    let &[row, shards, replication] = words else {
        return Err(21);
    };
    let row = u32::from_le_bytes(row);
    if row >= COLLECTIONS {
        return Err(21);
    }
    let name = lent.map.machine.map().collections.keys().nth(row as usize);
    if let Some(name) = name {
        let spec = (u32::from_le_bytes(shards), u32::from_le_bytes(replication));
        lent.specs.insert(name.clone(), spec);
    }
    Ok("ok\n".into())
}

fn losses(lent: &Lent, operands: &[u8]) -> Lines {
    let Some((row, name)) = operands.split_first_chunk::<4>() else {
        return Err(21);
    };
    if u32::from_le_bytes(*row) >= COLLECTIONS || !is_name(name) {
        return Err(21);
    }
    let map = lent.map.machine.map();
    let name = convert::string(name);
    let mut rows = Vec::new();
    if let Some(own) = map.collections.get(&name) {
        let own = (own.shards, own.replication);
        let (shards, replication) = *lent.specs.get(&name).unwrap_or(&own);
        let now = place_on(map, shards, replication);
        for (id, node) in &map.nodes {
            let then = place_on(&without(map, *id), shards, replication);
            if node.status == NodeStatus::Alive && then != now {
                rows.push((*id, then));
            }
        }
    }
    let mut out = format!("losses {}\n", rows.len());
    for (id, then) in rows {
        writeln!(out, "node {}", id.0).expect("a string");
        out.push_str(&lines(then));
    }
    Ok(out)
}

fn without(map: &ShardMap, node: DataNodeId) -> ShardMap {
    let mut left = map.clone();
    if let Some(row) = left.nodes.get_mut(&node) {
        row.status = NodeStatus::Dead;
    }
    left
}

fn lines(placed: Placed) -> String {
    placed
        .map(replay::place_lines)
        .unwrap_or_else(|number| format!("refused {number}\n"))
}
