//! Program `loadsheet` of paper 02, 2.4: its input as that of `applymap`, and of the last map how
//! many replica records name each node, how many name a node that the map lacks, and how many there
//! are.

use std::fmt::Write;

use rpc::{Replica, ShardMap};

use crate::applymap;
use crate::map::Map;

pub fn run(input: &[u8]) -> String {
    let mut map = Map::default();
    applymap::lines(&mut map, input);
    sheet(map.machine.map())
}

fn sheet(map: &ShardMap) -> String {
    let records: Vec<&Replica> = map.shards.values().flat_map(|s| &s.replicas).collect();
    let mut out = String::new();
    for id in map.nodes.keys() {
        let count = records.iter().filter(|r| r.node == *id).count();
        writeln!(out, "{} {count}", id.0).expect("a string");
    }
    let unknown = records.iter().filter(|r| !map.nodes.contains_key(&r.node));
    writeln!(out, "unknown {}", unknown.count()).expect("a string");
    writeln!(out, "total {}", records.len()).expect("a string");
    out
}
