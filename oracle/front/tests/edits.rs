//! What each patch of oracle/edits changes: the edited Rust, crate `datanode`, beside the published.

use std::collections::{BTreeMap, BTreeSet};

use rpc::{
    CollectionSpec, CopyShard, DataNodeId, Epoch, LogEntry, Metric, NewEpoch, NewEpochAck, Replica,
    ShardInfo, ShardKey, ShardMap, WriteOp,
};

fn key() -> ShardKey {
    ShardKey {
        collection: "a".into(),
        shard: 0,
    }
}

/// Shard `a/0` on nodes 1 and 2.
fn map(version: u64, primary: u64, epoch: u64) -> ShardMap {
    let nodes = [1, 2].map(DataNodeId);
    let spec = CollectionSpec {
        dimension: 1,
        metric: Metric::Euclidean,
        shards: 1,
        replication: 2,
    };
    let shard = ShardInfo {
        replicas: nodes
            .map(|node| Replica {
                node,
                incarnation: 7,
            })
            .into(),
        primary: Some(DataNodeId(primary)),
        in_sync: BTreeSet::from(nodes),
        epoch: Epoch(epoch),
    };
    ShardMap {
        version,
        collections: BTreeMap::from([("a".into(), spec)]),
        nodes: BTreeMap::new(),
        shards: BTreeMap::from([(key(), shard)]),
    }
}

/// Node 1 of a Rust, shown a map in which it is a backup at epoch 0.
macro_rules! backup {
    ($rust:ident) => {{
        let node = $rust::node::inside::make(&$rust::node::inside::Settings {
            id: 1,
            incarnation: 7,
            lease: 0,
            ack_timeout: 0,
            min_in_sync: 0,
        });
        $rust::node::inside::show(&node, map(1, 2, 1), 0);
        node
    }};
}

fn one_entry(epoch: u64) -> CopyShard {
    CopyShard {
        shard: key(),
        epoch: Epoch(0),
        entries: vec![LogEntry {
            epoch: Epoch(epoch),
            offset: 1,
            op: WriteOp::Delete { id: 1 },
        }],
    }
}

/// How the worker of a primary at epoch 2 sends a log of one entry, by the entry's epoch.
macro_rules! lone_entry_goes {
    ($rust:ident, $epoch:expr) => {{
        use $rust::node::inside::{self, Asked};
        let node = backup!($rust);
        inside::copy_shard(&node, one_entry($epoch));
        inside::show(&node, map(2, 1, 2), 0);
        inside::record_ack(&node, &key(), 2, 2, 0, true);
        match inside::step(&node, &key(), 2, 2, Metric::Euclidean).0 {
            Asked::Replicate(_) => "replicate",
            Asked::Copy(_) => "copy",
            _ => "neither",
        }
    }};
}

#[test]
fn a_lone_entry_keeps_its_epoch() {
    assert_eq!(
        [1, 2, 3].map(|e| lone_entry_goes!(published, e)),
        ["replicate"; 3]
    );
    let edited = [1, 2, 3].map(|e| lone_entry_goes!(datanode, e));
    assert_eq!(edited, ["copy", "replicate", "copy"]);
}

/// What an alignment with an empty table is answered at a log of one entry whose own epoch is 0,
/// and the last offset that is left.
macro_rules! aligned {
    ($rust:ident, $epoch:expr) => {{
        use $rust::node::inside;
        let node = backup!($rust);
        inside::copy_shard(&node, one_entry(0));
        let answer = inside::new_epoch(
            &node,
            NewEpoch {
                shard: key(),
                epoch: Epoch($epoch),
                end_offset: 0,
                epochs: Vec::new(),
                metric: Metric::Euclidean,
            },
        );
        (answer, inside::last_offset(&node, &key()))
    }};
}

#[test]
fn a_late_alignment_keeps_the_log() {
    let adopted = |through| (NewEpochAck::Adopted { through }, Some(through));
    assert_eq!(aligned!(published, 0), adopted(0));
    assert_eq!(aligned!(datanode, 0), adopted(1));
    assert_eq!(aligned!(published, 1), adopted(0));
    assert_eq!(aligned!(datanode, 1), adopted(0));
}
