//! Values of the wire as the Rust's own types, and back where a request is written.

use datanode::node::inside::Asked;
use rpc::{
    CollectionSpec, ControlCommand, CopyShard, DataNodeId, Epoch, LogEntry, Metric, NewEpoch,
    Replicate, ShardKey, WriteOp,
};
use wire::{Change, Command, Entry, Key, Message, Op};

/// Texts are of 20 to 7E hexadecimal, so they are strings.
pub fn string(bytes: &[u8]) -> String {
    String::from_utf8(bytes.to_vec()).expect("printable bytes")
}

pub fn key(key: &Key) -> ShardKey {
    ShardKey {
        collection: string(&key.name),
        shard: key.shard,
    }
}

pub fn wire_key(key: &ShardKey) -> Key {
    Key {
        name: key.collection.clone().into_bytes(),
        shard: key.shard,
    }
}

pub fn metric(byte: u8) -> Metric {
    match byte {
        0 => Metric::Euclidean,
        _ => Metric::Angular,
    }
}

pub fn metric_byte(metric: Metric) -> u8 {
    match metric {
        Metric::Euclidean => 0,
        Metric::Angular => 1,
    }
}

pub fn floats(bits: &[u32]) -> Vec<f32> {
    bits.iter().map(|&b| f32::from_bits(b)).collect()
}

pub fn op(op: &Op) -> WriteOp {
    match op {
        Op::Put { id, vector } => WriteOp::Upsert {
            id: *id,
            vector: floats(vector),
        },
        Op::Delete { id } => WriteOp::Delete { id: *id },
    }
}

/// Whether all the components of an operation are in the domain.
pub fn op_in_domain(op: &Op) -> bool {
    match op {
        Op::Put { vector, .. } => vector.iter().all(|&b| wire::in_domain(b)),
        Op::Delete { .. } => true,
    }
}

fn wire_op(op: &WriteOp) -> Op {
    match op {
        WriteOp::Upsert { id, vector } => Op::Put {
            id: *id,
            vector: vector.iter().map(|f| f.to_bits()).collect(),
        },
        WriteOp::Delete { id } => Op::Delete { id: *id },
    }
}

pub fn entry(entry: &Entry) -> LogEntry {
    LogEntry {
        epoch: Epoch(entry.epoch),
        offset: entry.offset,
        op: op(&entry.op),
    }
}

fn wire_entry(entry: &LogEntry) -> Entry {
    Entry {
        epoch: entry.epoch.0,
        offset: entry.offset,
        op: wire_op(&entry.op),
    }
}

fn placement(lists: &[Vec<u64>]) -> Vec<Vec<DataNodeId>> {
    let list = |nodes: &Vec<u64>| nodes.iter().copied().map(DataNodeId).collect();
    lists.iter().map(list).collect()
}

pub fn command(command: &Command) -> ControlCommand {
    let parts = |c: &Change| (key(&c.key), DataNodeId(c.node), Epoch(c.epoch));
    match command {
        Command::Create {
            name,
            spec,
            placement: lists,
        } => ControlCommand::CreateCollection {
            name: string(name),
            spec: CollectionSpec {
                dimension: spec.dimension,
                metric: metric(spec.metric),
                shards: spec.shards,
                replication: spec.replication,
            },
            placement: placement(lists),
        },
        Command::Drop { name } => ControlCommand::DropCollection { name: string(name) },
        Command::Register {
            node,
            address,
            incarnation,
        } => ControlCommand::RegisterNode {
            node: DataNodeId(*node),
            address: string(address),
            incarnation: *incarnation,
        },
        Command::MarkNodeDead { node, incarnation } => ControlCommand::MarkNodeDead {
            node: DataNodeId(*node),
            incarnation: *incarnation,
        },
        Command::AddReplica {
            key: shard,
            node,
            incarnation,
            epoch,
        } => ControlCommand::AddReplica {
            shard: key(shard),
            node: DataNodeId(*node),
            incarnation: *incarnation,
            epoch: Epoch(*epoch),
        },
        Command::Remove(c) => {
            let (shard, node, epoch) = parts(c);
            ControlCommand::RemoveReplica { shard, node, epoch }
        }
        Command::Promote(c) => {
            let (shard, node, epoch) = parts(c);
            ControlCommand::PromotePrimary { shard, node, epoch }
        }
        Command::Shrink(c) => {
            let (shard, node, epoch) = parts(c);
            ControlCommand::ShrinkInSync { shard, node, epoch }
        }
        Command::Expand(c) => {
            let (shard, node, epoch) = parts(c);
            ControlCommand::ExpandInSync { shard, node, epoch }
        }
        Command::Bench { bytes } => ControlCommand::Bench {
            padding: bytes.clone(),
        },
    }
}

/// The bytes of a worker's request; none where it waits or stops.
pub fn request(asked: &Asked) -> Option<Message> {
    match asked {
        Asked::Wait | Asked::Stop => None,
        Asked::Align(m) => Some(align(m)),
        Asked::Replicate(m) => Some(replicate(m)),
        Asked::Copy(m) => Some(copy(m)),
    }
}

fn align(message: &NewEpoch) -> Message {
    Message::NewEpoch {
        key: wire_key(&message.shard),
        epoch: message.epoch.0,
        end_offset: message.end_offset,
        epochs: message.epochs.iter().map(|(e, end)| (e.0, *end)).collect(),
        metric: metric_byte(message.metric),
    }
}

fn replicate(message: &Replicate) -> Message {
    Message::Replicate {
        key: wire_key(&message.shard),
        epoch: message.epoch.0,
        offset: message.offset,
        op: wire_op(&message.op),
    }
}

fn copy(message: &CopyShard) -> Message {
    Message::CopyShard {
        key: wire_key(&message.shard),
        epoch: message.epoch.0,
        entries: message.entries.iter().map(wire_entry).collect(),
    }
}
