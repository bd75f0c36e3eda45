//! The state as `replay` prints it: a held shard and the map.

use std::fmt::Write;

use datanode::node::inside::{Held, Role};
use datanode::shard::ShardReplica;
use rpc::{LogEntry, NodeStatus, Outcome, ShardInfo, ShardKey, WriteOp};

use crate::convert;
use crate::map::Map;
use crate::reason::{self, Operand};

pub fn hex(bytes: &[u8]) -> String {
    bytes.iter().map(|b| format!("{b:02x}")).collect()
}

/// Bytes of a name or an address; `-` if there are none.
pub fn text(bytes: &str) -> String {
    match bytes {
        "" => "-".into(),
        _ => hex(bytes.as_bytes()),
    }
}

pub fn key(key: &ShardKey) -> String {
    hex(&wire::key(&convert::wire_key(key)))
}

pub fn floats(vector: &[f32]) -> String {
    let bits = vector.iter().map(|f| format!(" {:08x}", f.to_bits()));
    bits.collect()
}

pub fn held(held: &Held) -> String {
    let replica = &held.replica;
    let metric = convert::metric_byte(*replica.field_metric());
    let mut out = format!(
        "held {} {metric} {}\n",
        replica.epoch().0,
        replica.last_offset()
    );
    match &held.role {
        None => out.push_str("role backup\n"),
        Some(primary) => role(&mut out, primary),
    }
    log_and_vectors(&mut out, replica);
    out
}

/// The entries of a replica, its vectors by rising id, and `end`.
pub fn log_and_vectors(out: &mut String, replica: &ShardReplica) {
    replica.field_log().iter().for_each(|e| entry(out, e));
    for id in replica.ids() {
        let vector = replica.vector(id).expect("listed");
        writeln!(out, "vector {id}{}", floats(vector)).expect("a string");
    }
    out.push_str("end\n");
}

fn role(out: &mut String, role: &Role) {
    let own = u8::from(role.own);
    writeln!(out, "role primary {} {} {own}", role.epoch, role.end_offset).expect("a string");
    for row in &role.rows {
        let behind = row.behind.map_or("-".into(), |t| t.to_string());
        writeln!(
            out,
            "peer {} {} {} {behind} {} {}",
            row.node,
            row.acked,
            u8::from(row.aligned),
            u8::from(row.proposing),
            u8::from(row.in_ack_set)
        )
        .expect("a string");
    }
}

pub fn entry(out: &mut String, entry: &LogEntry) {
    let what = match &entry.op {
        WriteOp::Upsert { id, vector } => format!("put {id}{}", floats(vector)),
        WriteOp::Delete { id } => format!("delete {id}"),
    };
    writeln!(out, "entry {} {} {what}", entry.epoch.0, entry.offset).expect("a string");
}

pub fn map(map: &Map) -> String {
    let shown = map.machine.map();
    let mut out = format!("version {}\n", shown.version);
    for (id, node) in &shown.nodes {
        let status = match node.status {
            NodeStatus::Alive => "alive",
            NodeStatus::Dead => "dead",
        };
        let address = text(&node.address);
        writeln!(out, "node {} {} {status} {address}", id.0, node.incarnation).expect("a string");
    }
    for (name, spec) in &shown.collections {
        let metric = convert::metric_byte(spec.metric);
        writeln!(
            out,
            "collection {} {} {metric} {} {}",
            text(name),
            spec.dimension,
            spec.shards,
            spec.replication
        )
        .expect("a string");
    }
    for (name, info) in &shown.shards {
        shard(&mut out, name, info);
    }
    for (client, (seq, outcome)) in map.machine.field_sessions() {
        writeln!(out, "session {client} {seq} {}", remembered(outcome)).expect("a string");
    }
    out.push_str("end\n");
    out
}

fn shard(out: &mut String, name: &ShardKey, info: &ShardInfo) {
    let primary = info.primary.map_or("-".into(), |n| n.0.to_string());
    write!(
        out,
        "shard {} {} {primary} replicas",
        key(name),
        info.epoch.0
    )
    .expect("a string");
    for replica in &info.replicas {
        write!(out, " {}:{}", replica.node.0, replica.incarnation).expect("a string");
    }
    out.push_str(" sync");
    for node in &info.in_sync {
        write!(out, " {}", node.0).expect("a string");
    }
    out.push('\n');
}

fn remembered(outcome: &Outcome) -> String {
    let Some(reason) = reason::reason(outcome) else {
        return "applied".into();
    };
    let mut words = reason.number.to_string();
    for operand in &reason.operands {
        words.push(' ');
        words.push_str(&match operand {
            Operand::Name(name) => text(name),
            Operand::Number(number) => number.to_string(),
            Operand::Key(shard) => key(shard),
        });
    }
    words
}
