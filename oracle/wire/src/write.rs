//! The writer. It writes what it is given: limits are the reader's matter.

use crate::{ADDRESS_BYTES, Change, Command, Entry, Key, Message, NAME_BYTES, Op};

fn word(out: &mut Vec<u8>, number: u32) {
    out.extend(number.to_le_bytes());
}

fn long(out: &mut Vec<u8>, number: u64) {
    out.extend(number.to_le_bytes());
}

fn short(out: &mut Vec<u8>, count: usize) {
    out.extend((count as u16).to_le_bytes());
}

fn text(out: &mut Vec<u8>, bytes: &[u8], room: usize) {
    out.push(bytes.len() as u8);
    out.extend(bytes);
    out.resize(out.len() + room - bytes.len(), 0);
}

/// A key's 37 bytes.
pub fn key(key: &Key) -> Vec<u8> {
    let mut out = Vec::new();
    text(&mut out, &key.name, NAME_BYTES);
    word(&mut out, key.shard);
    out
}

/// A vector's count and components.
pub fn vector(bits: &[u32]) -> Vec<u8> {
    let mut out = vec![bits.len() as u8];
    bits.iter().for_each(|&b| word(&mut out, b));
    out
}

/// An operation.
pub fn op(op: &Op) -> Vec<u8> {
    let mut out = Vec::new();
    match op {
        Op::Put { id, vector: bits } => {
            out.push(1);
            long(&mut out, *id);
            out.extend(vector(bits));
        }
        Op::Delete { id } => {
            out.push(2);
            long(&mut out, *id);
        }
    }
    out
}

fn entry(out: &mut Vec<u8>, entry: &Entry) {
    long(out, entry.epoch);
    long(out, entry.offset);
    out.extend(op(&entry.op));
}

fn change(out: &mut Vec<u8>, code: u8, change: &Change) {
    out.push(code);
    out.extend(key(&change.key));
    long(out, change.node);
    long(out, change.epoch);
}

fn command(out: &mut Vec<u8>, command: &Command) {
    match command {
        Command::Create {
            name,
            spec,
            placement,
        } => {
            out.push(0x10);
            text(out, name, NAME_BYTES);
            word(out, spec.dimension);
            out.push(spec.metric);
            word(out, spec.shards);
            word(out, spec.replication);
            out.push(placement.len() as u8);
            for nodes in placement {
                out.push(nodes.len() as u8);
                nodes.iter().for_each(|&n| long(out, n));
            }
        }
        Command::Drop { name } => {
            out.push(0x11);
            text(out, name, NAME_BYTES);
        }
        Command::Register {
            node,
            address,
            incarnation,
        } => {
            out.push(0x12);
            long(out, *node);
            text(out, address, ADDRESS_BYTES);
            long(out, *incarnation);
        }
        Command::MarkNodeDead { node, incarnation } => {
            out.push(0x13);
            long(out, *node);
            long(out, *incarnation);
        }
        Command::AddReplica {
            key: shard,
            node,
            incarnation,
            epoch,
        } => {
            out.push(0x14);
            out.extend(key(shard));
            long(out, *node);
            long(out, *incarnation);
            long(out, *epoch);
        }
        Command::Remove(c) => change(out, 0x15, c),
        Command::Promote(c) => change(out, 0x16, c),
        Command::Shrink(c) => change(out, 0x17, c),
        Command::Expand(c) => change(out, 0x18, c),
        Command::Bench { bytes } => {
            out.push(0x19);
            short(out, bytes.len());
            out.extend(bytes);
        }
    }
}

/// The bytes of `message`.
pub fn write(message: &Message) -> Vec<u8> {
    let mut out = Vec::new();
    match message {
        Message::Request(request) => {
            out.push(0x01);
            long(&mut out, request.index);
            long(&mut out, request.client);
            long(&mut out, request.seq);
            command(&mut out, &request.command);
        }
        Message::Replicate {
            key: shard,
            epoch,
            offset,
            op: change,
        } => {
            out.push(0x20);
            out.extend(key(shard));
            long(&mut out, *epoch);
            long(&mut out, *offset);
            out.extend(op(change));
        }
        Message::NewEpoch {
            key: shard,
            epoch,
            end_offset,
            epochs,
            metric,
        } => {
            out.push(0x21);
            out.extend(key(shard));
            long(&mut out, *epoch);
            long(&mut out, *end_offset);
            short(&mut out, epochs.len());
            for (epoch, end) in epochs {
                long(&mut out, *epoch);
                long(&mut out, *end);
            }
            out.push(*metric);
        }
        Message::CopyShard {
            key: shard,
            epoch,
            entries,
        } => {
            out.push(0x22);
            out.extend(key(shard));
            long(&mut out, *epoch);
            short(&mut out, entries.len());
            entries.iter().for_each(|e| entry(&mut out, e));
        }
        Message::Write {
            key: shard,
            epoch,
            op: change,
        } => {
            out.push(0x23);
            out.extend(key(shard));
            long(&mut out, *epoch);
            out.extend(op(change));
        }
        Message::Search {
            key: shard,
            epoch,
            k,
            vector: query,
        } => {
            out.push(0x24);
            out.extend(key(shard));
            long(&mut out, *epoch);
            word(&mut out, *k);
            out.extend(vector(query));
        }
        Message::Stored(n) => reply(&mut out, 0x30, *n),
        Message::Gap(n) => reply(&mut out, 0x31, *n),
        Message::StaleEpoch(n) => reply(&mut out, 0x32, *n),
        Message::Adopted(n) => reply(&mut out, 0x33, *n),
    }
    out
}

fn reply(out: &mut Vec<u8>, code: u8, number: u64) {
    out.push(code);
    long(out, number);
}
