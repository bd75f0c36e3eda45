//! The bytes on the wire as paper 01 has them ('Bytes on the wire'), read and written from the
//! paper alone: this crate knows neither the Rust sources nor the engine.
//!
//! `read` takes only what `write` writes; floats stay bits, so a component outside the domain
//! is read like any other. What the values mean is left to the callers.

mod read;
mod text;
mod write;

pub use read::{read, read_first, read_key, read_op, read_vector};
pub use text::line;
pub use write::{key, op, vector, write};

pub const NAME_BYTES: usize = 32;
pub const ADDRESS_BYTES: usize = 64;
pub const KEY_BYTES: usize = 1 + NAME_BYTES + 4;
pub const COMPONENTS: usize = 32;
pub const LISTS: usize = 16;
pub const REPLICAS: usize = 8;
pub const BENCH_BYTES: usize = 1024;
pub const PAIRS: usize = 1024;
pub const BATCH: usize = 256;

/// A shard's name.
#[derive(Debug, Clone, PartialEq, Eq, PartialOrd, Ord)]
pub struct Key {
    pub name: Vec<u8>,
    pub shard: u32,
}

/// A change to one vector; its components are bits.
#[derive(Debug, Clone, PartialEq, Eq)]
pub enum Op {
    Put { id: u64, vector: Vec<u32> },
    Delete { id: u64 },
}

/// One entry of a log.
#[derive(Debug, Clone, PartialEq, Eq)]
pub struct Entry {
    pub epoch: u64,
    pub offset: u64,
    pub op: Op,
}

/// What Create, Remove, Promote, Shrink and Expand speak of.
#[derive(Debug, Clone, PartialEq, Eq)]
pub struct Change {
    pub key: Key,
    pub node: u64,
    pub epoch: u64,
}

/// A collection's settings; the metric is its byte.
#[derive(Debug, Clone, PartialEq, Eq)]
pub struct Spec {
    pub dimension: u32,
    pub metric: u8,
    pub shards: u32,
    pub replication: u32,
}

/// Codes 10 to 19.
#[derive(Debug, Clone, PartialEq, Eq)]
pub enum Command {
    Create {
        name: Vec<u8>,
        spec: Spec,
        placement: Vec<Vec<u64>>,
    },
    Drop {
        name: Vec<u8>,
    },
    Register {
        node: u64,
        address: Vec<u8>,
        incarnation: u64,
    },
    MarkNodeDead {
        node: u64,
        incarnation: u64,
    },
    AddReplica {
        key: Key,
        node: u64,
        incarnation: u64,
        epoch: u64,
    },
    Remove(Change),
    Promote(Change),
    Shrink(Change),
    Expand(Change),
    Bench {
        bytes: Vec<u8>,
    },
}

/// Code 01.
#[derive(Debug, Clone, PartialEq, Eq)]
pub struct Request {
    pub index: u64,
    pub client: u64,
    pub seq: u64,
    pub command: Command,
}

/// Every kind of message.
#[derive(Debug, Clone, PartialEq, Eq)]
pub enum Message {
    Request(Request),
    Replicate {
        key: Key,
        epoch: u64,
        offset: u64,
        op: Op,
    },
    NewEpoch {
        key: Key,
        epoch: u64,
        end_offset: u64,
        epochs: Vec<(u64, u64)>,
        metric: u8,
    },
    CopyShard {
        key: Key,
        epoch: u64,
        entries: Vec<Entry>,
    },
    Write {
        key: Key,
        epoch: u64,
        op: Op,
    },
    Search {
        key: Key,
        epoch: u64,
        k: u32,
        vector: Vec<u32>,
    },
    Stored(u64),
    Gap(u64),
    StaleEpoch(u64),
    Adopted(u64),
}

/// Whether a component is finite and at most 2^32 in magnitude.
pub fn in_domain(bits: u32) -> bool {
    bits & 0x7fff_ffff <= 0x4f80_0000
}
