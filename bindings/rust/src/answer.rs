//! What the engine's numbers say.

use std::fmt;

/// Why a call was refused: nothing changed but, for a client's call, the count of refused calls.
#[derive(Clone, Copy, Debug, PartialEq, Eq)]
pub enum Refusal {
    UnknownShard,
    /// With the shard's own epoch.
    NotPrimary(u64),
    NoLease,
    TooFewInSync,
    Undecodable,
    OutsideDomain,
    NoRoom,
    Malformed,
    LastEpoch,
    NoWorker,
    /// A buffer shorter than the words of a rejection; `Map::apply_in_words` lends enough.
    ShortText,
    /// Answers to join: one out of order or with an id twice, or shards that do not rise.
    OutOfOrder,
    WrongShard,
    /// A position out of range.
    OutOfRange,
    NoThousandth,
    /// More placements than 64 bits count.
    TooMany,
    /// More than 4 ids, an id given twice, above 16 lists or 8 nodes.
    TooWide,
}

impl Refusal {
    /// `epoch` is what stood beside the number, for 18.
    pub(crate) fn from(number: u32, epoch: u64) -> Refusal {
        match number {
            17 => Refusal::UnknownShard,
            18 => Refusal::NotPrimary(epoch),
            19 => Refusal::NoLease,
            20 => Refusal::TooFewInSync,
            21 => Refusal::Undecodable,
            22 => Refusal::OutsideDomain,
            23 => Refusal::NoRoom,
            24 => Refusal::Malformed,
            25 => Refusal::LastEpoch,
            26 => Refusal::NoWorker,
            27 => Refusal::ShortText,
            28 => Refusal::OutOfOrder,
            29 => Refusal::WrongShard,
            30 => Refusal::OutOfRange,
            31 => Refusal::NoThousandth,
            35 => Refusal::TooMany,
            36 => Refusal::TooWide,
            other => panic!("the engine answered {other}, which catalogue.h does not list here"),
        }
    }

    pub fn number(self) -> u32 {
        match self {
            Refusal::UnknownShard => 17,
            Refusal::NotPrimary(_) => 18,
            Refusal::NoLease => 19,
            Refusal::TooFewInSync => 20,
            Refusal::Undecodable => 21,
            Refusal::OutsideDomain => 22,
            Refusal::NoRoom => 23,
            Refusal::Malformed => 24,
            Refusal::LastEpoch => 25,
            Refusal::NoWorker => 26,
            Refusal::ShortText => 27,
            Refusal::OutOfOrder => 28,
            Refusal::WrongShard => 29,
            Refusal::OutOfRange => 30,
            Refusal::NoThousandth => 31,
            Refusal::TooMany => 35,
            Refusal::TooWide => 36,
        }
    }
}

impl fmt::Display for Refusal {
    fn fmt(&self, f: &mut fmt::Formatter<'_>) -> fmt::Result {
        let words = match self {
            Refusal::UnknownShard => "the node does not hold the shard",
            Refusal::NotPrimary(epoch) => {
                return write!(f, "not the primary under that epoch; its own is {epoch}");
            }
            Refusal::NoLease => "no lease holds",
            Refusal::TooFewInSync => "fewer nodes in sync than asked for",
            Refusal::Undecodable => "bytes that are no such message, or a time above 2^62",
            Refusal::OutsideDomain => "a component that is not finite or above 2^32 in magnitude",
            Refusal::NoRoom => "a limit is reached, or an output is too short",
            Refusal::Malformed => "a state that the engine does not make",
            Refusal::LastEpoch => "the epoch cannot rise",
            Refusal::NoWorker => "an ack for a peer without a worker",
            Refusal::ShortText => "a buffer shorter than the words of a rejection",
            Refusal::OutOfOrder => "answers that are out of order",
            Refusal::WrongShard => "an id of another shard",
            Refusal::OutOfRange => "a position out of range",
            Refusal::NoThousandth => "a right ascension with no whole thousandth of a second",
            Refusal::TooMany => "more placements than 64 bits count",
            Refusal::TooWide => "more than 4 ids, an id given twice, above 16 lists or 8 nodes",
        };
        f.write_str(words)
    }
}

impl std::error::Error for Refusal {}

/// What became of a command that was not refused.
#[derive(Clone, Copy, Debug, PartialEq, Eq)]
pub enum Outcome {
    Applied,
    /// For the reason of that number, 1 to 16 (CATALOGUE_REJECTED_.. in catalogue.h).
    Rejected(u32),
}

/// Whether a write is acknowledged, and the peers for which a Shrink is to be proposed, rising.
#[derive(Clone, Debug, PartialEq, Eq)]
pub struct Waited {
    pub done: bool,
    pub shrink: Vec<u64>,
}

#[derive(Clone, Copy, Debug, PartialEq)]
pub struct Neighbor {
    pub id: u64,
    pub distance: f32,
}

#[derive(Clone, Copy, Debug, PartialEq, Eq)]
pub enum Metric {
    Euclidean,
    Angular,
}

impl Metric {
    pub(crate) fn code(self) -> u8 {
        match self {
            Metric::Euclidean => 0,
            Metric::Angular => 1,
        }
    }
}

/// A shard's key. A name is at most 32 bytes, each from 20 to 7E.
#[derive(Clone, Debug, PartialEq, Eq, Hash)]
pub struct Key {
    pub collection: Vec<u8>,
    pub shard: u32,
}

impl Key {
    pub fn new(collection: &str, shard: u32) -> Key {
        Key {
            collection: collection.as_bytes().to_vec(),
            shard,
        }
    }

    /// As on the wire, 37 bytes.
    pub(crate) fn from_wire(bytes: &[u8]) -> Key {
        let len = usize::from(bytes[0]);
        let shard = u32::from_le_bytes(bytes[33..37].try_into().expect("four bytes"));
        Key {
            collection: bytes[1..1 + len].to_vec(),
            shard,
        }
    }
}

/// A worker to start, in place of one that still runs for the same key and peer.
#[derive(Clone, Debug, PartialEq, Eq)]
pub struct Worker {
    pub key: Key,
    pub peer: u64,
    pub epoch: u64,
    pub metric: Metric,
}

/// What a request of a worker is, and so what its reply answers.
#[derive(Clone, Copy, Debug, PartialEq, Eq)]
pub enum Sent {
    Align,
    Replicate,
    Copy,
}

/// A worker's next step; a request goes to the peer.
#[derive(Clone, Debug, PartialEq, Eq)]
pub enum Step {
    Wait,
    Stop,
    Send(Sent, Vec<u8>),
}

/// What a primary proposes to the map.
#[derive(Clone, Copy, Debug, PartialEq, Eq)]
pub enum Proposal {
    Shrink,
    Expand,
}
