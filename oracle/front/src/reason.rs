//! Paper 01's numbers for the rejections of the Rust, read back from its words, with operands.

use rpc::{Outcome, ShardKey};

/// An operand of a reason, in the order in which `replay` prints them.
#[derive(Debug, Clone, PartialEq, Eq)]
pub enum Operand {
    Name(String),
    Number(u64),
    Key(ShardKey),
}

/// A reason from 1 to 16 with its operands.
#[derive(Debug, Clone, PartialEq, Eq)]
pub struct Reason {
    pub number: u8,
    pub operands: Vec<Operand>,
}

/// The reason of an outcome; none if it was applied.
pub fn reason(outcome: &Outcome) -> Option<Reason> {
    match outcome {
        Outcome::Applied => None,
        Outcome::Rejected(words) => Some(parse(words).expect("words of the Rust")),
    }
}

fn parse(words: &str) -> Option<Reason> {
    let plain = |number| Some(of(number, vec![]));
    match words {
        "an older command from this client" => return plain(1),
        "shards, replication, and dimension must be positive" => return plain(3),
        "the placement does not match the collection" => return plain(4),
        "the primary cannot be removed" => return plain(12),
        "the primary stays in sync" => return plain(15),
        _ => {}
    }
    if let Some(rest) = words.strip_prefix("collection ") {
        return Some(of(
            2,
            vec![Operand::Name(rest.strip_suffix(" exists")?.into())],
        ));
    }
    if let Some(name) = words.strip_prefix("no collection ") {
        return Some(of(6, vec![Operand::Name(name.into())]));
    }
    if let Some(rest) = words.strip_prefix("no shard ") {
        return Some(of(9, vec![key(rest)?]));
    }
    if let Some(rest) = words.strip_prefix("shard ") {
        return other_epoch(rest);
    }
    of_node(words.strip_prefix("node ")?)
}

fn of(number: u8, operands: Vec<Operand>) -> Reason {
    Reason { number, operands }
}

/// `NAME/NUMBER`, read from the right: a name may hold any of the other signs.
fn key(text: &str) -> Option<Operand> {
    let (collection, shard) = text.rsplit_once('/')?;
    Some(Operand::Key(ShardKey {
        collection: collection.into(),
        shard: shard.parse().ok()?,
    }))
}

fn number(text: &str) -> Option<Operand> {
    text.parse().ok().map(Operand::Number)
}

fn other_epoch(rest: &str) -> Option<Reason> {
    let (rest, given) = rest.rsplit_once(", not ")?;
    let (shard, own) = rest.rsplit_once(" is at epoch ")?;
    Some(of(10, vec![key(shard)?, number(own)?, number(given)?]))
}

fn of_node(rest: &str) -> Option<Reason> {
    let (node, what) = rest.split_once(' ')?;
    let node = number(node)?;
    if let Some(known) = what.strip_prefix("is already at incarnation ") {
        return Some(of(7, vec![node, number(known)?]));
    }
    if let Some(given) = what.strip_prefix("is not at incarnation ") {
        return Some(of(8, vec![node, number(given)?]));
    }
    let reason = match what {
        "is not alive" => 5,
        "already holds the shard" => 11,
        "does not hold the shard" => 13,
        "is not in sync" => 14,
        "is already in sync" => 16,
        _ => return None,
    };
    Some(of(reason, vec![node]))
}
