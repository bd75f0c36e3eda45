//! Program `placement`: a row of calls on one map, at first empty, and what each answers: the
//! Rust's `place` and `replacement` on maps that requests have built. A record is: call u8, length
//! u16, and so many bytes of operands. An unknown call or a record that is cut short ends the
//! program with no line; operands that do not decode print `refused 21`.

use rpc::ShardKey;
use wire::Message;

use crate::map::{Answer, Map};
use crate::{convert, counts, replay};

/// Calls by number.
pub mod call {
    /// no operands: the map is empty again
    pub const EMPTY: u8 = 0;
    /// message 01
    pub const APPLY: u8 = 1;
    /// shards u32, replication u32
    pub const PLACE: u8 = 2;
    /// shard u32, and the bytes of the collection's name
    pub const REPLACEMENT: u8 = 3;
    /// dimension, shards, replication, lists and nodes u32 each, the length of the ids u8, the ids
    /// u64 each, and the bytes of the collection's name
    pub const COUNT: u8 = 4;
}

/// The lines of an answer, or the refusal in their place.
pub type Lines = Result<String, u8>;

fn read(input: &[u8]) -> Option<(u8, &[u8], &[u8])> {
    let (&[call, low, high], rest) = input.split_first_chunk::<3>()?;
    let (operands, rest) = rest.split_at_checked(usize::from(u16::from_le_bytes([low, high])))?;
    (call <= call::COUNT).then_some((call, operands, rest))
}

pub fn run(mut input: &[u8]) -> String {
    let mut map = Map::default();
    let mut out = String::new();
    while let Some((call, operands, rest)) = read(input) {
        input = rest;
        let lines = match call {
            call::EMPTY => empty(&mut map, operands),
            call::APPLY => apply(&mut map, operands),
            call::PLACE => place(&map, operands),
            call::REPLACEMENT => replacement(&map, operands),
            _ => count(&map, operands),
        };
        out.push_str(&lines.unwrap_or_else(|number| format!("refused {number}\n")));
    }
    out
}

fn empty(map: &mut Map, operands: &[u8]) -> Lines {
    if !operands.is_empty() {
        return Err(21);
    }
    *map = Map::default();
    Ok("ok\n".into())
}

pub fn apply(map: &mut Map, operands: &[u8]) -> Lines {
    let Some(Message::Request(request)) = wire::read(operands) else {
        return Err(21);
    };
    match map.apply(&request) {
        Answer::Applied => Ok("applied\n".into()),
        Answer::Rejected(reason) => Ok(format!("rejected {reason}\n")),
        Answer::Refused(number) => Err(number),
    }
}

fn place(map: &Map, operands: &[u8]) -> Lines {
    let (words, []) = operands.as_chunks::<4>() else {
        return Err(21);
    };
    let &[shards, replication] = words else {
        return Err(21);
    };
    let placed = map.place(u32::from_le_bytes(shards), u32::from_le_bytes(replication));
    placed.map(replay::place_lines)
}

/// Six counts by asking the Rust's Create of every placement; the line stands there twice, for the
/// engine's closed form and for its own walk. More than the program walks are told by number alone.
fn count(map: &Map, operands: &[u8]) -> Lines {
    let (numbers, rest) = operands.split_first_chunk::<21>().ok_or(21)?;
    let word = |i: usize| u32::from_le_bytes(numbers[4 * i..4 * i + 4].try_into().expect("four"));
    let (ids, name) = rest.split_at_checked(numbers[20].into()).ok_or(21)?;
    let (ids, []) = ids.as_chunks::<8>() else {
        return Err(21);
    };
    if !is_name(name) {
        return Err(21);
    }
    let ids: Vec<u64> = ids.iter().map(|id| u64::from_le_bytes(*id)).collect();
    let spec = wire::Spec {
        dimension: word(0),
        metric: 0,
        shards: word(1),
        replication: word(2),
    };
    let six = counts::count(map, name, &spec, &ids, word(3), word(4))?;
    let numbers: String = six.iter().map(|n| format!(" {n}")).collect();
    Ok(format!("counted{numbers}\nwalked{numbers}\n"))
}

/// A name is of 20 to 7E hexadecimal, and no longer than a name may be.
pub fn is_name(name: &[u8]) -> bool {
    name.len() <= wire::NAME_BYTES && name.iter().all(|b| (0x20..=0x7e).contains(b))
}

fn replacement(map: &Map, operands: &[u8]) -> Lines {
    let Some((shard, name)) = operands.split_first_chunk::<4>() else {
        return Err(21);
    };
    if !is_name(name) {
        return Err(21);
    }
    let key = ShardKey {
        collection: convert::string(name),
        shard: u32::from_le_bytes(*shard),
    };
    Ok(match map.replacement(&key) {
        None => "none\n".into(),
        Some(node) => format!("node {}\n", node.0),
    })
}
