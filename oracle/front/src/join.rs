//! Program `join`: a row of cases, each the collection's shards, k, how many hits there is room
//! for and a length, all u32, and so many bytes of answers. It prints `found C` and C lines
//! `ID BITS`, or `refused N`. A case that is cut short ends the program with no line.
//!
//! The Rust joins nothing: this is a second reading of paper 02, 2.2, over its `shard_of` and the
//! standard library's `total_cmp`. Where all shards answered in full the stored answer is not this
//! one but that of the Rust's own search over all vectors together (`generate::joins`).

use std::collections::HashSet;
use std::fmt::Write;

const ANSWERS: usize = 16;
const HITS: usize = 1024;

#[derive(Clone, Copy)]
struct Hit {
    id: u64,
    bits: u32,
}

struct Answer {
    shard: u32,
    hits: Vec<Hit>,
}

fn u32_at(bytes: &[u8]) -> u32 {
    u32::from_le_bytes(bytes[..4].try_into().expect("four bytes"))
}

fn answers(mut bytes: &[u8]) -> Option<Vec<Answer>> {
    let mut all = Vec::new();
    while !bytes.is_empty() {
        let (head, rest) = bytes.split_at_checked(6)?;
        let count = usize::from(u16::from_le_bytes([head[4], head[5]]));
        if count > HITS {
            return None;
        }
        let (hits, rest) = rest.split_at_checked(12 * count)?;
        let hit = |b: &[u8]| Hit {
            id: u64::from_le_bytes(b[..8].try_into().expect("eight bytes")),
            bits: u32_at(&b[8..]),
        };
        all.push(Answer {
            shard: u32_at(head),
            hits: hits.chunks(12).map(hit).collect(),
        });
        bytes = rest;
    }
    Some(all)
}

fn nearer(a: &Hit, b: &Hit) -> std::cmp::Ordering {
    let order = f32::from_bits(a.bits).total_cmp(&f32::from_bits(b.bits));
    order.then(a.id.cmp(&b.id))
}

fn sound(all: &[Answer]) -> bool {
    all.len() <= ANSWERS
        && all.windows(2).all(|w| w[0].shard < w[1].shard)
        && all.iter().all(|a| {
            let ids: HashSet<u64> = a.hits.iter().map(|h| h.id).collect();
            a.hits.is_sorted_by(|x, y| nearer(x, y).is_le()) && ids.len() == a.hits.len()
        })
}

fn join(shards: u32, k: u32, room: u32, bytes: &[u8]) -> Result<Vec<Hit>, u8> {
    let all = answers(bytes).ok_or(21)?;
    if !sound(&all) {
        return Err(28);
    }
    let own = |a: &Answer| {
        a.hits
            .iter()
            .all(|h| rpc::shard_of(h.id, shards) == a.shard)
    };
    if !all.iter().all(own) {
        return Err(29);
    }
    let mut hits: Vec<Hit> = all.into_iter().flat_map(|a| a.hits).collect();
    hits.sort_by(nearer);
    hits.truncate(k as usize);
    if hits.len() > room as usize {
        return Err(23);
    }
    Ok(hits)
}

pub fn run(mut input: &[u8]) -> String {
    let mut out = String::new();
    while let Some((head, rest)) = input.split_at_checked(16) {
        let length = u32_at(&head[12..]) as usize;
        let Some((bytes, rest)) = rest.split_at_checked(length) else {
            return out;
        };
        input = rest;
        match join(u32_at(head), u32_at(&head[4..]), u32_at(&head[8..]), bytes) {
            Err(number) => writeln!(out, "refused {number}").expect("a string"),
            Ok(hits) => {
                writeln!(out, "found {}", hits.len()).expect("a string");
                for h in hits {
                    writeln!(out, "{} {:08x}", h.id, h.bits).expect("a string");
                }
            }
        }
    }
    out
}
