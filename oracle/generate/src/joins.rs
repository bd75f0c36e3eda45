//! Cases of `join`: collections of 1 to 16 shards whose answers are the Rust's own searches of
//! each shard, with the Rust's one search over all vectors together; and answers that are wrong in
//! each way, alone and two at once.

use datanode::shard::ShardReplica;
use front::{convert, join, search};
use rpc::{Epoch, Neighbor};
use wire::Op;

use crate::floats::{self, KINDS};
use crate::rng::Rng;

fn case(shards: u32, k: u32, room: u32, answers: &[u8]) -> Vec<u8> {
    let mut out = Vec::new();
    for n in [shards, k, room, answers.len() as u32] {
        out.extend(n.to_le_bytes());
    }
    out.extend(answers);
    out
}

/// One answer as bytes.
fn answer(shard: u32, hits: &[(u64, u32)]) -> Vec<u8> {
    let mut out = shard.to_le_bytes().to_vec();
    out.extend((hits.len() as u16).to_le_bytes());
    for (id, bits) in hits {
        out.extend(id.to_le_bytes());
        out.extend(bits.to_le_bytes());
    }
    out
}

fn pairs(found: &[Neighbor]) -> Vec<(u64, u32)> {
    found.iter().map(|n| (n.id, n.distance.to_bits())).collect()
}

/// A collection's shards asked one by one, and the lines of one search over all vectors.
fn whole(rng: &mut Rng, few: bool) -> (Vec<u8>, String) {
    let shards = 1 + rng.below(16) as u32;
    let kind = *rng.pick(&KINDS);
    let length = 1 + rng.below(4);
    let metric = rng.below(2) as u8;
    let new = || ShardReplica::new(Epoch(0), convert::metric(metric));
    let mut parts: Vec<ShardReplica> = (0..shards).map(|_| new()).collect();
    let mut all = new();
    let mut seen: Vec<Vec<u32>> = Vec::new();
    for _ in 0..rng.below(if few { 40 } else { 400 }) {
        let id = if rng.once_in(6) {
            rng.corner()
        } else {
            rng.below(if few { 100 } else { 2000 }) as u64
        };
        // equal vectors under several ids: ties, in one shard and across shards
        let vector = if !seen.is_empty() && rng.once_in(3) {
            rng.pick(&seen).clone()
        } else {
            floats::vector(rng, kind, length)
        };
        if !vector.iter().all(|&b| wire::in_domain(b)) {
            continue;
        }
        seen.push(vector.clone());
        let op = if rng.once_in(9) {
            Op::Delete { id }
        } else {
            Op::Put { id, vector }
        };
        parts[rpc::shard_of(id, shards) as usize].append(convert::op(&op));
        all.append(convert::op(&op));
    }
    let query: Vec<u32> = loop {
        let query = floats::vector(rng, kind, length);
        if query.iter().all(|&b| wire::in_domain(b)) {
            break query;
        }
    };
    let query = convert::floats(&query);
    let k = match rng.below(4) {
        0 => 1024,
        _ => rng.below(if few { 30 } else { 300 }) as u32,
    };
    let bytes: Vec<u8> = (0..shards)
        .flat_map(|s| answer(s, &pairs(&parts[s as usize].search(&query, k as usize))))
        .collect();
    let found = all.search(&query, k as usize);
    let room = found.len() as u32 + rng.below(2) as u32;
    (case(shards, k, room, &bytes), search::lines(&found))
}

/// So many collections: the cases, and the lines of one Rust search of each.
pub fn collections(seed: u64, count: usize) -> (Vec<u8>, String) {
    let mut rng = Rng::new(seed);
    let mut input = Vec::new();
    let mut output = String::new();
    for _ in 0..count {
        let (bytes, lines) = whole(&mut rng, true);
        input.extend(bytes);
        output.push_str(&lines);
    }
    (input, output)
}

/// The first ids of a shard.
fn ids(shards: u32, shard: u32, count: usize) -> Vec<u64> {
    (1..)
        .filter(|&id| rpc::shard_of(id, shards) == shard)
        .take(count)
        .collect()
}

/// Answers that are right, and each way to be wrong.
pub fn chosen() -> Vec<u8> {
    let (a, b, c) = (ids(3, 0, 4), ids(3, 1, 4), ids(3, 2, 4));
    let good = answer(0, &[(a[0], 10), (a[1], 20), (a[2], 20)]);
    let late = answer(2, &[(c[0], 5), (c[1], 20)]);
    let twice = answer(1, &[(b[0], 1), (b[1], 2), (b[0], 3)]);
    let back = answer(1, &[(b[1], 2), (b[0], 1)]);
    let level = answer(1, &[(b[1], 2), (b[0], 2)]);
    let stray = answer(1, &[(b[0], 1), (c[0], 2)]);
    let zeros = answer(1, &[(b[0], 0x8000_0000), (b[1], 0), (b[2], 0x7fc0_0000)]);
    let zeros_back = answer(1, &[(b[0], 0), (b[1], 0x8000_0000)]);
    let low_nan = answer(
        1,
        &[
            (b[0], 0xffc0_0000),
            (b[1], 0xff80_0000),
            (b[2], 0x8000_0001),
        ],
    );
    let both = |x: &[u8], y: &[u8]| [x, y].concat();
    let mut out = Vec::new();
    for (k, room) in [(0, 0), (1, 1), (1, 0), (3, 3), (5, 5), (9, 5), (9, 4)] {
        out.extend(case(3, k, room, &both(&good, &late)));
    }
    for bytes in [&twice, &back, &level, &stray, &zeros, &zeros_back, &low_nan] {
        for k in [0, 1, 9] {
            out.extend(case(3, k, 9, bytes));
            out.extend(case(3, k, 0, bytes));
        }
        out.extend(case(3, 9, 9, &both(&good, bytes)));
        out.extend(case(3, 9, 9, &both(bytes, &good)));
        out.extend(case(3, 9, 9, &both(bytes, &late)));
    }
    out.extend(case(3, 9, 9, &both(&good, &good)));
    out.extend(case(3, 9, 9, &both(&late, &good)));
    out.extend(case(3, 9, 9, &both(&stray, &back)));
    out.extend(case(3, 9, 9, &answer(3, &[(a[0], 1)])));
    out.extend(case(3, 9, 9, &answer(u32::MAX, &[])));
    out.extend(case(0, 9, 9, &answer(0, &[(a[0], 1), (b[0], 2)])));
    out.extend(case(1, 9, 9, &answer(0, &[(a[0], 1), (b[0], 2)])));
    out.extend(case(3, 9, 9, &[]));
    for n in 1..good.len() {
        out.extend(case(3, 9, 9, &good[..n]));
    }
    out.extend(case(3, 9, 9, &both(&back, &good[..7])));
    for n in [15, 16, 17, 18] {
        let many: Vec<u8> = (0..n).flat_map(|s| answer(s, &[])).collect();
        out.extend(case(n, 9, 9, &many));
    }
    out
}

/// The largest answers: 1,024 hits each, a repeat far apart, and one hit too many.
pub fn full() -> Vec<u8> {
    let hits = |n: u32| -> Vec<(u64, u32)> { (0..n).map(|i| (7 * u64::from(i), i / 3)).collect() };
    let mut far = hits(1024);
    far[1023].0 = 0;
    let mut out = case(1, 1025, 1025, &answer(0, &hits(1024)));
    out.extend(case(1, 1000, 1000, &answer(0, &hits(1024))));
    out.extend(case(1, 9, 9, &answer(0, &far)));
    out.extend(case(1, 9, 9, &answer(0, &hits(1025))));
    let two: Vec<u8> = (0..2)
        .flat_map(|s| {
            let own = ids(2, s, 1024);
            let rows: Vec<(u64, u32)> = (0..1024).map(|i| (own[i], i as u32 / 2)).collect();
            answer(s, &rows)
        })
        .collect();
    for (k, room) in [(2048, 2048), (1500, 1500), (3000, 2047)] {
        out.extend(case(2, k, room, &two));
    }
    out
}

/// A random case, of which the second reading and the Rust's one search agree; or one with a byte
/// of its answers changed.
pub fn random(rng: &mut Rng) -> Vec<u8> {
    let (mut bytes, lines) = whole(rng, false);
    assert_eq!(join::run(&bytes), lines, "the answers join to one search");
    if bytes.len() > 16 && rng.once_in(2) {
        let at = 16 + rng.below(bytes.len() - 16);
        bytes[at] = rng.next() as u8;
    }
    bytes
}
