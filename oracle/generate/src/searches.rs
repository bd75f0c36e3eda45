//! Cases of `search`: every kind of float, equal distances, unequal lengths, overwritten and
//! deleted vectors, every size of k, and now and then a component outside the domain.

use wire::Op;

use crate::edits;
use crate::floats::{self, KINDS, Kind};
use crate::rng::Rng;

/// A case as bytes.
fn case(metric: u8, k: u32, query: &[u32], ops: &[Op]) -> Vec<u8> {
    let mut out = vec![metric];
    out.extend(k.to_le_bytes());
    out.extend(wire::vector(query));
    out.extend((ops.len() as u16).to_le_bytes());
    ops.iter().for_each(|op| out.extend(wire::op(op)));
    out
}

fn put(id: u64, vector: &[u32]) -> Op {
    Op::Put {
        id,
        vector: vector.to_vec(),
    }
}

fn bits(floats: &[f32]) -> Vec<u32> {
    floats.iter().map(|f| f.to_bits()).collect()
}

fn length(rng: &mut Rng, usual: usize) -> usize {
    match rng.below(6) {
        0 => 1 + rng.below(4),
        1 => 32,
        _ => usual,
    }
}

/// A random case; `few` keeps it small enough to store.
pub fn random(rng: &mut Rng, few: bool) -> Vec<u8> {
    let kind = *rng.pick(&KINDS);
    let usual = 1 + rng.below(if few { 5 } else { 32 });
    let query_length = length(rng, usual);
    let query = floats::vector(rng, kind, query_length);
    let count = rng.below(if few { 10 } else { 200 });
    let mut ops = Vec::new();
    for _ in 0..count {
        let id = match rng.below(5) {
            0 => rng.corner(),
            _ => rng.below(8) as u64,
        };
        if rng.once_in(5) {
            ops.push(Op::Delete { id });
            continue;
        }
        let own = if rng.once_in(5) {
            *rng.pick(&KINDS)
        } else {
            kind
        };
        let own_length = length(rng, usual);
        let mut vector = floats::vector(rng, own, own_length);
        if rng.once_in(60) {
            vector[0] = *rng.pick(&floats::OUTSIDE);
        }
        ops.push(Op::Put { id, vector });
    }
    let k = match rng.below(5) {
        0 => rng.corner() as u32,
        _ => rng.below(10) as u32,
    };
    case(rng.below(2) as u8, k, &query, &ops)
}

/// The starred cases, ties stored in falling order of id, signed zeros, the domain's edges.
pub fn chosen() -> Vec<Vec<u8>> {
    let edge = 0x4f80_0000;
    let tiny = 0x0000_0001;
    let ties: Vec<Op> = (0..9).map(|n| put(90 - n, &bits(&[1.0, 2.0]))).collect();
    let mirrored: Vec<Op> = (0..8)
        .map(|n| put(8 - n, &bits(&[if n % 2 == 0 { 3.0 } else { -3.0 }])))
        .collect();
    let edges = |length: usize| vec![edge; length];
    let zeros = vec![0; 4];
    let opposite = |length: usize| vec![edge | 1 << 31; length];
    vec![
        case(0, 1, &bits(&[0.0, 0.0]), &[put(7, &bits(&[3.0, 4.0]))]),
        case(0, 1, &bits(&[3.0]), &[put(7, &bits(&[3.0, 4.0]))]),
        case(0, 1, &bits(&[3.0, 4.0]), &[put(7, &bits(&[3.0]))]),
        case(0, 1, &bits(&[1.0, 1.0]), &[put(7, &bits(&[0.0, 0.0]))]),
        case(1, 1, &bits(&[1.0, 1.0]), &[put(7, &bits(&[0.0, 0.0]))]),
        case(1, 1, &bits(&[-0.0]), &[put(7, &bits(&[5.0]))]),
        case(1, 2, &bits(&[0.0, 1.0]), &[put(7, &bits(&[-1.0, -0.0]))]),
        case(0, 0, &bits(&[1.0]), &[put(7, &bits(&[1.0]))]),
        case(0, 5, &bits(&[1.0]), &[]),
        case(1, 9, &bits(&[1.0, 2.0]), &ties),
        case(0, 9, &bits(&[1.0, 2.0]), &ties),
        case(0, 3, &bits(&[0.0]), &mirrored),
        case(1, u32::MAX, &bits(&[2.0]), &mirrored),
        case(
            0,
            3,
            &edges(32),
            &[put(1, &opposite(32)), put(2, &edges(32))],
        ),
        case(
            1,
            3,
            &edges(32),
            &[put(1, &opposite(32)), put(2, &edges(32))],
        ),
        case(0, 2, &[tiny], &[put(1, &[0]), put(2, &[tiny | 1 << 31])]),
        case(1, 2, &[tiny], &[put(1, &[tiny]), put(2, &[0x3f80_0000])]),
        // Squares that are subnormal: their root is normal.
        case(
            0,
            2,
            &[0x1a00_0000],
            &[put(1, &[0]), put(2, &[0x1b12_3456])],
        ),
        case(0, 2, &[edge + 1], &[put(1, &[0])]),
        case(0, 2, &[0], &[put(1, &[0x7fc0_0000])]),
        // A vector outside the domain that a later operation would have removed.
        case(0, 2, &[0], &[put(1, &[0x7f80_0000]), Op::Delete { id: 1 }]),
        // One length is shorter; the norm of Angular takes the whole vector.
        case(1, 2, &bits(&[3.0]), &[put(1, &bits(&[3.0, 4.0]))]),
        case(1, 2, &bits(&[3.0, 4.0]), &[put(1, &bits(&[3.0]))]),
        // From the left each one is lost in the sum, from the right they make it larger; products
        // whose last bits a fused operation would keep.
        case(0, 1, &zeros, &[put(1, &bits(&[4096.0, 1.0, 1.0, 1.0]))]),
        case(0, 1, &zeros, &[put(1, &bits(&[1.0, 1.0, 1.0, 4096.0]))]),
        case(
            1,
            1,
            &bits(&[1.0; 4]),
            &[put(1, &bits(&[16777216.0, 1.0, 1.0, 1.0]))],
        ),
        case(
            0,
            1,
            &zeros,
            &[put(1, &[0x3f80_0001, 0x3f80_0003, 0x3f80_0005])],
        ),
        case(
            1,
            1,
            &[0x3f80_0001; 3],
            &[put(1, &[0x3f80_0003, 0x3fc0_0005, 0x3f80_0007])],
        ),
        many(),
    ]
}

/// A full log of short vectors, all of them asked for: many distances are equal.
fn many() -> Vec<u8> {
    let mut rng = Rng::new(1024);
    let op = |n: u64, rng: &mut Rng| put(2000 - n, &floats::vector(rng, Kind::Few, 1));
    let ops: Vec<Op> = (0..1024).map(|n| op(n, &mut rng)).collect();
    case(0, 1024, &bits(&[0.0]), &ops)
}

/// Logs of which each two have the same vectors, one behind the other: each two answers are equal.
pub fn orders() -> Vec<[Vec<u8>; 2]> {
    let short = |twins: &edits::Twins| twins[0].len() < 1000;
    let mut twins: Vec<edits::Twins> = [edits::different(), edits::same()].concat();
    // Of the longest logs a few: an Upsert and a Delete of different ids, two edits of one id.
    let few: Vec<_> = twins
        .iter()
        .filter(|t| !short(t))
        .step_by(9)
        .cloned()
        .collect();
    twins.retain(short);
    twins.extend(few);
    let query = bits(&[1.0, 0.5]);
    let both = |(n, logs): (usize, &edits::Twins)| {
        let metric = (n % 2) as u8;
        logs.each_ref().map(|log| case(metric, 6, &query, log))
    };
    twins.iter().enumerate().map(both).collect()
}
