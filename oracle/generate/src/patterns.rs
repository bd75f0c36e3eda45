//! The stored lists of float patterns: roots, and the order of pairs without and with a NaN.

use crate::rng::Rng;

/// Every exponent with the first, second, middle and last fractions, every power of two among the
/// subnormals with its neighbours, squares with theirs, and random patterns.
pub fn for_roots(seed: u64) -> Vec<u32> {
    let mut rng = Rng::new(seed);
    let mut all = vec![0, 0x8000_0000];
    for field in 0..255u32 {
        let ends = [0, 1, 0x3f_ffff, 0x40_0000, 0x7f_ffff];
        all.extend(ends.map(|fraction| field << 23 | fraction));
    }
    for place in 0..23 {
        all.extend([(1 << place) - 1, 1 << place, (1 << place) + 1]);
    }
    for _ in 0..120 {
        let square = (1.0 + (rng.below(4095) as f32)).powi(2).to_bits();
        all.extend([square - 1, square, square + 1]);
    }
    all.extend((0..900).map(|_| rng.next() as u32 % 0x7f80_0000));
    all.extend((0..100).map(|_| rng.next() as u32 % 0x0080_0000));
    all
}

const ENDS: [u32; 11] = [
    0x0000_0000,
    0x0000_0001,
    0x007f_ffff,
    0x0080_0000,
    0x3f7f_ffff,
    0x3f80_0000,
    0x3f80_0001,
    0x4f80_0000,
    0x4f80_0001,
    0x7f7f_ffff,
    0x7f80_0000,
];
/// Both ends of every class of totalOrder with their neighbours, subnormal and normal numbers apart, and 1.
const EDGES: [u32; 17] = [
    0x0000_0000,
    0x0000_0001,
    0x0000_0002,
    0x007f_fffe,
    0x007f_ffff,
    0x0080_0000,
    0x0080_0001,
    0x3f7f_ffff,
    0x3f80_0000,
    0x3f80_0001,
    0x7f7f_fffe,
    0x7f7f_ffff,
    0x7f80_0000,
    0x7f80_0001,
    0x7fc0_0000,
    0x7fff_fffe,
    0x7fff_ffff,
];
const NANS: [u32; 4] = [0x7f80_0001, 0x7fbf_ffff, 0x7fc0_0000, 0x7fff_ffff];

fn both_signs(magnitudes: &[u32]) -> Vec<u32> {
    magnitudes.iter().flat_map(|m| [*m, m | 1 << 31]).collect()
}

/// Pairs with no NaN: all the ends against each other, and random ones.
pub fn for_order(seed: u64) -> Vec<(u32, u32)> {
    let mut rng = Rng::new(seed);
    let ends = both_signs(&ENDS);
    let mut all: Vec<(u32, u32)> = Vec::new();
    for &a in &ends {
        all.extend(ends.iter().map(|&b| (a, b)));
    }
    let any = |rng: &mut Rng| {
        let sign = (rng.next() as u32 & 1) << 31;
        sign | rng.next() as u32 % 0x7f80_0001
    };
    for _ in 0..300 {
        let a = any(&mut rng);
        all.extend([(a, any(&mut rng)), (a, a), (a, a ^ 1)]);
    }
    all
}

/// Pairs with a NaN on either side or on both.
pub fn for_order_of_nans() -> Vec<(u32, u32)> {
    let nans = both_signs(&NANS);
    let ends = both_signs(&ENDS);
    let mut all: Vec<(u32, u32)> = Vec::new();
    for &a in &nans {
        all.extend(nans.iter().map(|&b| (a, b)));
        all.extend(ends.iter().flat_map(|&b| [(a, b), (b, a)]));
    }
    all
}

/// Every pair of the patterns at the edges of the eight classes.
pub fn for_order_of_classes() -> Vec<(u32, u32)> {
    let edges = both_signs(&EDGES);
    let beside = |&a: &u32| edges.iter().map(move |&b| (a, b)).collect::<Vec<_>>();
    edges.iter().flat_map(beside).collect()
}

pub fn root_input(patterns: &[u32]) -> Vec<u8> {
    patterns.iter().flat_map(|p| p.to_le_bytes()).collect()
}

pub fn order_input(pairs: &[(u32, u32)]) -> Vec<u8> {
    let bytes = |p: &(u32, u32)| [p.0.to_le_bytes(), p.1.to_le_bytes()].concat();
    pairs.iter().flat_map(bytes).collect()
}
