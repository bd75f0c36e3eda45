//! Bit patterns of floats: inside the domain with its corners, and outside of it.

use crate::rng::Rng;

/// Zeros, subnormals, the least normal, ones, the root's rounding cases, the domain's edge.
pub const CORNERS: [u32; 24] = [
    0x0000_0000,
    0x0000_0001,
    0x0000_0002,
    0x0000_0003,
    0x003f_ffff,
    0x0040_0000,
    0x007f_ffff,
    0x0080_0000,
    0x0080_0001,
    0x00ff_ffff,
    0x1980_0000,
    0x3380_0000,
    0x3f7f_ffff,
    0x3f80_0000,
    0x3f80_0001,
    0x4000_0000,
    0x4040_0000,
    0x4080_0000,
    0x4b7f_ffff,
    0x4b80_0000,
    0x4f00_0000,
    0x4f7f_ffff,
    0x4f80_0000,
    0x5f00_0000,
];

/// Patterns whose magnitude is above 2^32, infinite, or no number.
pub const OUTSIDE: [u32; 8] = [
    0x4f80_0001,
    0xcf80_0001,
    0x5f00_0000,
    0x7f7f_ffff,
    0x7f80_0000,
    0xff80_0000,
    0x7fc0_0000,
    0xff80_0001,
];

fn corner(rng: &mut Rng) -> u32 {
    loop {
        let bits = *rng.pick(&CORNERS);
        if wire::in_domain(bits) {
            return bits;
        }
    }
}

/// How the components of a case are drawn.
#[derive(Clone, Copy, PartialEq, Eq)]
pub enum Kind {
    /// Few values, so that distances are often equal.
    Few,
    Corners,
    /// Any pattern of the domain.
    Any,
    /// Magnitudes near each other.
    Near,
    Subnormal,
    Zero,
}

pub const KINDS: [Kind; 6] = [
    Kind::Few,
    Kind::Corners,
    Kind::Any,
    Kind::Near,
    Kind::Subnormal,
    Kind::Zero,
];

pub fn component(rng: &mut Rng, kind: Kind) -> u32 {
    let sign = (rng.next() as u32 & 1) << 31;
    let magnitude = match kind {
        Kind::Few => (rng.below(4) as f32).to_bits(),
        Kind::Corners => corner(rng),
        Kind::Any => (rng.next() % 0x4f80_0001) as u32,
        Kind::Near => 0x3f00_0000 + (rng.next() as u32 & 0x00ff_ffff),
        Kind::Subnormal => rng.next() as u32 & 0x007f_ffff,
        Kind::Zero => 0,
    };
    sign | magnitude
}

pub fn vector(rng: &mut Rng, kind: Kind, length: usize) -> Vec<u32> {
    (0..length).map(|_| component(rng, kind)).collect()
}
