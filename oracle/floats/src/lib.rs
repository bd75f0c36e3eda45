//! A second root and a second order of floats, by whole numbers alone, written from the paper's
//! words and IEEE 754 and from nothing that the engine or the Rust uses.

pub mod programs;

use std::cmp::Ordering;

const FRACTION: u32 = 23;
const HIDDEN: u64 = 1 << FRACTION;
const SIGN: u32 = 1 << 31;

/// A positive finite float as `m * 2^e` with `m` of exactly 24 bits.
fn parts(bits: u32) -> (u64, i32) {
    let field = (bits >> FRACTION) as i32;
    let fraction = u64::from(bits) % HIDDEN;
    if field > 0 {
        return (fraction + HIDDEN, field - 150);
    }
    let (mut m, mut e) = (fraction, -149);
    while m < HIDDEN {
        m *= 2;
        e -= 1;
    }
    (m, e)
}

/// The largest `r` with `r * r <= n`, one bit after the other.
fn whole_root(n: u64) -> u64 {
    let mut root = 0;
    for place in (0..32).rev() {
        let next = root + (1 << place);
        if next * next <= n {
            root = next;
        }
    }
    root
}

/// The bits of the float nearest the exact root of a float that is zero (of either sign) or
/// positive and finite; none for others.
pub fn root(bits: u32) -> Option<u32> {
    if bits == 0 || bits == SIGN {
        return Some(bits);
    }
    if bits >= 0x7f80_0000 {
        return None;
    }
    let (m, e) = parts(bits);
    // The root of n * 2^(2q) is root(n) * 2^q; n of 49 or 50 bits has a root of 25 bits. The
    // last of them is the rounding bit. It never stands for an exact half, since n is even.
    let shift = 25 + (e - 25).rem_euclid(2);
    let (n, q) = (m << shift, (e - shift) / 2);
    let long = whole_root(n);
    let (mut short, mut q) = (long.div_ceil(2), q + 1);
    if short == 2 * HIDDEN {
        (short, q) = (HIDDEN, q + 1);
    }
    let field = (q + 150) as u32;
    Some((field << FRACTION) + (short - HIDDEN) as u32)
}

/// totalOrder on bits: negative patterns first, of two negative ones the greater magnitude.
pub fn order(a: u32, b: u32) -> Ordering {
    let (na, nb) = (a >= SIGN, b >= SIGN);
    let (ma, mb) = (a % SIGN, b % SIGN);
    let by_magnitude = if ma < mb {
        Ordering::Less
    } else if ma > mb {
        Ordering::Greater
    } else {
        Ordering::Equal
    };
    match (na, nb) {
        (true, false) => Ordering::Less,
        (false, true) => Ordering::Greater,
        (false, false) => by_magnitude,
        (true, true) => by_magnitude.reverse(),
    }
}

#[cfg(test)]
mod tests {
    use super::*;

    fn agrees(bits: u32) -> bool {
        root(bits) == Some(f32::from_bits(bits).sqrt().to_bits())
    }

    #[test]
    fn the_root_agrees_with_the_machine() {
        assert!(agrees(0) && agrees(SIGN));
        assert!((1..1 << 16).all(agrees));
        assert!((0..0x7f80_0000).step_by(1021).all(agrees));
        assert!((0x7f70_0000..0x7f80_0000).step_by(7).all(agrees));
    }

    /// Two thousand million patterns: `cargo test --release -- --ignored`.
    #[test]
    #[ignore]
    fn the_root_agrees_with_the_machine_everywhere() {
        assert!((0..0x7f80_0000).all(agrees));
    }

    #[test]
    fn the_order_agrees_with_the_machine() {
        let some: Vec<u32> = (0..=u32::MAX)
            .step_by(0x0013_5791)
            .chain([SIGN, SIGN - 1])
            .collect();
        for &a in &some {
            for &b in &some {
                let theirs = f32::from_bits(a).total_cmp(&f32::from_bits(b));
                assert_eq!(order(a, b), theirs);
            }
        }
    }
}
