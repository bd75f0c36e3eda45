//! The two programs that the stored patterns belong to: what the engine's routines answer on the
//! same input is held against these.

use std::cmp::Ordering;

/// A row of patterns (u32), and for each the bits of its root, or `none` outside its domain.
pub fn roots(input: &[u8]) -> String {
    let (patterns, _) = input.as_chunks::<4>();
    let line = |p: &[u8; 4]| match crate::root(u32::from_le_bytes(*p)) {
        Some(bits) => format!("{bits:08x}\n"),
        None => "none\n".into(),
    };
    patterns.iter().map(line).collect()
}

/// A row of pairs of patterns, and for each how the first stands to the second.
pub fn order(input: &[u8]) -> String {
    let (patterns, _) = input.as_chunks::<4>();
    let (pairs, _) = patterns.as_chunks::<2>();
    let line = |[a, b]: &[[u8; 4]; 2]| match crate::order(
        u32::from_le_bytes(*a),
        u32::from_le_bytes(*b),
    ) {
        Ordering::Less => "less\n",
        Ordering::Equal => "equal\n",
        Ordering::Greater => "greater\n",
    };
    pairs.iter().map(line).collect()
}
