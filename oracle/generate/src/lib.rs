//! Seeded generators of inputs, driven by the oracle's own answers so that they go deep, and the
//! counts of what the answers were. Same seed, same bytes.

pub mod coverage;
pub mod damage;
pub mod dome;
pub mod edits;
pub mod floats;
pub mod histories;
pub mod joins;
pub mod lists;
pub mod losses;
pub mod maps;
pub mod patterns;
pub mod placements;
pub mod rng;
pub mod scripts;
pub mod searches;
pub mod stream;
