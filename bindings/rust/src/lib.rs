//! Safe Rust over the catalogue engine's C entry points (include/catalogue.h). The engine keeps no state: [`Map`] and
//! [`Node`] own the byte images and lend them to each call, so that the borrow checker sees to what a host owes: buffers
//! that are valid and do not overlap, and one call at a time on one image. A call needs up to 512 KiB of stack.

mod answer;
mod join;
mod map;
mod node;
mod position;
pub mod sys;

pub use answer::{
    Key, Metric, Neighbor, Outcome, Proposal, Refusal, Sent, Step, Waited, Worker,
};
pub use join::{Answers, join};
pub use map::{Asked, Counts, LOSSES, Loss, MAP, Map, WORDS};
pub use node::{HEADER, Node, STORES};
pub use position::{Fields, Position};

/// Which shard of a collection of so many holds an id; 0 of none.
pub fn shard_of(id: u64, shards: u32) -> u32 {
    // SAFETY: two numbers, and any are an answer.
    unsafe { sys::catalogue_shard_of(id, shards) }
}

/// The version of the engine that is linked: major, minor, patch.
pub fn version() -> (u32, u32, u32) {
    // SAFETY: nothing is handed over.
    let number = unsafe { sys::catalogue_version() };
    (number / 1_000_000, number / 1_000 % 1_000, number % 1_000)
}

/// The number that bytes begin with, u64.
fn number(bytes: &[u8]) -> u64 {
    u64::from_le_bytes(bytes[..8].try_into().expect("eight bytes"))
}
