//! Searching a whole collection.

use crate::answer::{Neighbor, Refusal};
use crate::node::{HIT, neighbor};
use crate::{number, sys};

/// The answers of a collection's shards to one query, as [`join`] takes them: put by rising shard number.
#[derive(Clone, Debug, Default)]
pub struct Answers(Vec<u8>);

impl Answers {
    pub fn new() -> Answers {
        Answers::default()
    }

    /// What one shard answered: at most 1,024 neighbours, or the bytes do not decode.
    pub fn put(&mut self, shard: u32, neighbors: &[Neighbor]) {
        self.0.extend(shard.to_le_bytes());
        let count = u16::try_from(neighbors.len()).unwrap_or(u16::MAX);
        self.0.extend(count.to_le_bytes());
        for n in neighbors {
            self.0.extend(n.id.to_le_bytes());
            self.0.extend(n.distance.to_bits().to_le_bytes());
        }
    }
}

/// The first k of all that the shards of a collection of so many answered.
pub fn join(shards: u32, k: u32, answers: &Answers) -> Result<Vec<Neighbor>, Refusal> {
    let mut hits = vec![0; (k as usize).min(16 * 1024) * HIT];
    let mut answer = [0; 8];
    // SAFETY: pointers and lengths are those of three slices that do not overlap.
    let said = unsafe {
        sys::catalogue_join(
            shards,
            k,
            answers.0.as_ptr(),
            answers.0.len(),
            hits.as_mut_ptr(),
            hits.len(),
            answer.as_mut_ptr(),
            answer.len(),
        )
    };
    match said {
        0 => Ok(hits
            .chunks_exact(HIT)
            .take(number(&answer) as usize)
            .map(neighbor)
            .collect()),
        other => Err(Refusal::from(other, 0)),
    }
}
