//! The shard map.

use crate::answer::{Key, Outcome, Refusal};
use crate::{number, sys};

/// Room for the losses of any collection.
pub const LOSSES: usize = 33280;

/// A node whose loss changes the answer of `place`, with the answer then.
#[derive(Debug, Clone, PartialEq, Eq)]
pub struct Loss {
    pub node: u64,
    pub then: Result<Option<Vec<Vec<u64>>>, Refusal>,
}

/// Bytes of a map's image.
pub const MAP: usize = 26536;

/// Bytes that hold the words of any rejection.
pub const WORDS: usize = 108;

/// A shard map, as the image that the engine reads and writes.
#[derive(Clone)]
pub struct Map {
    image: Vec<u8>,
}

impl Default for Map {
    fn default() -> Map {
        Map::new()
    }
}

impl Map {
    /// No nodes, no collections, version 0.
    pub fn new() -> Map {
        let mut image = vec![0; MAP];
        // SAFETY: pointer and length are those of one slice.
        let said = unsafe { sys::catalogue_empty_map(image.as_mut_ptr(), image.len()) };
        assert_eq!(said, 0, "an image of full size lends a map");
        Map { image }
    }

    /// A map that was kept as bytes. Each call tests it: bytes that are no map of the engine are refused with 24.
    pub fn from_bytes(bytes: &[u8]) -> Map {
        Map {
            image: bytes.to_vec(),
        }
    }

    pub fn as_bytes(&self) -> &[u8] {
        &self.image
    }

    pub fn version(&self) -> u64 {
        number(&self.image)
    }

    /// Applies a request (01 of docs/LAYOUT.md).
    pub fn apply(&mut self, request: &[u8]) -> Result<Outcome, Refusal> {
        // SAFETY: pointers and lengths are those of two slices, one of them borrowed mutably.
        let said = unsafe {
            sys::catalogue_apply(
                self.image.as_mut_ptr(),
                self.image.len(),
                request.as_ptr(),
                request.len(),
            )
        };
        match said {
            0 => Ok(Outcome::Applied),
            1..=16 => Ok(Outcome::Rejected(said)),
            other => Err(Refusal::from(other, 0)),
        }
    }

    /// The same, with the words of a rejection; an applied command has none. A repeated request gets the old command's words.
    pub fn apply_in_words(&mut self, request: &[u8]) -> Result<(Outcome, String), Refusal> {
        let mut text = [0; WORDS];
        let mut answer = [0; 8];
        // SAFETY: pointers and lengths are those of four slices that do not overlap.
        let said = unsafe {
            sys::catalogue_apply_words(
                self.image.as_mut_ptr(),
                self.image.len(),
                request.as_ptr(),
                request.len(),
                text.as_mut_ptr(),
                text.len(),
                answer.as_mut_ptr(),
                answer.len(),
            )
        };
        let outcome = match said {
            0 => Outcome::Applied,
            1..=16 => Outcome::Rejected(said),
            other => return Err(Refusal::from(other, 0)),
        };
        let words = &text[..u64::from_le_bytes(answer) as usize];
        Ok((outcome, String::from_utf8_lossy(words).into_owned()))
    }

    /// Where the replicas of new shards go: a list of nodes for each shard. None if there are too few live nodes.
    pub fn place(&self, shards: u32, replication: u32) -> Result<Option<Vec<Vec<u64>>>, Refusal> {
        let mut lists = [0; 1024];
        // SAFETY: pointers and lengths are those of two slices that do not overlap.
        let said = unsafe {
            sys::catalogue_place(
                self.image.as_ptr(),
                self.image.len(),
                shards,
                replication,
                lists.as_mut_ptr(),
                lists.len(),
            )
        };
        let width = 8 * replication as usize;
        match said {
            0 => Ok(Some(
                (0..shards as usize)
                    .map(|i| numbers(&lists[i * width..(i + 1) * width]))
                    .collect(),
            )),
            1 => Ok(None),
            other => Err(Refusal::from(other, 0)),
        }
    }

    /// Which node takes a replica of the shard next.
    pub fn replacement(&self, key: &Key) -> Result<Option<u64>, Refusal> {
        let mut answer = [0; 8];
        // SAFETY: pointers and lengths are those of three slices that do not overlap.
        let said = unsafe {
            sys::catalogue_replacement(
                self.image.as_ptr(),
                self.image.len(),
                key.collection.as_ptr(),
                key.collection.len(),
                key.shard,
                answer.as_mut_ptr(),
                answer.len(),
            )
        };
        match said {
            0 => Ok(Some(u64::from_le_bytes(answer))),
            1 => Ok(None),
            other => Err(Refusal::from(other, 0)),
        }
    }

    /// Which single live node, marked dead, changes the answer of `place` for the collection of that name, lowest id
    /// first. Of a collection that the map lacks there is none.
    pub fn place_losses(&self, name: &[u8]) -> Result<Vec<Loss>, Refusal> {
        let (mut list, mut answer) = (vec![0; LOSSES], [0; 8]);
        // SAFETY: pointers and lengths are those of four slices, the two borrowed mutably apart from all others.
        let said = unsafe {
            sys::catalogue_place_losses(
                self.image.as_ptr(),
                self.image.len(),
                name.as_ptr(),
                name.len(),
                list.as_mut_ptr(),
                list.len(),
                answer.as_mut_ptr(),
                answer.len(),
            )
        };
        if said != 0 {
            return Err(Refusal::from(said, 0));
        }
        let (shards, replication) = self.spec(name).unwrap_or((0, 0));
        let (mut rest, mut losses) = (&list[..], vec![]);
        for _ in 0..number(&answer) {
            let (node, code) = (number(rest), number(&rest[8..]));
            rest = &rest[16..];
            let then = match code {
                0 => {
                    let width = 8 * replication;
                    let lists = (0..shards).map(|i| numbers(&rest[i * width..(i + 1) * width]));
                    let lists = lists.collect();
                    rest = &rest[shards * width..];
                    Ok(Some(lists))
                }
                1 => Ok(None),
                other => Err(Refusal::from(other as u32, 0)),
            };
            losses.push(Loss { node, then });
        }
        Ok(losses)
    }

    /// Shards and replication of a collection, as its row of the image has them (docs/IMAGES.md).
    fn spec(&self, name: &[u8]) -> Option<(usize, usize)> {
        let count = number(&self.image[16..]) as usize;
        let rows = self.image[3112..4008].chunks_exact(56).take(count);
        let word = |row: &[u8], at: usize| {
            u32::from_le_bytes(row[at..at + 4].try_into().expect("4 bytes")) as usize
        };
        rows.filter(|row| row[8..40].get(..number(row) as usize) == Some(name))
            .map(|row| (word(row, 48), word(row, 52)))
            .next()
    }
}

/// What a collection would be created with; its metric has no part in the answer.
#[derive(Clone, Copy, Debug, PartialEq, Eq)]
pub struct Asked {
    pub dimension: u32,
    pub shards: u32,
    pub replication: u32,
}

/// How many placements end how; together they are all there are.
#[derive(Clone, Copy, Debug, PartialEq, Eq)]
pub struct Counts {
    pub accepted: u64,
    pub exists: u64,
    pub zero: u64,
    pub mismatched: u64,
    pub not_alive: u64,
    pub no_room: u64,
}

impl Map {
    /// Of all placements of at most so many lists, each of at most so many nodes of the ids, how many Create would accept
    /// under that name, and how many end in 2, 3, 4, 5 and 23.
    pub fn count_placements(
        &self,
        name: &[u8],
        asked: Asked,
        ids: &[u64],
        lists: u32,
        nodes: u32,
    ) -> Result<Counts, Refusal> {
        let given: Vec<u8> = ids.iter().flat_map(|id| id.to_le_bytes()).collect();
        let mut counts = [0; 48];
        // SAFETY: pointers and lengths are those of four slices that do not overlap.
        let said = unsafe {
            sys::catalogue_count_placements(
                self.image.as_ptr(),
                self.image.len(),
                name.as_ptr(),
                name.len(),
                asked.dimension,
                asked.shards,
                asked.replication,
                given.as_ptr(),
                given.len(),
                lists,
                nodes,
                counts.as_mut_ptr(),
                counts.len(),
            )
        };
        let six = numbers(&counts);
        match said {
            0 => Ok(Counts {
                accepted: six[0],
                exists: six[1],
                zero: six[2],
                mismatched: six[3],
                not_alive: six[4],
                no_room: six[5],
            }),
            other => Err(Refusal::from(other, 0)),
        }
    }
}

/// Numbers that stand side by side, u64 each.
pub(crate) fn numbers(bytes: &[u8]) -> Vec<u64> {
    bytes.chunks_exact(8).map(number).collect()
}
