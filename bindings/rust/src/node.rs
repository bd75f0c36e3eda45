//! A data node: its header, its eight stores, and the count of refused client calls.

use crate::answer::{Key, Metric, Neighbor, Proposal, Refusal, Sent, Step, Waited, Worker};
use crate::map::{Map, numbers};
use crate::{number, sys};

/// Bytes of a header's image.
pub const HEADER: usize = 10288;
/// Bytes of the eight stores of a node, side by side.
pub const STORES: usize = 1392640;

const KEY: usize = 37;
const START: usize = 54;
pub(crate) const HIT: usize = 12;

/// A node's state, as the images that the engine reads and writes.
#[derive(Clone)]
pub struct Node {
    header: Vec<u8>,
    stores: Vec<u8>,
    refused: [u8; 4],
}

type Arrival =
    unsafe extern "C" fn(*mut u8, usize, *mut u8, usize, *const u8, usize, *mut u8, usize) -> u32;

impl Node {
    /// A node with nothing: no shard, no lease, no map known.
    pub fn new(id: u64, incarnation: u64) -> Node {
        let mut header = vec![0; HEADER];
        // SAFETY: pointer and length are those of one slice.
        let said = unsafe {
            sys::catalogue_fresh_node(header.as_mut_ptr(), header.len(), id, incarnation)
        };
        assert_eq!(said, 0, "an image of full size lends a header");
        Node {
            header,
            stores: vec![0; STORES],
            refused: [0; 4],
        }
    }

    /// A node that was kept as bytes. Each call tests what it reads of them: 24 for what is no state of the engine.
    pub fn from_bytes(header: &[u8], stores: &[u8], refused: u32) -> Node {
        Node {
            header: header.to_vec(),
            stores: stores.to_vec(),
            refused: refused.to_le_bytes(),
        }
    }

    pub fn header(&self) -> &[u8] {
        &self.header
    }

    pub fn stores(&self) -> &[u8] {
        &self.stores
    }

    /// How many Write and Search calls were refused.
    pub fn refused(&self) -> u32 {
        u32::from_le_bytes(self.refused)
    }

    /// Shows the map to the node; `fresh` is the incarnation under which it starts over if the map lists it dead.
    pub fn show_map(&mut self, map: &Map, fresh: u64) -> Result<Vec<Worker>, Refusal> {
        let mut starts = vec![0; 256 * START];
        let mut answer = [0; 8];
        let image = map.as_bytes();
        // SAFETY: pointers and lengths are those of four slices that do not overlap.
        let said = unsafe {
            sys::catalogue_show_map(
                self.header.as_mut_ptr(),
                self.header.len(),
                image.as_ptr(),
                image.len(),
                fresh,
                starts.as_mut_ptr(),
                starts.len(),
                answer.as_mut_ptr(),
                answer.len(),
            )
        };
        match said {
            0 => Ok(starts
                .chunks_exact(START)
                .take(number(&answer) as usize)
                .map(worker)
                .collect()),
            other => Err(Refusal::from(other, 0)),
        }
    }

    /// A lease grant for an incarnation, asked for at the time `sent`.
    pub fn grant(&mut self, incarnation: u64, sent: u64, lease: u64) -> Result<(), Refusal> {
        // SAFETY: pointer and length are those of one slice.
        let said = unsafe {
            sys::catalogue_grant(
                self.header.as_mut_ptr(),
                self.header.len(),
                incarnation,
                sent,
                lease,
            )
        };
        done(said)
    }

    /// A client's Write (23): the offset under which it was accepted. It is acknowledged once [`Node::wait`] says so.
    pub fn write(&mut self, now: u64, least_in_sync: u64, message: &[u8]) -> Result<u64, Refusal> {
        let mut answer = [0; 8];
        // SAFETY: pointers and lengths are those of five slices that do not overlap.
        let said = unsafe {
            sys::catalogue_write(
                self.header.as_mut_ptr(),
                self.header.len(),
                self.stores.as_mut_ptr(),
                self.stores.len(),
                self.refused.as_mut_ptr(),
                self.refused.len(),
                now,
                least_in_sync,
                message.as_ptr(),
                message.len(),
                answer.as_mut_ptr(),
                answer.len(),
            )
        };
        match said {
            0 => Ok(number(&answer)),
            other => Err(Refusal::from(other, number(&answer))),
        }
    }

    /// A client's Search (24): the nearest first, as many as there is `room` for at most, or refusal 23.
    pub fn search(
        &mut self,
        now: u64,
        message: &[u8],
        room: usize,
    ) -> Result<Vec<Neighbor>, Refusal> {
        let mut hits = vec![0; room.min(1024) * HIT];
        let mut answer = [0; 8];
        // SAFETY: pointers and lengths are those of six slices that do not overlap.
        let said = unsafe {
            sys::catalogue_search(
                self.header.as_ptr(),
                self.header.len(),
                self.stores.as_ptr(),
                self.stores.len(),
                self.refused.as_mut_ptr(),
                self.refused.len(),
                now,
                message.as_ptr(),
                message.len(),
                hits.as_mut_ptr(),
                hits.len(),
                answer.as_mut_ptr(),
                answer.len(),
            )
        };
        match said {
            0 => Ok(hits
                .chunks_exact(HIT)
                .take(number(&answer) as usize)
                .map(neighbor)
                .collect()),
            other => Err(Refusal::from(other, number(&answer))),
        }
    }

    /// Whether an accepted write is acknowledged.
    pub fn wait(
        &mut self,
        key: &Key,
        epoch: u64,
        offset: u64,
        now: u64,
        ack_timeout: u64,
    ) -> Result<Waited, Refusal> {
        let mut peers = [0; 256];
        let mut answer = [0; 8];
        // SAFETY: pointers and lengths are those of four slices that do not overlap.
        let said = unsafe {
            sys::catalogue_wait(
                self.header.as_mut_ptr(),
                self.header.len(),
                key.collection.as_ptr(),
                key.collection.len(),
                key.shard,
                epoch,
                offset,
                now,
                ack_timeout,
                peers.as_mut_ptr(),
                peers.len(),
                answer.as_mut_ptr(),
                answer.len(),
            )
        };
        match said {
            0 | 1 => Ok(Waited {
                done: said == 0,
                shrink: numbers(&peers[..8 * number(&answer) as usize]),
            }),
            other => Err(Refusal::from(other, number(&answer))),
        }
    }

    /// Replicate (20): the reply that goes back.
    pub fn replicate(&mut self, message: &[u8]) -> Result<[u8; 9], Refusal> {
        self.arrive(sys::catalogue_replicate, message)
    }

    /// NewEpoch (21): the reply that goes back.
    pub fn new_epoch(&mut self, message: &[u8]) -> Result<[u8; 9], Refusal> {
        self.arrive(sys::catalogue_new_epoch, message)
    }

    /// CopyShard (22): the reply that goes back.
    pub fn copy(&mut self, message: &[u8]) -> Result<[u8; 9], Refusal> {
        self.arrive(sys::catalogue_copy, message)
    }

    fn arrive(&mut self, call: Arrival, message: &[u8]) -> Result<[u8; 9], Refusal> {
        let mut reply = [0; 9];
        // SAFETY: pointers and lengths are those of four slices that do not overlap.
        let said = unsafe {
            call(
                self.header.as_mut_ptr(),
                self.header.len(),
                self.stores.as_mut_ptr(),
                self.stores.len(),
                message.as_ptr(),
                message.len(),
                reply.as_mut_ptr(),
                reply.len(),
            )
        };
        done(said).map(|()| reply)
    }

    /// The next step of a worker, as [`Node::show_map`] started it.
    pub fn step(&self, worker: &Worker) -> Result<Step, Refusal> {
        let mut request = vec![0; 39472];
        let mut answer = [0; 8];
        // SAFETY: pointers and lengths are those of five slices that do not overlap.
        let said = unsafe {
            sys::catalogue_step(
                self.header.as_ptr(),
                self.header.len(),
                self.stores.as_ptr(),
                self.stores.len(),
                worker.key.collection.as_ptr(),
                worker.key.collection.len(),
                worker.key.shard,
                worker.epoch,
                worker.peer,
                worker.metric.code(),
                request.as_mut_ptr(),
                request.len(),
                answer.as_mut_ptr(),
                answer.len(),
            )
        };
        request.truncate(number(&answer) as usize);
        match said {
            0 => Ok(Step::Wait),
            1 => Ok(Step::Stop),
            2 => Ok(Step::Send(Sent::Align, request)),
            3 => Ok(Step::Send(Sent::Replicate, request)),
            4 => Ok(Step::Send(Sent::Copy, request)),
            other => Err(Refusal::from(other, 0)),
        }
    }

    /// A peer's reply to a request; true if an Expand is to be proposed for the peer.
    pub fn ack(&mut self, worker: &Worker, sent: Sent, reply: &[u8]) -> Result<bool, Refusal> {
        let step = match sent {
            Sent::Align => 2,
            Sent::Replicate => 3,
            Sent::Copy => 4,
        };
        // SAFETY: pointers and lengths are those of three slices that do not overlap.
        let said = unsafe {
            sys::catalogue_ack(
                self.header.as_mut_ptr(),
                self.header.len(),
                worker.key.collection.as_ptr(),
                worker.key.collection.len(),
                worker.key.shard,
                worker.epoch,
                worker.peer,
                step,
                reply.as_ptr(),
                reply.len(),
            )
        };
        match said {
            0 | 1 => Ok(said == 1),
            other => Err(Refusal::from(other, 0)),
        }
    }

    /// How a proposal of this node ended.
    pub fn outcome(
        &mut self,
        key: &Key,
        epoch: u64,
        peer: u64,
        proposal: Proposal,
        applied: bool,
    ) -> Result<(), Refusal> {
        let command = match proposal {
            Proposal::Shrink => 0x17,
            Proposal::Expand => 0x18,
        };
        // SAFETY: pointers and lengths are those of two slices that do not overlap.
        let said = unsafe {
            sys::catalogue_outcome(
                self.header.as_mut_ptr(),
                self.header.len(),
                key.collection.as_ptr(),
                key.collection.len(),
                key.shard,
                epoch,
                peer,
                command,
                u8::from(applied),
            )
        };
        done(said)
    }
}

fn done(said: u32) -> Result<(), Refusal> {
    match said {
        0 => Ok(()),
        other => Err(Refusal::from(other, 0)),
    }
}

fn worker(row: &[u8]) -> Worker {
    let metric = if row[START - 1] == 0 {
        Metric::Euclidean
    } else {
        Metric::Angular
    };
    Worker {
        key: Key::from_wire(&row[..KEY]),
        peer: number(&row[KEY..]),
        epoch: number(&row[KEY + 8..]),
        metric,
    }
}

pub(crate) fn neighbor(row: &[u8]) -> Neighbor {
    let bits = u32::from_le_bytes(row[8..HIT].try_into().expect("four bytes"));
    Neighbor {
        id: number(row),
        distance: f32::from_bits(bits),
    }
}
