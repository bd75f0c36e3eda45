//! The shard map: the Rust's state machine with the limits of paper 01 around it.

use std::panic::{AssertUnwindSafe, catch_unwind, resume_unwind};

use controlplane::state::{self, StateMachine};
use rpc::{CollectionSpec, DataNodeId, Metric, Outcome, Request, ShardKey, ShardMap};
use wire::Command;

use crate::{convert, reason};

const NODES: usize = 32;
const COLLECTIONS: usize = 16;
const SHARDS: usize = 64;
const CLIENTS: usize = 64;
const SHARDS_PLACED: u32 = 16;

/// What a command came to.
#[derive(Debug, Clone, Copy, PartialEq, Eq)]
pub enum Answer {
    Applied,
    Rejected(u8),
    Refused(u8),
}

/// The shard map of a program, at first empty.
#[derive(Default)]
pub struct Map {
    pub machine: StateMachine,
}

impl Map {
    pub fn version(&self) -> u64 {
        self.machine.map().version
    }

    /// Applies a request.
    pub fn apply(&mut self, request: &wire::Request) -> Answer {
        self.apply_in_words(request).0
    }

    /// The same, with the Rust's own words of a rejection. The Rust works on a copy, which is kept
    /// unless it passes a limit.
    pub fn apply_in_words(&mut self, request: &wire::Request) -> (Answer, Option<String>) {
        let refused = |number| (Answer::Refused(number), None);
        let sessions = self.machine.field_sessions();
        if sessions.len() >= CLIENTS && !sessions.contains_key(&request.client) {
            return refused(23);
        }
        let command = Request {
            client: request.client,
            seq: request.seq,
            command: convert::command(&request.command),
        };
        let mut next = self.machine.clone();
        let run = catch_unwind(AssertUnwindSafe(|| next.apply(request.index, &command)));
        let outcome = match run {
            Ok(outcome) => outcome,
            // The one panic of the Rust here is a promotion past epoch 2^64 - 1.
            Err(_) if matches!(request.command, Command::Promote(_)) => {
                return refused(25);
            }
            Err(panic) => resume_unwind(panic),
        };
        if over_limit(&next) {
            return refused(23);
        }
        self.machine = next;
        let answer = match reason::reason(&outcome) {
            None => Answer::Applied,
            Some(reason) => Answer::Rejected(reason.number),
        };
        match outcome {
            Outcome::Applied => (answer, None),
            Outcome::Rejected(words) => (answer, Some(words)),
        }
    }

    pub fn place(&self, shards: u32, replication: u32) -> Placed {
        place_on(self.machine.map(), shards, replication)
    }

    pub fn replacement(&self, key: &ShardKey) -> Option<DataNodeId> {
        state::replacement(self.machine.map(), key)
    }
}

/// A placement, none, or a refusal.
pub type Placed = Result<Option<Vec<Vec<DataNodeId>>>, u8>;

/// None if there are too few live nodes; then 23 above a placement's limits.
pub fn place_on(map: &ShardMap, shards: u32, replication: u32) -> Placed {
    let spec = |shards| CollectionSpec {
        dimension: 1,
        metric: Metric::Euclidean,
        shards,
        replication,
    };
    if state::place(map, &spec(0)).is_none() {
        return Ok(None);
    }
    if shards > SHARDS_PLACED || replication > wire::REPLICAS as u32 {
        return Err(23);
    }
    Ok(state::place(map, &spec(shards)))
}

fn over_limit(machine: &StateMachine) -> bool {
    let map = machine.map();
    map.nodes.len() > NODES
        || map.collections.len() > COLLECTIONS
        || map.shards.len() > SHARDS
        || map
            .shards
            .values()
            .any(|s| s.replicas.len() > wire::REPLICAS)
}
