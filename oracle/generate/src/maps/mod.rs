//! Requests to the shard map that look at the map: mostly what it would apply, else one thing
//! wrong, so that every reason comes up often.

mod command;
mod scripts;
pub mod sheets;

use std::collections::BTreeMap;

use front::map::{Answer, Map};
use wire::{Command, Message, Request, Spec};

pub use command::command;
pub use scripts::{limits, reasons, repeats, two_faults};

use crate::rng::Rng;
use crate::stream::Tally;

/// A row of requests with what they did.
#[derive(Default)]
pub struct Requests {
    pub map: Map,
    pub input: Vec<u8>,
    pub records: Vec<Vec<u8>>,
    pub tally: Tally,
    index: u64,
    seqs: BTreeMap<u64, u64>,
}

impl Requests {
    /// Adds a request under a client's next seq.
    pub fn add(&mut self, client: u64, command: Command) {
        self.index += 1;
        let seq = self.seqs.get(&client).copied().unwrap_or(0) + 1;
        self.put(Request {
            index: self.index,
            client,
            seq,
            command,
        });
    }

    pub fn put(&mut self, request: Request) {
        let name = match self.map.machine.field_sessions().get(&request.client) {
            Some((last, _)) if *last == request.seq => "with an equal seq",
            _ => crate::stream::command_name(&request.command),
        };
        let last = self.seqs.entry(request.client).or_default();
        *last = (*last).max(request.seq);
        let answer = self.map.apply(&request);
        let words = match answer {
            Answer::Applied => "applied".into(),
            Answer::Rejected(reason) => format!("rejected {reason}"),
            Answer::Refused(number) => format!("refused {number}"),
        };
        *self
            .tally
            .entry(format!("apply {name}: {words}"))
            .or_default() += 1;
        let bytes = wire::write(&Message::Request(request));
        self.input.extend(&bytes);
        self.records.push(bytes);
    }

    /// Adds a random request: a client's next seq, at times an older or an equal one.
    pub fn random(&mut self, rng: &mut Rng) {
        let command = command(rng, self.map.machine.map());
        let client = match rng.below(40) {
            0 => rng.corner(),
            _ => rng.below(5) as u64,
        };
        let last = self.seqs.get(&client).copied().unwrap_or(0);
        let seq = match rng.below(16) {
            0 => last,
            1 => last.saturating_sub(1),
            2 => last.saturating_add(1 + rng.next() % 5),
            _ => last.saturating_add(1),
        };
        self.index += 1;
        let index = match rng.below(30) {
            0 => rng.corner(),
            _ => self.index,
        };
        self.put(Request {
            index,
            client,
            seq,
            command,
        });
    }
}

/// A random row of `count` requests.
pub fn random(seed: u64, count: usize) -> Requests {
    let mut rng = Rng::new(seed);
    let mut requests = Requests::default();
    for _ in 0..count {
        requests.random(&mut rng);
    }
    requests
}

/// A row that begins near the limits: some thirty nodes, sixty clients and as many shards.
pub fn crowded(seed: u64, count: usize) -> Requests {
    let mut rng = Rng::new(seed);
    let mut requests = Requests::default();
    for node in 0..30 + rng.below(3) as u64 {
        requests.add(
            9,
            Command::Register {
                node,
                address: vec![],
                incarnation: 1,
            },
        );
    }
    for name in 0..13 + rng.below(4) {
        let shards = 4 + rng.below(2) as u32;
        let spec = Spec {
            dimension: 1,
            metric: 0,
            shards,
            replication: 8,
        };
        let list = |n: u32, rng: &mut Rng| {
            (0..1 + rng.below(8) as u64)
                .map(|m| m + u64::from(n))
                .collect()
        };
        let placement = (0..shards).map(|n| list(n, &mut rng)).collect();
        requests.add(
            9,
            Command::Create {
                name: vec![b'a' + name as u8],
                spec,
                placement,
            },
        );
    }
    for client in 0..52 + rng.below(8) as u64 {
        requests.add(100 + client, Command::Bench { bytes: vec![] });
    }
    for _ in 0..count {
        requests.random(&mut rng);
    }
    requests
}
