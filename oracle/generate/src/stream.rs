//! A stream of `replay` under construction: each record is run as it is added, so that what comes
//! next can depend on the answer; how often each answer occurred is counted.

use std::collections::BTreeMap;

use front::replay::{Record, Replay, call};
use wire::{Command, Key, Message, Op, Request};

/// How often each answer occurred, by call.
pub type Tally = BTreeMap<String, u64>;

#[derive(Default)]
pub struct Stream {
    pub replay: Replay,
    pub records: Vec<Record>,
    pub answers: Vec<String>,
    pub tally: Tally,
    /// The clock that the next record carries.
    pub now: u64,
    /// The index of the last command.
    pub index: u64,
}

/// The calls by number.
pub const NAMES: [&str; 18] = [
    "make",
    "apply",
    "map shown",
    "lease grant",
    "Write",
    "Search",
    "Replicate",
    "NewEpoch",
    "CopyShard",
    "wait",
    "step",
    "ack",
    "outcome",
    "held",
    "node",
    "map",
    "place",
    "replacement",
];

/// The name of a command.
pub fn command_name(command: &Command) -> &'static str {
    match command {
        Command::Create { .. } => "Create",
        Command::Drop { .. } => "Drop",
        Command::Register { .. } => "Register",
        Command::MarkNodeDead { .. } => "MarkNodeDead",
        Command::AddReplica { .. } => "Add",
        Command::Remove(_) => "Remove",
        Command::Promote(_) => "Promote",
        Command::Shrink(_) => "Shrink",
        Command::Expand(_) => "Expand",
        Command::Bench { .. } => "Bench",
    }
}

/// The line of the table that an answer belongs to.
fn answer_name(record: &Record, answer: &str) -> String {
    let mut words = answer.split_whitespace();
    let first = words.next().unwrap_or("");
    let name = NAMES[usize::from(record.call)];
    if record.call == call::APPLY
        && let Some(Message::Request(request)) = wire::read(&record.operands)
    {
        let (word, reason) = (words.next().unwrap_or(""), words.next().unwrap_or(""));
        let answer = format!("{word} {reason}").replace("applied 0", "applied");
        return format!("{name} {}: {answer}", command_name(&request.command));
    }
    match first {
        "refused" => format!("{name}: refused {}", words.next().unwrap_or("")),
        "shown" | "found" | "placed" | "done" | "waiting" => {
            let some = words.next() != Some("0");
            format!("{name}: {first}{}", if some { ", with lines" } else { "" })
        }
        "held" => {
            let role = answer.lines().nth(1).unwrap_or("");
            format!("{name}: {}", role.split_whitespace().nth(1).unwrap_or(""))
        }
        _ => format!("{name}: {first}"),
    }
}

impl Stream {
    pub fn new() -> Self {
        Stream {
            now: 1,
            ..Stream::default()
        }
    }

    /// Runs a record and keeps it.
    pub fn add(&mut self, record: Record) -> String {
        let answer = self.replay.call(&record);
        *self.tally.entry(answer_name(&record, &answer)).or_default() += 1;
        self.records.push(record);
        self.answers.push(answer.clone());
        answer
    }

    pub fn call(&mut self, call: u8, node: u8, operands: Vec<u8>) -> String {
        let now = self.now;
        self.add(Record {
            call,
            node,
            now,
            operands,
        })
    }

    pub fn make(&mut self, node: u8, settings: [u64; 5]) -> String {
        let operands = settings.iter().flat_map(|n| n.to_le_bytes()).collect();
        self.call(call::MAKE, node, operands)
    }

    /// Applies a command at the next index.
    pub fn apply(&mut self, client: u64, seq: u64, command: Command) -> String {
        self.index += 1;
        self.apply_at(self.index, client, seq, command)
    }

    pub fn apply_at(&mut self, index: u64, client: u64, seq: u64, command: Command) -> String {
        let request = Request {
            index,
            client,
            seq,
            command,
        };
        self.call(call::APPLY, 0, wire::write(&Message::Request(request)))
    }

    pub fn shown(&mut self, node: u8, fresh: u64) -> String {
        self.call(call::SHOWN, node, fresh.to_le_bytes().to_vec())
    }

    pub fn grant(&mut self, node: u8, incarnation: u64, sent: u64) -> String {
        self.call(call::GRANT, node, longs(&[incarnation, sent]))
    }

    pub fn write(&mut self, node: u8, key: &Key, epoch: u64, op: Op) -> String {
        let key = key.clone();
        let message = Message::Write { key, epoch, op };
        self.call(call::WRITE, node, wire::write(&message))
    }

    pub fn search(
        &mut self,
        node: u8,
        key: &Key,
        epoch: u64,
        k: u32,
        vector: Vec<u32>,
        room: u32,
    ) -> String {
        let key = key.clone();
        let message = Message::Search {
            key,
            epoch,
            k,
            vector,
        };
        let mut operands = room.to_le_bytes().to_vec();
        operands.extend(wire::write(&message));
        self.call(call::SEARCH, node, operands)
    }

    /// A request or any other message to the call of its kind.
    pub fn message(&mut self, node: u8, message: &Message) -> String {
        self.bytes(node, wire::write(message))
    }

    pub fn bytes(&mut self, node: u8, bytes: Vec<u8>) -> String {
        let call = match bytes.first() {
            Some(0x20) => call::REPLICATE,
            Some(0x21) => call::NEW_EPOCH,
            _ => call::COPY_SHARD,
        };
        self.call(call, node, bytes)
    }

    pub fn wait(&mut self, node: u8, key: &Key, epoch: u64, offset: u64) -> String {
        let mut operands = wire::key(key);
        operands.extend(longs(&[epoch, offset]));
        self.call(call::WAIT, node, operands)
    }

    pub fn step(&mut self, node: u8, key: &Key, epoch: u64, peer: u64, metric: u8) -> String {
        let mut operands = wire::key(key);
        operands.extend(longs(&[epoch, peer]));
        operands.push(metric);
        self.call(call::STEP, node, operands)
    }

    pub fn ack(
        &mut self,
        node: u8,
        key: &Key,
        epoch: u64,
        peer: u64,
        step: u8,
        reply: &Message,
    ) -> String {
        let mut operands = wire::key(key);
        operands.extend(longs(&[epoch, peer]));
        operands.push(step);
        operands.extend(wire::write(reply));
        self.call(call::ACK, node, operands)
    }

    pub fn outcome(
        &mut self,
        node: u8,
        key: &Key,
        epoch: u64,
        peer: u64,
        command: u8,
        applied: bool,
    ) -> String {
        let mut operands = wire::key(key);
        operands.extend(longs(&[epoch, peer]));
        operands.extend([command, u8::from(applied)]);
        self.call(call::OUTCOME, node, operands)
    }

    pub fn held(&mut self, node: u8, key: &Key) -> String {
        self.call(call::HELD, node, wire::key(key))
    }

    pub fn node(&mut self, node: u8) -> String {
        self.call(call::NODE, node, Vec::new())
    }

    pub fn map(&mut self) -> String {
        self.call(call::MAP, 0, Vec::new())
    }

    pub fn place(&mut self, shards: u32, replication: u32) -> String {
        let mut operands = shards.to_le_bytes().to_vec();
        operands.extend(replication.to_le_bytes());
        self.call(call::PLACE, 0, operands)
    }

    pub fn replacement(&mut self, key: &Key) -> String {
        self.call(call::REPLACEMENT, 0, wire::key(key))
    }

    /// What `replay` reads.
    pub fn input(&self) -> Vec<u8> {
        let mut out = Vec::new();
        self.records.iter().for_each(|r| r.write(&mut out));
        out
    }

    /// What `replay` prints.
    pub fn output(&self) -> String {
        self.answers.concat()
    }
}

pub fn longs(numbers: &[u64]) -> Vec<u8> {
    numbers.iter().flat_map(|n| n.to_le_bytes()).collect()
}

/// A shard's key.
pub fn key(name: &str, shard: u32) -> Key {
    Key {
        name: name.as_bytes().to_vec(),
        shard,
    }
}
