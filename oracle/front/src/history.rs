//! Program `history`: a row of calls on one replica, the Rust's `ShardReplica`, and what each
//! answers. A record is: call u8, length u16, and so many bytes of operands. An unknown call or a
//! record that is cut short ends the program with no line; a call before the first `make` prints
//! `none`; operands that do not decode print `refused 21`. Keys and epochs of messages that the
//! replica itself does not look at are not looked at here either.

use std::fmt::Write;

use datanode::shard::{ShardReplica, Stored};
use rpc::{Epoch, LogEntry};
use wire::Message;

use crate::{ENTRIES, convert, search, show};

/// Calls by number; names for those that build histories.
pub mod call {
    /// epoch u64, metric u8
    pub const MAKE: u8 = 0;
    /// message 23: its operation, appended
    pub const APPEND: u8 = 1;
    /// message 20: one entry under the message's epoch
    pub const STORE: u8 = 2;
    /// message 22: entries under their own epochs
    pub const COPY: u8 = 3;
    /// message 21
    pub const ADOPT: u8 = 4;
    /// epoch u64
    pub const PROMOTE: u8 = 5;
    pub const ENDS: u8 = 6;
    /// from u64, count u16 up to 256
    pub const ENTRIES_FROM: u8 = 7;
    /// id u64
    pub const VECTOR: u8 = 8;
    pub const IDS: u8 = 9;
    /// message 24: its vector and k
    pub const SEARCH: u8 = 10;
    pub const STATE: u8 = 11;
}

/// A record as bytes.
pub fn record(call: u8, operands: &[u8]) -> Vec<u8> {
    let mut out = vec![call];
    out.extend((operands.len() as u16).to_le_bytes());
    out.extend(operands);
    out
}

fn read(input: &[u8]) -> Option<(u8, &[u8], &[u8])> {
    let (&[call, low, high], rest) = input.split_first_chunk::<3>()?;
    let (operands, rest) = rest.split_at_checked(usize::from(u16::from_le_bytes([low, high])))?;
    (call <= call::STATE).then_some((call, operands, rest))
}

pub fn run(mut input: &[u8]) -> String {
    let mut history = History::default();
    let mut out = String::new();
    while let Some((call, operands, rest)) = read(input) {
        input = rest;
        out.push_str(&history.call(call, operands));
    }
    out
}

/// The lines of an answer, or the refusal's number.
type Lines = Result<String, u8>;

#[derive(Default)]
pub struct History {
    pub replica: Option<ShardReplica>,
}

impl History {
    /// The lines that a call prints.
    pub fn call(&mut self, call: u8, operands: &[u8]) -> String {
        let lines = match (call, &mut self.replica) {
            (call::MAKE, _) => self.make(operands),
            (_, None) => Ok("none\n".into()),
            (_, Some(replica)) => on_replica(replica, call, operands),
        };
        lines.unwrap_or_else(|number| format!("refused {number}\n"))
    }

    fn make(&mut self, operands: &[u8]) -> Lines {
        let [numbers @ .., metric @ (0 | 1)] = operands else {
            return Err(21);
        };
        let epoch = Epoch(long(numbers)?);
        self.replica = Some(ShardReplica::new(epoch, convert::metric(*metric)));
        Ok("ok\n".into())
    }
}

fn long(bytes: &[u8]) -> Result<u64, u8> {
    Ok(u64::from_le_bytes(bytes.try_into().map_err(|_| 21)?))
}

fn on_replica(replica: &mut ShardReplica, call: u8, operands: &[u8]) -> Lines {
    match call {
        call::PROMOTE => {
            replica.promote(Epoch(long(operands)?));
            Ok("ok\n".into())
        }
        call::ENTRIES_FROM => entries_from(replica, operands),
        call::VECTOR => {
            let id = long(operands)?;
            let line = |v| format!("vector {id}{}\n", show::floats(v));
            Ok(replica.vector(id).map_or("none\n".into(), line))
        }
        call::ENDS | call::IDS | call::STATE if !operands.is_empty() => Err(21),
        call::ENDS => Ok(ends(replica)),
        call::IDS => Ok(ids(replica)),
        call::STATE => Ok(state(replica)),
        _ => with_message(replica, call, wire::read(operands).ok_or(21)?),
    }
}

fn with_message(replica: &mut ShardReplica, call: u8, message: Message) -> Lines {
    match (call, message) {
        (call::APPEND, Message::Write { op, .. }) => {
            let op = convert::op_in_domain(&op)
                .then(|| convert::op(&op))
                .ok_or(22)?;
            within_log(replica, |r| format!("appended {}\n", r.append(op)))
        }
        (
            call::STORE,
            Message::Replicate {
                epoch, offset, op, ..
            },
        ) => {
            let op = convert::op_in_domain(&op)
                .then(|| convert::op(&op))
                .ok_or(22)?;
            let epoch = Epoch(epoch);
            let entry = LogEntry { epoch, offset, op };
            within_log(replica, |r| stored(r.store(epoch, entry)))
        }
        (call::COPY, Message::CopyShard { epoch, entries, .. }) => {
            let fits = entries.iter().all(|e| convert::op_in_domain(&e.op));
            fits.then_some(()).ok_or(22)?;
            within_log(replica, |r| copied(r, Epoch(epoch), &entries))
        }
        (
            call::ADOPT,
            Message::NewEpoch {
                epoch,
                end_offset,
                epochs,
                ..
            },
        ) => {
            let table: Vec<_> = epochs.iter().map(|&(e, end)| (Epoch(e), end)).collect();
            Ok(match replica.adopt(Epoch(epoch), end_offset, &table) {
                Ok(kept) => format!("adopted {kept}\n"),
                Err(own) => format!("stale {}\n", own.0),
            })
        }
        (call::SEARCH, Message::Search { k, vector, .. }) => {
            let fits = vector.iter().all(|&b| wire::in_domain(b));
            fits.then_some(()).ok_or(22)?;
            let found = replica.search(&convert::floats(&vector), k as usize);
            Ok(search::lines(&found))
        }
        _ => Err(21),
    }
}

/// 23 where the log came to more than its limit; it is then put back.
fn within_log(replica: &mut ShardReplica, call: impl FnOnce(&mut ShardReplica) -> String) -> Lines {
    let saved = replica.clone();
    let lines = call(replica);
    if replica.last_offset() > ENTRIES {
        *replica = saved;
        return Err(23);
    }
    Ok(lines)
}

fn stored(answer: Stored) -> String {
    match answer {
        Stored::Through(offset) => format!("stored {offset}\n"),
        Stored::Gap(next) => format!("gap {next}\n"),
        Stored::Stale(own) => format!("stale {}\n", own.0),
    }
}

/// As `on_copy` of the Rust: one after another, until one is stale.
fn copied(replica: &mut ShardReplica, epoch: Epoch, entries: &[wire::Entry]) -> String {
    for entry in entries {
        if let Stored::Stale(own) = replica.store(epoch, convert::entry(entry)) {
            return format!("stale {}\n", own.0);
        }
    }
    format!("stored {}\n", replica.last_offset())
}

fn ends(replica: &ShardReplica) -> String {
    let ends = replica.epoch_ends();
    let mut out = format!("ends {}\n", ends.len());
    for (epoch, end) in ends {
        writeln!(out, "{} {end}", epoch.0).expect("a string");
    }
    out
}

fn entries_from(replica: &ShardReplica, operands: &[u8]) -> Lines {
    let [from @ .., low, high] = operands else {
        return Err(21);
    };
    let count = usize::from(u16::from_le_bytes([*low, *high]));
    let from = long(from)?;
    if count > wire::BATCH {
        return Err(21);
    }
    let entries = replica.entries_from(from, count);
    let mut out = format!("entries {}\n", entries.len());
    entries.iter().for_each(|e| show::entry(&mut out, e));
    Ok(out)
}

fn ids(replica: &ShardReplica) -> String {
    let mut out = format!("ids {}", replica.len());
    replica
        .ids()
        .for_each(|id| write!(out, " {id}").expect("a string"));
    out.push('\n');
    out
}

/// Everything that the replica holds.
fn state(replica: &ShardReplica) -> String {
    let metric = convert::metric_byte(*replica.field_metric());
    let empty = u8::from(replica.is_empty());
    let (epoch, last) = (replica.epoch().0, replica.last_offset());
    let mut out = format!(
        "replica {epoch} {metric} {last} {} {empty}\n",
        replica.len()
    );
    show::log_and_vectors(&mut out, replica);
    out
}
