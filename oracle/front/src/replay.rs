//! Program `replay`: a row of calls on one map and up to eight nodes, and what each answers.

use datanode::node::inside::{Asked, Held, Settings};
use rpc::{CopyShardAck, NewEpochAck, ReplicateAck, ShardKey};
use wire::Message;

use crate::applymap;
use crate::map::Map;
use crate::node::{Answer, Node, Peer, Refused, Step};
use crate::{convert, search, show};

/// Calls by number; names for those that build streams.
pub mod call {
    pub const MAKE: u8 = 0;
    pub const APPLY: u8 = 1;
    pub const SHOWN: u8 = 2;
    pub const GRANT: u8 = 3;
    pub const WRITE: u8 = 4;
    pub const SEARCH: u8 = 5;
    pub const REPLICATE: u8 = 6;
    pub const NEW_EPOCH: u8 = 7;
    pub const COPY_SHARD: u8 = 8;
    pub const WAIT: u8 = 9;
    pub const STEP: u8 = 10;
    pub const ACK: u8 = 11;
    pub const OUTCOME: u8 = 12;
    pub const HELD: u8 = 13;
    pub const NODE: u8 = 14;
    pub const MAP: u8 = 15;
    pub const PLACE: u8 = 16;
    pub const REPLACEMENT: u8 = 17;
}

/// One call of the input.
#[derive(Debug, Clone, PartialEq, Eq)]
pub struct Record {
    pub call: u8,
    pub node: u8,
    pub now: u64,
    pub operands: Vec<u8>,
}

impl Record {
    /// The record that `input` begins with, and the rest. None where the program ends.
    pub fn read(input: &[u8]) -> Option<(Record, &[u8])> {
        let (head, rest) = input.split_first_chunk::<12>()?;
        let length = usize::from(u16::from_le_bytes([head[10], head[11]]));
        let (operands, rest) = rest.split_at_checked(length)?;
        let record = Record {
            call: head[0],
            node: head[1],
            now: u64::from_le_bytes(head[2..10].try_into().expect("eight bytes")),
            operands: operands.to_vec(),
        };
        (record.call <= call::REPLACEMENT && record.node <= 8).then_some((record, rest))
    }

    pub fn write(&self, out: &mut Vec<u8>) {
        out.extend([self.call, self.node]);
        out.extend(self.now.to_le_bytes());
        out.extend((self.operands.len() as u16).to_le_bytes());
        out.extend(&self.operands);
    }
}

/// The lines of an answer, or the number that stands in their place.
type Lines = Answer<String>;

const UNDECODABLE: Refused = Refused::Number(21);

#[derive(Default)]
pub struct Replay {
    pub map: Map,
    nodes: [Option<Node>; 8],
}

pub fn run(mut input: &[u8]) -> String {
    let mut replay = Replay::default();
    let mut out = String::new();
    while let Some((record, rest)) = Record::read(input) {
        input = rest;
        out.push_str(&replay.call(&record));
    }
    out
}

impl Replay {
    /// The lines that a call prints.
    pub fn call(&mut self, record: &Record) -> String {
        let answer = match record.call {
            call::APPLY | call::MAP | call::PLACE | call::REPLACEMENT => self.on_map(record),
            _ if record.node == 0 => Ok("none\n".into()),
            call::MAKE => self.make(record),
            _ => self.on_node(record),
        };
        // Requests that the Rust encoded and nobody took are not needed again.
        postcard::forget();
        match answer {
            Ok(lines) => lines,
            Err(Refused::Number(number)) => format!("refused {number}\n"),
            Err(Refused::NotPrimary(epoch)) => format!("refused 18 {epoch}\n"),
        }
    }

    /// The shard as the node in `slot` holds it.
    pub fn held(&self, slot: u8, key: &ShardKey) -> Option<Held> {
        self.nodes[usize::from(slot) - 1].as_ref()?.held(key)
    }

    fn make(&mut self, record: &Record) -> Lines {
        let mut operands = Operands(&record.operands);
        let settings = Settings {
            id: operands.long()?,
            incarnation: operands.long()?,
            lease: operands.long()?,
            ack_timeout: operands.long()?,
            min_in_sync: operands.long()?,
        };
        operands.end()?;
        self.nodes[usize::from(record.node) - 1] = Some(Node::new(settings));
        Ok("ok\n".into())
    }

    fn on_map(&mut self, record: &Record) -> Lines {
        let mut operands = Operands(&record.operands);
        match record.call {
            call::APPLY => {
                let Some(Message::Request(request)) = wire::read(&record.operands) else {
                    return Err(UNDECODABLE);
                };
                let answer = self.map.apply(&request);
                let line = applymap::line(request.index, answer, self.map.version());
                Ok(line + "\n")
            }
            call::MAP => {
                operands.end()?;
                Ok(show::map(&self.map))
            }
            call::PLACE => {
                let (shards, replication) = (operands.word()?, operands.word()?);
                operands.end()?;
                let placed = self.map.place(shards, replication);
                placed.map(place_lines).map_err(Refused::Number)
            }
            _ => {
                let key = operands.key()?;
                operands.end()?;
                Ok(match self.map.replacement(&key) {
                    None => "none\n".into(),
                    Some(node) => format!("node {}\n", node.0),
                })
            }
        }
    }

    fn on_node(&mut self, record: &Record) -> Lines {
        let Some(node) = self.nodes[usize::from(record.node) - 1].as_mut() else {
            return Ok("none\n".into());
        };
        let operands = Operands(&record.operands);
        match record.call {
            call::SHOWN => shown(node, &self.map, operands),
            call::GRANT => grant(node, operands),
            call::WRITE => {
                let offset = node.write(record.now, operands.0)?;
                Ok(format!("accepted {offset}\n"))
            }
            call::SEARCH => find(node, record.now, operands),
            call::REPLICATE => Ok(match node.replicate(operands.0)? {
                ReplicateAck::Stored { through } => format!("stored {through}\n"),
                ReplicateAck::Gap { next } => format!("gap {next}\n"),
                ReplicateAck::StaleEpoch { epoch } => format!("stale {}\n", epoch.0),
            }),
            call::NEW_EPOCH => Ok(match node.new_epoch(operands.0)? {
                NewEpochAck::Adopted { through } => format!("adopted {through}\n"),
                NewEpochAck::StaleEpoch { epoch } => format!("stale {}\n", epoch.0),
            }),
            call::COPY_SHARD => Ok(match node.copy_shard(operands.0)? {
                CopyShardAck::Stored { through } => format!("stored {through}\n"),
                CopyShardAck::StaleEpoch { epoch } => format!("stale {}\n", epoch.0),
            }),
            call::WAIT => wait(node, record.now, operands),
            call::STEP => step(node, operands),
            call::ACK => ack(node, operands),
            call::OUTCOME => outcome(node, operands),
            call::HELD => held(node, operands),
            _ => header(node, operands),
        }
    }
}

pub fn place_lines(placed: Option<Vec<Vec<rpc::DataNodeId>>>) -> String {
    let Some(lists) = placed else {
        return "none\n".into();
    };
    let mut out = format!("placed {}\n", lists.len());
    for list in lists {
        out.push_str("list");
        list.iter().for_each(|n| out.push_str(&format!(" {}", n.0)));
        out.push('\n');
    }
    out
}

fn shown(node: &mut Node, map: &Map, mut operands: Operands) -> Lines {
    let fresh = operands.long()?;
    operands.end()?;
    let started = node.shown(map.machine.map(), fresh)?;
    let mut out = format!("shown {}\n", started.len());
    for worker in started {
        out.push_str(&format!(
            "worker {} {} {} {}\n",
            show::key(&worker.key),
            worker.peer,
            worker.epoch,
            convert::metric_byte(worker.metric)
        ));
    }
    Ok(out)
}

fn grant(node: &mut Node, mut operands: Operands) -> Lines {
    let (incarnation, sent) = (operands.long()?, operands.long()?);
    operands.end()?;
    node.grant(incarnation, sent)?;
    Ok("ok\n".into())
}

fn find(node: &mut Node, now: u64, mut operands: Operands) -> Lines {
    let room = operands.word()?;
    let found = node.search(now, room, operands.0)?;
    Ok(search::lines(&found))
}

fn wait(node: &mut Node, now: u64, mut operands: Operands) -> Lines {
    let (key, epoch, offset) = (operands.key()?, operands.long()?, operands.long()?);
    operands.end()?;
    let (done, shrinks) = node.wait(now, &key, epoch, offset)?;
    let word = if done { "done" } else { "waiting" };
    let mut out = format!("{word} {}\n", shrinks.len());
    shrinks
        .iter()
        .for_each(|peer| out.push_str(&format!("shrink {peer}\n")));
    Ok(out)
}

fn step(node: &mut Node, mut operands: Operands) -> Lines {
    let peer = operands.peer()?;
    let metric = operands.byte(1)?;
    operands.end()?;
    let asked = node.step(peer, metric);
    let word = match asked {
        Asked::Wait => "wait",
        Asked::Stop => "stop",
        Asked::Align(_) => "align",
        Asked::Replicate(_) => "replicate",
        Asked::Copy(_) => "copy",
    };
    Ok(match convert::request(&asked) {
        None => format!("{word}\n"),
        Some(message) => format!("{word} {}\n", show::hex(&wire::write(&message))),
    })
}

fn ack(node: &mut Node, mut operands: Operands) -> Lines {
    let peer = operands.peer()?;
    let step = match operands.byte(2)? {
        0 => Step::Align,
        1 => Step::Replicate,
        _ => Step::Copy,
    };
    Ok(match node.ack(peer, step, operands.0)? {
        true => "expand\n".into(),
        false => "ok\n".into(),
    })
}

fn outcome(node: &mut Node, mut operands: Operands) -> Lines {
    let peer = operands.peer()?;
    let (command, applied) = (operands.byte(0x18)?, operands.byte(1)?);
    operands.end()?;
    if command < 0x17 {
        return Err(UNDECODABLE);
    }
    node.outcome(peer, command == 0x17, applied == 1);
    Ok("ok\n".into())
}

fn held(node: &Node, mut operands: Operands) -> Lines {
    let key = operands.key()?;
    operands.end()?;
    Ok(match node.held(&key) {
        None => "none\n".into(),
        Some(held) => show::held(&held),
    })
}

fn header(node: &Node, operands: Operands) -> Lines {
    operands.end()?;
    let h = node.header();
    let expiry = h.expiry.map_or("-".into(), |t| t.to_string());
    Ok(format!(
        "node {} {} {} {expiry} {} {}\n",
        h.id, h.incarnation, h.version, node.refused, h.held
    ))
}

/// The operands still to read; what is missing or does not decode is 21.
struct Operands<'a>(&'a [u8]);

impl Operands<'_> {
    fn bytes<const N: usize>(&mut self) -> Answer<[u8; N]> {
        let (bytes, rest) = self.0.split_first_chunk::<N>().ok_or(UNDECODABLE)?;
        self.0 = rest;
        Ok(*bytes)
    }

    /// A byte of at most `limit`.
    fn byte(&mut self, limit: u8) -> Answer<u8> {
        let [byte] = self.bytes()?;
        if byte > limit {
            return Err(UNDECODABLE);
        }
        Ok(byte)
    }

    fn word(&mut self) -> Answer<u32> {
        Ok(u32::from_le_bytes(self.bytes()?))
    }

    fn long(&mut self) -> Answer<u64> {
        Ok(u64::from_le_bytes(self.bytes()?))
    }

    fn key(&mut self) -> Answer<ShardKey> {
        let bytes = self.bytes::<{ wire::KEY_BYTES }>()?;
        let key = wire::read_key(&bytes).ok_or(UNDECODABLE)?;
        Ok(convert::key(&key))
    }

    fn peer(&mut self) -> Answer<Peer> {
        Ok(Peer {
            key: self.key()?,
            epoch: self.long()?,
            peer: self.long()?,
        })
    }

    fn end(&self) -> Answer<()> {
        if !self.0.is_empty() {
            return Err(UNDECODABLE);
        }
        Ok(())
    }
}
