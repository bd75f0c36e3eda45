//! A message as one line: its code in hexadecimal, then every field in the order of the wire.
//! Numbers, codes of operations, metrics and counts are decimal; a command's code is hexadecimal;
//! names, addresses and padding are their bytes in hexadecimal or `-`; floats are eight digits.

use std::fmt::Display;

use crate::{Change, Command, Key, Message, Op};

struct Line(String);

impl Line {
    fn word(&mut self, word: impl Display) -> &mut Self {
        self.0.push_str(&format!(" {word}"));
        self
    }

    fn bytes(&mut self, bytes: &[u8]) -> &mut Self {
        let hex: String = bytes.iter().map(|b| format!("{b:02x}")).collect();
        self.word(if hex.is_empty() { "-" } else { &hex })
    }

    fn key(&mut self, key: &Key) -> &mut Self {
        self.bytes(&key.name).word(key.shard)
    }

    fn vector(&mut self, bits: &[u32]) -> &mut Self {
        self.word(bits.len());
        bits.iter().for_each(|b| {
            self.word(format!("{b:08x}"));
        });
        self
    }

    fn op(&mut self, op: &Op) -> &mut Self {
        match op {
            Op::Put { id, vector } => self.word(1).word(id).vector(vector),
            Op::Delete { id } => self.word(2).word(id),
        }
    }

    fn change(&mut self, code: &str, change: &Change) -> &mut Self {
        self.word(code).key(&change.key);
        self.word(change.node).word(change.epoch)
    }

    fn placement(&mut self, placement: &[Vec<u64>]) -> &mut Self {
        self.word(placement.len());
        for nodes in placement {
            self.word(nodes.len());
            nodes.iter().for_each(|n| {
                self.word(n);
            });
        }
        self
    }

    fn command(&mut self, command: &Command) -> &mut Self {
        match command {
            Command::Create {
                name,
                spec,
                placement,
            } => {
                self.word(10).bytes(name).word(spec.dimension);
                self.word(spec.metric)
                    .word(spec.shards)
                    .word(spec.replication)
                    .placement(placement)
            }
            Command::Drop { name } => self.word(11).bytes(name),
            Command::Register {
                node,
                address,
                incarnation,
            } => self.word(12).word(node).bytes(address).word(incarnation),
            Command::MarkNodeDead { node, incarnation } => {
                self.word(13).word(node).word(incarnation)
            }
            Command::AddReplica {
                key,
                node,
                incarnation,
                epoch,
            } => self
                .word(14)
                .key(key)
                .word(node)
                .word(incarnation)
                .word(epoch),
            Command::Remove(c) => self.change("15", c),
            Command::Promote(c) => self.change("16", c),
            Command::Shrink(c) => self.change("17", c),
            Command::Expand(c) => self.change("18", c),
            Command::Bench { bytes } => self.word(19).word(bytes.len()).bytes(bytes),
        }
    }
}

/// The line of `message`, without its end.
pub fn line(message: &Message) -> String {
    let mut line = Line(String::new());
    match message {
        Message::Request(r) => line
            .word("01")
            .word(r.index)
            .word(r.client)
            .word(r.seq)
            .command(&r.command),
        Message::Replicate {
            key,
            epoch,
            offset,
            op,
        } => line.word(20).key(key).word(epoch).word(offset).op(op),
        Message::NewEpoch {
            key,
            epoch,
            end_offset,
            epochs,
            metric,
        } => {
            line.word(21).key(key).word(epoch).word(end_offset);
            line.word(epochs.len());
            for (epoch, end) in epochs {
                line.word(epoch).word(end);
            }
            line.word(metric)
        }
        Message::CopyShard {
            key,
            epoch,
            entries,
        } => {
            line.word(22).key(key).word(epoch).word(entries.len());
            for entry in entries {
                line.word(entry.epoch).word(entry.offset).op(&entry.op);
            }
            &mut line
        }
        Message::Write { key, epoch, op } => line.word(23).key(key).word(epoch).op(op),
        Message::Search {
            key,
            epoch,
            k,
            vector,
        } => line.word(24).key(key).word(epoch).word(k).vector(vector),
        Message::Stored(n) => line.word(30).word(n),
        Message::Gap(n) => line.word(31).word(n),
        Message::StaleEpoch(n) => line.word(32).word(n),
        Message::Adopted(n) => line.word(33).word(n),
    };
    line.0.split_off(1)
}
