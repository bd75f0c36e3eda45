//! The reader: a position that moves over the bytes, and a function for each part.

use crate::{
    ADDRESS_BYTES, BATCH, BENCH_BYTES, COMPONENTS, Change, Command, Entry, KEY_BYTES, Key, LISTS,
    Message, NAME_BYTES, Op, PAIRS, REPLICAS, Request, Spec,
};

/// What is left to read.
struct Reader<'a>(&'a [u8]);

impl<'a> Reader<'a> {
    fn bytes(&mut self, count: usize) -> Option<&'a [u8]> {
        let (first, rest) = self.0.split_at_checked(count)?;
        self.0 = rest;
        Some(first)
    }

    /// A number of `count` bytes, least significant first.
    fn number(&mut self, count: usize) -> Option<u64> {
        let bytes = self.bytes(count)?;
        Some(bytes.iter().rev().fold(0, |n, &b| n << 8 | u64::from(b)))
    }

    fn byte(&mut self) -> Option<u8> {
        Some(self.number(1)? as u8)
    }

    fn short(&mut self, limit: usize) -> Option<usize> {
        let count = self.number(2)? as usize;
        (count <= limit).then_some(count)
    }

    fn word(&mut self) -> Option<u32> {
        Some(self.number(4)? as u32)
    }

    fn long(&mut self) -> Option<u64> {
        self.number(8)
    }

    /// A length byte and `room` bytes, of which those past the length are zero.
    fn text(&mut self, room: usize) -> Option<Vec<u8>> {
        let length = usize::from(self.byte()?);
        let (used, unused) = self.bytes(room)?.split_at_checked(length)?;
        let fits = used.iter().all(|b| (0x20..=0x7e).contains(b));
        let clean = unused.iter().all(|&b| b == 0);
        (fits && clean).then(|| used.to_vec())
    }

    fn name(&mut self) -> Option<Vec<u8>> {
        self.text(NAME_BYTES)
    }

    fn key(&mut self) -> Option<Key> {
        Some(Key {
            name: self.name()?,
            shard: self.word()?,
        })
    }

    fn metric(&mut self) -> Option<u8> {
        self.byte().filter(|&m| m <= 1)
    }

    fn vector(&mut self) -> Option<Vec<u32>> {
        let count = usize::from(self.byte()?);
        if !(1..=COMPONENTS).contains(&count) {
            return None;
        }
        (0..count).map(|_| self.word()).collect()
    }

    fn op(&mut self) -> Option<Op> {
        match self.byte()? {
            1 => Some(Op::Put {
                id: self.long()?,
                vector: self.vector()?,
            }),
            2 => Some(Op::Delete { id: self.long()? }),
            _ => None,
        }
    }

    fn entry(&mut self) -> Option<Entry> {
        Some(Entry {
            epoch: self.long()?,
            offset: self.long()?,
            op: self.op()?,
        })
    }

    fn change(&mut self) -> Option<Change> {
        Some(Change {
            key: self.key()?,
            node: self.long()?,
            epoch: self.long()?,
        })
    }

    fn spec(&mut self) -> Option<Spec> {
        Some(Spec {
            dimension: self.word()?,
            metric: self.metric()?,
            shards: self.word()?,
            replication: self.word()?,
        })
    }

    fn placement(&mut self) -> Option<Vec<Vec<u64>>> {
        let lists = usize::from(self.byte()?);
        if lists > LISTS {
            return None;
        }
        (0..lists)
            .map(|_| {
                let nodes = usize::from(self.byte()?);
                if nodes > REPLICAS {
                    return None;
                }
                (0..nodes).map(|_| self.long()).collect()
            })
            .collect()
    }

    fn command(&mut self) -> Option<Command> {
        Some(match self.byte()? {
            0x10 => Command::Create {
                name: self.name()?,
                spec: self.spec()?,
                placement: self.placement()?,
            },
            0x11 => Command::Drop { name: self.name()? },
            0x12 => Command::Register {
                node: self.long()?,
                address: self.text(ADDRESS_BYTES)?,
                incarnation: self.long()?,
            },
            0x13 => Command::MarkNodeDead {
                node: self.long()?,
                incarnation: self.long()?,
            },
            0x14 => Command::AddReplica {
                key: self.key()?,
                node: self.long()?,
                incarnation: self.long()?,
                epoch: self.long()?,
            },
            0x15 => Command::Remove(self.change()?),
            0x16 => Command::Promote(self.change()?),
            0x17 => Command::Shrink(self.change()?),
            0x18 => Command::Expand(self.change()?),
            0x19 => {
                let length = self.short(BENCH_BYTES)?;
                Command::Bench {
                    bytes: self.bytes(length)?.to_vec(),
                }
            }
            _ => return None,
        })
    }

    fn new_epoch(&mut self) -> Option<Message> {
        let (key, epoch, end_offset) = (self.key()?, self.long()?, self.long()?);
        let count = self.short(PAIRS)?;
        let epochs = (0..count)
            .map(|_| Some((self.long()?, self.long()?)))
            .collect::<Option<_>>()?;
        Some(Message::NewEpoch {
            key,
            epoch,
            end_offset,
            epochs,
            metric: self.metric()?,
        })
    }

    fn copy_shard(&mut self) -> Option<Message> {
        let (key, epoch) = (self.key()?, self.long()?);
        let count = self.short(BATCH)?;
        let entries = (0..count).map(|_| self.entry()).collect::<Option<_>>()?;
        Some(Message::CopyShard {
            key,
            epoch,
            entries,
        })
    }

    fn message(&mut self) -> Option<Message> {
        Some(match self.byte()? {
            0x01 => Message::Request(Request {
                index: self.long()?,
                client: self.long()?,
                seq: self.long()?,
                command: self.command()?,
            }),
            0x20 => Message::Replicate {
                key: self.key()?,
                epoch: self.long()?,
                offset: self.long()?,
                op: self.op()?,
            },
            0x21 => self.new_epoch()?,
            0x22 => self.copy_shard()?,
            0x23 => Message::Write {
                key: self.key()?,
                epoch: self.long()?,
                op: self.op()?,
            },
            0x24 => Message::Search {
                key: self.key()?,
                epoch: self.long()?,
                k: self.word()?,
                vector: self.vector()?,
            },
            0x30 => Message::Stored(self.long()?),
            0x31 => Message::Gap(self.long()?),
            0x32 => Message::StaleEpoch(self.long()?),
            0x33 => Message::Adopted(self.long()?),
            _ => return None,
        })
    }
}

/// The message that `bytes` are, none left over.
pub fn read(bytes: &[u8]) -> Option<Message> {
    read_first(bytes)
        .filter(|(_, length)| *length == bytes.len())
        .map(|(message, _)| message)
}

/// The message that `bytes` begin with, and its length.
pub fn read_first(bytes: &[u8]) -> Option<(Message, usize)> {
    let mut reader = Reader(bytes);
    let message = reader.message()?;
    Some((message, bytes.len() - reader.0.len()))
}

/// The key that `bytes` are.
pub fn read_key(bytes: &[u8]) -> Option<Key> {
    (bytes.len() == KEY_BYTES).then_some(())?;
    Reader(bytes).key()
}

/// The vector that `bytes` begin with, and its length.
pub fn read_vector(bytes: &[u8]) -> Option<(Vec<u32>, usize)> {
    let mut reader = Reader(bytes);
    let vector = reader.vector()?;
    Some((vector, bytes.len() - reader.0.len()))
}

/// The operation that `bytes` begin with, and its length.
pub fn read_op(bytes: &[u8]) -> Option<(Op, usize)> {
    let mut reader = Reader(bytes);
    let op = reader.op()?;
    Some((op, bytes.len() - reader.0.len()))
}
