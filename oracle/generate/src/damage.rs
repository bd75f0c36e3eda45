//! Messages for `decode`: every kind whole, each damaged at every position, and each limit of a
//! count or a length met and passed by one.

use wire::{Change, Command, Entry, Key, Message, Op, Request, Spec};

use crate::rng::Rng;

fn key() -> Key {
    Key {
        name: b"a~".to_vec(),
        shard: 3,
    }
}

fn change() -> Change {
    Change {
        key: key(),
        node: 4,
        epoch: 5,
    }
}

fn request(command: Command) -> Message {
    Message::Request(Request {
        index: 0x0102_0304_0506_0708,
        client: 9,
        seq: u64::MAX,
        command,
    })
}

fn put(vector: Vec<u32>) -> Op {
    Op::Put { id: 6, vector }
}

fn create(placement: Vec<Vec<u64>>) -> Command {
    Command::Create {
        name: vec![],
        spec: Spec {
            dimension: 2,
            metric: 1,
            shards: 2,
            replication: 3,
        },
        placement,
    }
}

fn copy(entries: usize) -> Message {
    let entry = |n: usize| Entry {
        epoch: 1,
        offset: 1 + n as u64,
        op: if n % 2 == 0 {
            put(vec![0x3f80_0000])
        } else {
            Op::Delete { id: 8 }
        },
    };
    Message::CopyShard {
        key: key(),
        epoch: 2,
        entries: (0..entries).map(entry).collect(),
    }
}

fn new_epoch(pairs: usize) -> Message {
    Message::NewEpoch {
        key: key(),
        epoch: 3,
        end_offset: 9,
        epochs: (0..pairs as u64).map(|n| (n, n + 1)).collect(),
        metric: 1,
    }
}

fn register(address: usize) -> Message {
    request(Command::Register {
        node: 1,
        address: vec![b'h'; address],
        incarnation: 2,
    })
}

fn write(op: Op) -> Message {
    Message::Write {
        key: key(),
        epoch: 7,
        op,
    }
}

fn search(vector: Vec<u32>) -> Message {
    Message::Search {
        key: key(),
        epoch: 7,
        k: 10,
        vector,
    }
}

/// One message of each kind, and of each form of an operation.
pub fn kinds() -> Vec<Message> {
    vec![
        request(create(vec![vec![1], vec![2, 3]])),
        request(Command::Drop { name: b"~".into() }),
        register(3),
        request(Command::MarkNodeDead {
            node: 1,
            incarnation: 2,
        }),
        request(Command::AddReplica {
            key: key(),
            node: 1,
            incarnation: 2,
            epoch: 3,
        }),
        request(Command::Promote(change())),
        request(Command::Bench {
            bytes: vec![0, 255],
        }),
        Message::Replicate {
            key: key(),
            epoch: 1,
            offset: 2,
            op: put(vec![0x3f80_0000]),
        },
        new_epoch(1),
        copy(2),
        write(Op::Delete { id: 6 }),
        search(vec![0x8000_0000, 0x7fc0_0000]),
        Message::Stored(1),
        Message::Gap(0),
        Message::StaleEpoch(u64::MAX),
        Message::Adopted(1 << 62),
    ]
}

/// Messages at the limits, whole.
fn at_limits() -> Vec<Message> {
    let named = |length: usize, byte: u8| {
        request(Command::Drop {
            name: vec![byte; length],
        })
    };
    vec![
        request(Command::Remove(change())),
        request(Command::Shrink(change())),
        request(Command::Expand(change())),
        named(0, b'x'),
        named(32, 0x20),
        named(32, 0x7e),
        named(1, 0x1f),
        named(1, 0x7f),
        named(1, 0x80),
        named(2, 0),
        register(0),
        register(64),
        request(create(vec![])),
        request(create(vec![vec![]; 16])),
        request(create(vec![vec![1]; 17])),
        request(create(vec![vec![7; 8]])),
        request(create(vec![vec![7; 9]])),
        request(Command::Bench { bytes: vec![] }),
        request(Command::Bench {
            bytes: vec![1; 1024],
        }),
        request(Command::Bench {
            bytes: vec![1; 1025],
        }),
        new_epoch(0),
        copy(0),
        copy(256),
        copy(257),
        write(put(vec![0; 32])),
        write(put(vec![0; 33])),
        write(put(vec![])),
        write(put(vec![0x4f80_0001, 0x7f80_0000, 0xffff_ffff])),
        search(vec![1; 32]),
        search(vec![1; 33]),
        search(vec![]),
    ]
}

/// A byte that is not `byte`: its neighbours, the ends of what a name may hold, or any.
fn other(rng: &mut Rng, byte: u8) -> u8 {
    loop {
        let next = match rng.below(5) {
            0 => byte.wrapping_add(1),
            1 => byte ^ 0x80,
            2 => *rng.pick(&[0, 1, 2, 0x1f, 0x20, 0x7e, 0x7f, 0xff]),
            3 => byte.wrapping_sub(1),
            _ => rng.next() as u8,
        };
        if next != byte {
            return next;
        }
    }
}

/// `bytes` with one byte changed, cut short, lengthened, or with a byte taken out.
pub fn damaged(rng: &mut Rng, bytes: &[u8]) -> Vec<u8> {
    let mut out = bytes.to_vec();
    let place = rng.below(bytes.len().max(1));
    match rng.below(6) {
        0 => out.truncate(place),
        1 => out.push(rng.next() as u8),
        2 => drop(out.splice(place..(place + 1).min(bytes.len()), [])),
        _ if bytes.is_empty() => out.push(rng.next() as u8),
        _ => out[place] = other(rng, bytes[place]),
    }
    out
}

/// The records of a stored list.
pub fn stored(seed: u64) -> Vec<Vec<u8>> {
    let mut rng = Rng::new(seed);
    let mut all = vec![vec![], vec![0], vec![0x25], vec![0x34]];
    for message in kinds() {
        let whole = wire::write(&message);
        all.push(whole.clone());
        for place in 0..whole.len() {
            let mut changed = whole.clone();
            changed[place] = other(&mut rng, whole[place]);
            all.push(changed);
        }
        // Cut at each part's edge rather than at each byte of the padding of a name.
        let cuts = (0..whole.len()).filter(|n| n % 3 == 0 || n + 4 > whole.len());
        all.extend(cuts.map(|n| whole[..n].to_vec()));
        all.push([whole.as_slice(), &[0]].concat());
    }
    all.extend(at_limits().iter().map(wire::write));
    all
}

/// The largest table, apart since it is long.
pub fn long() -> Vec<Vec<u8>> {
    [1024, 1025].map(|n| wire::write(&new_epoch(n))).to_vec()
}

/// A random message of any kind.
pub fn random(rng: &mut Rng) -> Vec<u8> {
    let all = if rng.once_in(4) { at_limits() } else { kinds() };
    wire::write(rng.pick(&all))
}

/// What `decode` reads.
pub fn input(records: &[Vec<u8>]) -> Vec<u8> {
    let mut out = Vec::new();
    for record in records {
        out.extend((record.len() as u16).to_le_bytes());
        out.extend(record);
    }
    out
}

#[cfg(test)]
mod tests {
    use super::*;

    /// Whatever is read is what the writer writes, and every kind is read.
    #[test]
    fn only_what_the_writer_writes_is_read() {
        for bytes in stored(5).into_iter().chain(long()) {
            if let Some(message) = wire::read(&bytes) {
                assert_eq!(wire::write(&message), bytes);
            }
        }
        for message in kinds() {
            assert_eq!(wire::read(&wire::write(&message)), Some(message));
        }
    }

    #[test]
    fn damage_is_read_or_refused_but_never_misread() {
        let mut rng = Rng::new(1);
        for _ in 0..100_000 {
            let whole = random(&mut rng);
            let bytes = damaged(&mut rng, &whole);
            if let Some(message) = wire::read(&bytes) {
                assert_eq!(wire::write(&message), bytes);
            }
        }
    }
}
