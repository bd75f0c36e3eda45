//! Histories of one replica for `history`: the starred cases of the log, a full log, cuts with
//! their rebuilt vectors, and random ones that look at the replica to choose what comes next.

use front::history::{History, call, record};
use wire::{Entry, Key, Message, Op};

use crate::edits;
use crate::floats::{self, KINDS};
use crate::rng::Rng;

/// A history under construction: each record is run as it is added.
#[derive(Default)]
pub struct Made {
    pub records: Vec<Vec<u8>>,
    history: History,
}

fn key() -> Key {
    Key {
        name: b"stars".to_vec(),
        shard: 3,
    }
}

fn put(id: u64, vector: &[f32]) -> Op {
    Op::Put {
        id,
        vector: vector.iter().map(|f| f.to_bits()).collect(),
    }
}

impl Made {
    fn call(&mut self, call: u8, operands: &[u8]) {
        self.history.call(call, operands);
        self.records.push(record(call, operands));
    }

    fn make(&mut self, epoch: u64, metric: u8) {
        let mut operands = epoch.to_le_bytes().to_vec();
        operands.push(metric);
        self.call(call::MAKE, &operands);
    }

    fn message(&mut self, call: u8, message: &Message) {
        self.call(call, &wire::write(message));
    }

    fn append(&mut self, op: Op) {
        let (key, epoch) = (key(), 1);
        self.message(call::APPEND, &Message::Write { key, epoch, op });
    }

    fn store(&mut self, epoch: u64, offset: u64, op: Op) {
        let key = key();
        let message = Message::Replicate {
            key,
            epoch,
            offset,
            op,
        };
        self.message(call::STORE, &message);
    }

    fn copy(&mut self, epoch: u64, entries: Vec<Entry>) {
        let key = key();
        let message = Message::CopyShard {
            key,
            epoch,
            entries,
        };
        self.message(call::COPY, &message);
    }

    fn adopt(&mut self, epoch: u64, end_offset: u64, epochs: &[(u64, u64)]) {
        let message = Message::NewEpoch {
            key: key(),
            epoch,
            end_offset,
            epochs: epochs.to_vec(),
            metric: 0,
        };
        self.message(call::ADOPT, &message);
    }

    fn promote(&mut self, epoch: u64) {
        self.call(call::PROMOTE, &epoch.to_le_bytes());
    }

    fn entries_from(&mut self, from: u64, count: u16) {
        let mut operands = from.to_le_bytes().to_vec();
        operands.extend(count.to_le_bytes());
        self.call(call::ENTRIES_FROM, &operands);
    }

    fn vector(&mut self, id: u64) {
        self.call(call::VECTOR, &id.to_le_bytes());
    }

    fn search(&mut self, k: u32, vector: Vec<u32>) {
        let message = Message::Search {
            key: key(),
            epoch: 1,
            k,
            vector,
        };
        self.message(call::SEARCH, &message);
    }

    fn look(&mut self) {
        for call in [call::STATE, call::ENDS, call::IDS] {
            self.call(call, &[]);
        }
    }

    fn last(&self) -> u64 {
        self.history.replica.as_ref().map_or(0, |r| r.last_offset())
    }

    fn epoch(&self) -> u64 {
        self.history.replica.as_ref().map_or(0, |r| r.epoch().0)
    }

    /// A log with epochs 1, 1, 2 at a replica of epoch 2.
    fn starred_log(&mut self) {
        self.make(1, 0);
        self.append(put(7, &[3.0, 4.0]));
        self.append(put(8, &[1.0]));
        self.promote(2);
        self.append(Op::Delete { id: 7 });
    }
}

/// The starred cases of the log, and what stands close to them.
pub fn chosen() -> Made {
    let mut m = Made::default();
    m.call(call::STATE, &[]);
    let table = [(1, 2), (3, 5)];
    for (epoch, end, table) in [
        (3, 5, &table[..]),
        (3, 1, &table),
        (3, 5, &[]),
        (2, 3, &[(1, 2), (2, 3)]),
        (2, 1, &[]),
        (1, 3, &table),
        (3, 3, &[(1, 1), (1, 2), (2, 3)]),
        (3, 3, &[(1, 3)]),
        (u64::MAX, u64::MAX, &[(1, 2), (2, u64::MAX)]),
        (3, 3, &[(1, 0), (9, 0), (1, 2), (2, 3)]),
        (3, 0, &[(1, 2), (2, 3)]),
    ] {
        m.starred_log();
        m.adopt(epoch, end, table);
        m.look();
        m.vector(7);
        m.search(4, vec![0, 0]);
    }
    stores(&mut m);
    entries(&mut m);
    refused(&mut m);
    m
}

/// Each offset and epoch beside the one that is due, as Replicate and as CopyShard.
fn stores(m: &mut Made) {
    m.starred_log();
    for epoch in [1, 2, 3] {
        for offset in [0, 1, 3, 4, 5, u64::MAX] {
            m.store(epoch, offset, put(offset, &[2.0]));
        }
    }
    m.look();
    m.copy(9, vec![]);
    let entry = |epoch, offset| Entry {
        epoch,
        offset,
        op: put(offset, &[offset as f32]),
    };
    m.copy(1, vec![entry(1, 5)]);
    m.copy(2, vec![entry(1, 4), entry(1, 5), entry(2, 7), entry(1, 6)]);
    m.copy(2, vec![entry(1, 7), entry(3, 7), entry(3, 8)]);
    m.look();
}

/// Entries from each place on, and from beyond the log.
fn entries(m: &mut Made) {
    for from in [0, 1, 2, 8, 9, u64::MAX] {
        for count in [0, 1, 3, 256, 257] {
            m.entries_from(from, count);
        }
    }
    for id in [0, 4, 7, 8, u64::MAX] {
        m.vector(id);
    }
}

/// What does not decode, other kinds, components outside the domain.
fn refused(m: &mut Made) {
    for call in 0..=call::STATE {
        m.call(call, &[9]);
        m.call(call, &wire::write(&Message::Stored(1)));
    }
    let outside = Op::Put {
        id: 1,
        vector: vec![0, 0x4f80_0001],
    };
    m.append(outside.clone());
    m.store(2, 99, outside.clone());
    let bad = Entry {
        epoch: 1,
        offset: 99,
        op: outside,
    };
    m.copy(7, vec![bad]);
    m.search(1, vec![0x7fc0_0000]);
    m.look();
}

/// A log filled to its limit and beyond, by each call; cut and filled again.
pub fn full() -> Made {
    let mut m = Made::default();
    m.make(5, 1);
    let op = |n: u64| match n % 3 {
        2 => Op::Delete { id: n - 2 },
        _ => put(n % 40, &[n as f32, 1.0]),
    };
    let batch = |epoch: u64, from: u64, count: u64| -> Vec<Entry> {
        let entry = |offset| Entry {
            epoch,
            offset,
            op: op(offset),
        };
        (from..from + count).map(entry).collect()
    };
    for from in [1, 257, 513] {
        m.copy(5, batch(from, from, 256));
    }
    m.copy(5, batch(4, 769, 255));
    m.call(call::IDS, &[]);
    // 1,023 stand: two more do not fit, one already held and one behind a gap do not count.
    m.copy(5, batch(5, 1024, 2));
    m.copy(5, batch(5, 1023, 3));
    m.copy(5, [batch(5, 1022, 2), batch(5, 1026, 3)].concat());
    m.copy(5, [batch(5, 1020, 5), batch(5, 1027, 3)].concat());
    m.append(op(1));
    m.store(5, 1025, op(1));
    m.store(5, 1024, op(1));
    m.store(5, 1027, op(1));
    m.copy(5, batch(5, 1025, 1));
    m.copy(4, batch(5, 1025, 1));
    m.call(call::ENDS, &[]);
    m.search(5, vec![0, 0]);
    m.adopt(6, 1000, &[(1, 256), (257, 512), (513, 700)]);
    m.call(call::IDS, &[]);
    m.append(put(1, &[1.0]));
    m.entries_from(690, 256);
    m.call(call::STATE, &[]);
    m
}

/// A log appended, all but its last two entries in batches, and its vectors looked at.
fn appended(metric: u8, log: &[Op]) -> Made {
    let mut m = Made::default();
    m.make(1, metric);
    let (first, edits) = log.split_at(log.len().saturating_sub(2));
    let entry = |(n, op): (usize, &Op)| Entry {
        epoch: 1,
        offset: 1 + n as u64,
        op: op.clone(),
    };
    let entries: Vec<Entry> = first.iter().enumerate().map(entry).collect();
    for batch in entries.chunks(256) {
        m.copy(1, batch.to_vec());
    }
    edits.iter().for_each(|op| m.append(op.clone()));
    m.call(call::IDS, &[]);
    for id in [3, 5, 7, 9, u64::MAX] {
        m.vector(id);
    }
    m.search(4, vec![0x3f80_0000, 0]);
    m
}

/// Logs of which each two have the same vectors, one behind the other.
pub fn orders() -> Vec<[Made; 2]> {
    let twins = [edits::different(), edits::same()].concat();
    let long = |t: &edits::Twins| t[0].len() > 1000;
    let few = twins.iter().filter(|t| long(t)).step_by(9);
    let all = twins.iter().filter(|t| !long(t)).chain(few).enumerate();
    all.map(|(n, t)| t.each_ref().map(|log| appended((n % 2) as u8, log)))
        .collect()
}

/// These logs with their last entries, in which they differ, and one edit more.
pub fn orders_shown() -> Made {
    let mut all = Made::default();
    for mut made in orders().into_iter().flatten() {
        made.entries_from(made.last().saturating_sub(1), 2);
        made.append(Op::Delete { id: 5 });
        all.records.extend(made.records);
    }
    all
}

fn op(rng: &mut Rng) -> Op {
    let id = match rng.below(6) {
        0 => rng.corner(),
        _ => rng.below(9) as u64,
    };
    if rng.once_in(4) {
        return Op::Delete { id };
    }
    let kind = *rng.pick(&KINDS);
    let length = 1 + rng.below(4);
    let mut vector = floats::vector(rng, kind, length);
    if rng.once_in(50) {
        vector[0] = *rng.pick(&floats::OUTSIDE);
    }
    Op::Put { id, vector }
}

/// A number near `n`, seldom any.
fn near(rng: &mut Rng, n: u64) -> u64 {
    match rng.below(12) {
        0 => rng.corner(),
        1 => n.saturating_sub(1),
        2 => n.saturating_add(1),
        _ => n,
    }
}

/// A table that the replica's own is made from: a pair lost, an epoch or an end moved.
fn table(rng: &mut Rng, made: &Made) -> Vec<(u64, u64)> {
    let replica = made.history.replica.as_ref().expect("made first");
    let ends = replica.epoch_ends();
    let mut table: Vec<(u64, u64)> = ends.iter().map(|&(e, end)| (e.0, end)).collect();
    for _ in 0..rng.below(3) {
        if table.is_empty() {
            break;
        }
        let at = rng.below(table.len());
        match rng.below(4) {
            0 => {
                table.remove(at);
            }
            1 => table[at].0 = near(rng, table[at].0),
            2 => table[at].1 = near(rng, table[at].1),
            _ => table.push((rng.below(4) as u64, rng.below(20) as u64)),
        }
    }
    table
}

/// A random history of some calls.
pub fn random(seed: u64, calls: usize) -> Made {
    let mut rng = Rng::new(seed);
    let mut m = Made::default();
    m.make(1 + rng.below(3) as u64, rng.below(2) as u8);
    for _ in 0..calls {
        let (epoch, next) = (m.epoch(), m.last() + 1);
        match rng.below(20) {
            0..5 => m.append(op(&mut rng)),
            5..8 => {
                let (epoch, offset) = (near(&mut rng, epoch), near(&mut rng, next));
                m.store(epoch, offset, op(&mut rng));
            }
            8..10 => batch(&mut rng, &mut m, epoch, next),
            10..12 => {
                let table = table(&mut rng, &m);
                let (epoch, end) = (near(&mut rng, epoch), near(&mut rng, next));
                m.adopt(epoch, end, &table);
                m.call(call::IDS, &[]);
            }
            12 => m.promote(near(&mut rng, epoch)),
            13 => m.call(call::ENDS, &[]),
            14 => m.entries_from(rng.below(next as usize + 2) as u64, rng.below(9) as u16),
            15 => m.vector(rng.below(9) as u64),
            16..18 => {
                let kind = *rng.pick(&KINDS);
                let length = 1 + rng.below(4);
                let query = floats::vector(&mut rng, kind, length);
                m.search(rng.below(9) as u32, query);
            }
            18 => m.call(call::IDS, &[]),
            _ => m.call(call::STATE, &[]),
        }
    }
    m.look();
    m
}

fn batch(rng: &mut Rng, m: &mut Made, epoch: u64, next: u64) {
    let from = near(rng, next).saturating_sub(rng.below(3) as u64);
    let count = rng.below(6) as u64;
    let mut entry = |offset| Entry {
        epoch: near(rng, epoch),
        offset,
        op: op(rng),
    };
    let entries = (from..from.saturating_add(count)).map(&mut entry).collect();
    let epoch = near(rng, epoch);
    m.copy(epoch, entries);
}
