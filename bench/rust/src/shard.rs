//! One replica: nearest objects, append, adopt. The engine's calls test the lent store (24) each time; that
//! test is also timed alone.

use datanode::shard::ShardReplica;
use generate::rng::Rng;
use rpc::{Epoch, Metric, WriteOp};
use wire::{Key, Message, Op};

use crate::{measure, peers};

const ENTRIES: usize = 1024;
const LENGTH: usize = 32;

/// The engine's calls on one replica: each is lent the eight columns, with their lengths, and both
/// counts, before its own operands. `const` or `mut`: whether it may write to the columns.
macro_rules! engine {
    ($($access:tt fn $name:ident($($operand:ident: $type:ty),*) -> $answer:ty;)*) => {
        unsafe extern "C" {
            $(fn $name(
                epochs: *$access u64,
                epochs_len: usize,
                offsets: *$access u64,
                offsets_len: usize,
                ids: *$access u64,
                ids_len: usize,
                codes: *$access u8,
                codes_len: usize,
                lengths: *$access u8,
                lengths_len: usize,
                floats: *$access f32,
                floats_len: usize,
                keys: *$access u64,
                keys_len: usize,
                places: *$access u64,
                places_len: usize,
                count: usize,
                stored: usize,
                $($operand: $type),*
            ) -> $answer;)*
        }
    };
}

engine! {
    const fn engine_store_test() -> bool;
    const fn engine_search(
        angular: bool,
        query: *const f32,
        query_len: usize,
        k: u32,
        found: *mut u64,
        found_len: usize,
        distances: *mut f32,
        distances_len: usize
    ) -> u64;
    mut fn engine_append(own: u64, message: *const u8, message_len: usize) -> u64;
    mut fn engine_adopt(own: u64, message: *const u8, message_len: usize) -> u64;
}

/// A call on a store, by `as_ptr` or `as_mut_ptr`, with the call's own operands.
macro_rules! lend {
    ($call:ident, $store:expr, $pointer:ident $(, $operand:expr)*) => {
        unsafe {
            $call(
                $store.epochs.$pointer(),
                $store.epochs.len(),
                $store.offsets.$pointer(),
                $store.offsets.len(),
                $store.ids.$pointer(),
                $store.ids.len(),
                $store.codes.$pointer(),
                $store.codes.len(),
                $store.lengths.$pointer(),
                $store.lengths.len(),
                $store.floats.$pointer(),
                $store.floats.len(),
                $store.keys.$pointer(),
                $store.keys.len(),
                $store.places.$pointer(),
                $store.places.len(),
                $store.count,
                $store.stored,
                $($operand),*
            )
        }
    };
}

/// The engine's store of one replica, lent to each call.
#[derive(Clone)]
struct Store {
    epochs: Vec<u64>,
    offsets: Vec<u64>,
    ids: Vec<u64>,
    codes: Vec<u8>,
    lengths: Vec<u8>,
    floats: Vec<f32>,
    keys: Vec<u64>,
    places: Vec<u64>,
    count: usize,
    stored: usize,
}

impl Store {
    fn new() -> Store {
        Store {
            epochs: vec![0; ENTRIES],
            offsets: vec![0; ENTRIES],
            ids: vec![0; ENTRIES],
            codes: vec![0; ENTRIES],
            lengths: vec![0; ENTRIES],
            floats: vec![0.0; ENTRIES * LENGTH],
            keys: vec![0; ENTRIES],
            places: vec![0; ENTRIES],
            count: 0,
            stored: 0,
        }
    }

    fn test(&self) -> bool {
        lend!(engine_store_test, self, as_ptr)
    }

    fn search(
        &self,
        angular: bool,
        query: &[f32],
        k: u32,
        found: &mut [u64],
        distances: &mut [f32],
    ) -> u64 {
        lend!(
            engine_search,
            self,
            as_ptr,
            angular,
            query.as_ptr(),
            query.len(),
            k,
            found.as_mut_ptr(),
            found.len(),
            distances.as_mut_ptr(),
            distances.len()
        )
    }

    fn append(&mut self, own: u64, message: &[u8]) {
        let (at, n) = (message.as_ptr(), message.len());
        let rows = lend!(engine_append, self, as_mut_ptr, own, at, n);
        assert!(rows < 2000, "the engine refused a write of the benchmark");
        self.count += 1;
        self.stored = rows as usize;
    }

    fn adopt(&mut self, own: u64, message: &[u8]) {
        let (at, n) = (message.as_ptr(), message.len());
        let left = lend!(engine_adopt, self, as_mut_ptr, own, at, n);
        assert!(left > 0, "the engine refused an epoch of the benchmark");
        self.count = left as usize / 2048;
        self.stored = left as usize % 2048;
    }
}

fn vector(rng: &mut Rng) -> Vec<f32> {
    (0..LENGTH)
        .map(|_| (rng.below(2_000_001) as f32 - 1_000_000.0) / 1000.0)
        .collect()
}

/// As many writes as a log takes, of ids in no order.
fn writes(rng: &mut Rng) -> Vec<(u64, Vec<f32>)> {
    (0..ENTRIES).map(|_| (rng.next(), vector(rng))).collect()
}

fn key() -> Key {
    Key {
        name: b"stars".to_vec(),
        shard: 0,
    }
}

fn message(id: u64, vector: &[f32]) -> Vec<u8> {
    let vector = vector.iter().map(|f| f.to_bits()).collect();
    wire::write(&Message::Write {
        key: key(),
        epoch: 1,
        op: Op::Put { id, vector },
    })
}

/// The upsert of one write.
fn upsert((id, vector): &(u64, Vec<f32>)) -> WriteOp {
    WriteOp::Upsert {
        id: *id,
        vector: vector.clone(),
    }
}

fn replica(metric: Metric, writes: &[(u64, Vec<f32>)]) -> ShardReplica {
    let mut replica = ShardReplica::new(Epoch(1), metric);
    for write in writes {
        replica.append(upsert(write));
    }
    replica
}

/// Both answers, held to each other.
fn same(store: &Store, replica: &ShardReplica, angular: bool, query: &[f32], k: u32) {
    let (mut found, mut distances) = (vec![0; ENTRIES], vec![0.0; ENTRIES]);
    let n = store.search(angular, query, k, &mut found, &mut distances) as usize;
    let hits = replica.search(query, k as usize);
    assert_eq!(n, hits.len(), "how many were found");
    for (i, hit) in hits.iter().enumerate() {
        assert_eq!(
            (found[i], distances[i].to_bits()),
            (hit.id, hit.distance.to_bits())
        );
    }
}

/// Vectors of ids in no order, and queries, for the search over columns and the one over images.
pub fn samples() -> (Vec<(u64, Vec<f32>)>, Vec<Vec<f32>>) {
    let mut rng = Rng::new(11);
    let writes = writes(&mut rng);
    let queries = (0..16).map(|_| vector(&mut rng)).collect();
    (writes, queries)
}

pub fn search() {
    let (writes, queries) = samples();
    let mut store = Store::new();
    writes
        .iter()
        .for_each(|(id, v)| store.append(1, &message(*id, v)));
    let replicas = [Metric::Euclidean, Metric::Angular].map(|metric| replica(metric, &writes));
    let vectors = peers::Vectors::new(&writes);
    for by_angle in [false, true] {
        for (query, k) in queries
            .iter()
            .flat_map(|q| peers::NEIGHBOURS.map(|k| (q, k)))
        {
            let replica = &replicas[usize::from(by_angle)];
            same(&store, replica, by_angle, query, k);
            vectors.same(by_angle, query, &replica.search(query, k as usize));
        }
    }
    let (mut found, mut distances) = (vec![0; ENTRIES], vec![0.0; ENTRIES]);
    let mut engine = |by_angle: bool, q: usize, k: u32| {
        let n = store.search(by_angle, &queries[q], k, &mut found, &mut distances);
        std::hint::black_box(n);
    };
    let what = "Search of 1,024 vectors of 32 floats, the test of the lent store included";
    peers::table(
        what,
        "Rust",
        queries.len(),
        &mut engine,
        &mut |by_angle, q, k| {
            let replica = &replicas[usize::from(by_angle)];
            std::hint::black_box(replica.search(&queries[q], k as usize));
        },
    );
    peers::beside(what, &vectors, &queries, &mut engine);
    let test = measure::alone(1.0, &mut || assert!(std::hint::black_box(&store).test()));
    println!("\nThe test of the lent store alone: {test:.0} ns.");
}

pub fn append() {
    let mut rng = Rng::new(12);
    let writes = writes(&mut rng);
    let messages: Vec<Vec<u8>> = writes.iter().map(|(id, v)| message(*id, v)).collect();
    measure::head(
        "Append, one write into a log of so many entries, decoding and the test of the lent store included",
    );
    for count in [0, 256, 512, 1023] {
        let mut store = Store::new();
        messages[..count].iter().for_each(|m| store.append(1, m));
        let replica = replica(Metric::Euclidean, &writes[..count]);
        let (last, (id, v)) = (&messages[count], &writes[count]);
        let mut peer = replica.clone();
        let (start, rows) = (store.count, store.stored);
        let keys = (store.keys.clone(), store.places.clone());
        let row = measure::row(
            &format!("{count} entries"),
            1.0,
            &mut || {
                store.append(1, last);
                (store.count, store.stored) = (start, rows);
                store.keys[..rows].copy_from_slice(&keys.0[..rows]);
                store.places[..rows].copy_from_slice(&keys.1[..rows]);
            },
            &mut || {
                let Some(Message::Write {
                    op: Op::Put { id: _, vector },
                    ..
                }) = wire::read(last)
                else {
                    unreachable!()
                };
                let vector = vector.iter().map(|&b| f32::from_bits(b)).collect();
                peer.append(WriteOp::Upsert { id: *id, vector });
                std::hint::black_box(v);
                if peer.last_offset() as usize > count + 512 {
                    peer = replica.clone();
                }
            },
        );
        measure::print(&row);
    }
    println!(
        "\nThe Rust's log grows by up to 512 entries before it is put back; putting back is a part of both times."
    );
}

/// The Rust's side of an adoption: the message read, then the log aligned, at an epoch that rises from one to the next.
fn adopt_peer(peer: &mut ShardReplica, message: &[u8], epoch: u64) -> u64 {
    let Some(Message::NewEpoch {
        end_offset, epochs, ..
    }) = wire::read(message)
    else {
        unreachable!()
    };
    let table: Vec<(Epoch, u64)> = epochs.iter().map(|(e, end)| (Epoch(*e), *end)).collect();
    peer.adopt(Epoch(epoch), end_offset, &table).unwrap()
}

/// A log of `kept` entries and one more, which a NewEpoch message of a higher epoch cuts: the table of the
/// others is made anew. Epochs rise with each entry, or all are 1.
fn adopt_one(name: &str, writes: &[(u64, Vec<f32>)], kept: usize, rising: bool) {
    let epoch_of = |i: usize| if rising { i as u64 + 1 } else { 1 };
    let own = epoch_of(kept) + 1;
    let mut store = Store::new();
    let mut peer = ShardReplica::new(Epoch(1), Metric::Euclidean);
    for (i, write) in writes[..kept].iter().enumerate() {
        store.append(epoch_of(i), &message(write.0, &write.1));
        peer.promote(Epoch(epoch_of(i)));
        peer.append(upsert(write));
    }
    peer.promote(Epoch(own));
    let epochs = peer.epoch_ends().iter().map(|(e, o)| (e.0, *o)).collect();
    let news = wire::write(&Message::NewEpoch {
        key: key(),
        epoch: own + 1,
        end_offset: kept as u64,
        epochs,
        metric: 0,
    });
    let last = &writes[kept];
    store.append(own, &message(last.0, &last.1));
    let (before, rows) = (store.clone(), store.stored);
    let mut epoch = own;
    let row = measure::row(
        name,
        1.0,
        &mut || {
            store.adopt(own, &news);
            std::hint::black_box(store.count);
            (store.count, store.stored) = (before.count, rows);
            store.keys[..rows].copy_from_slice(&before.keys[..rows]);
            store.places[..rows].copy_from_slice(&before.places[..rows]);
        },
        &mut || {
            peer.append(upsert(last));
            epoch += 1;
            std::hint::black_box(adopt_peer(&mut peer, &news, epoch));
        },
    );
    store.adopt(own, &news);
    assert_eq!(store.count as u64, peer.last_offset(), "entries kept");
    same(&store, &peer, false, &last.1, ENTRIES as u32);
    measure::print(&row);
}

pub fn adopt() {
    let mut rng = Rng::new(13);
    let writes = writes(&mut rng);
    measure::head(
        "Adopt of a log with one entry more than so many: the last is cut, the table made anew; decoding and the test of the lent store included",
    );
    for kept in [16, 256, 512, 1023] {
        adopt_one(&format!("{kept} entries"), &writes, kept, false);
    }
    adopt_one("1,023 entries of as many epochs", &writes, 1023, true);
    println!(
        "\nPutting back is a part of both times: the two columns of the table for the engine, one append for the Rust."
    );
}
