//! The data node: the engine's C entry points over byte images beside the unchanged Rust's transitions. Every call of
//! the engine reads the images and tests the lent state (24); a call that is refused right after that test is timed
//! too. Between calls the engine's header is put back where a call changes it, number by number, since what lies past a
//! log's end is free; the Rust's log just grows, which costs it nothing.

use std::sync::Arc;

use catalogue::sys;
use datanode::node::Node as Rust;
use datanode::node::inside::{self, Asked, Settings};
use front::convert;
use rpc::{
    CopyShard, CopyShardAck, Epoch, LogEntry, Metric, NewEpoch, NewEpochAck, Replicate,
    ReplicateAck, SearchQuery, SearchResult, ShardMap, Write,
};
use wire::{Command, Entry, Key, Message, Op, Request, Spec};

use crate::putback::PutBack;
use crate::{measure, peers, shard};

const LEASE: u64 = 1 << 40;
const LENGTH: usize = 32;
const EPOCH: u64 = 1;
const BATCH: u64 = 256;

/// Codes of replies.
const STORED: u8 = 0x30;
const ADOPTED: u8 = 0x33;

/// How many entries the log has, in each table.
const LOGS: [u64; 4] = [0, 64, 512, 767];

fn key() -> Key {
    Key {
        name: b"stars".to_vec(),
        shard: 0,
    }
}

fn put(id: u64) -> Op {
    Op::Put {
        id,
        vector: (0..LENGTH)
            .map(|i| (i as f32 + id as f32).to_bits())
            .collect(),
    }
}

fn entry(offset: u64) -> Entry {
    Entry {
        epoch: EPOCH,
        offset,
        op: put(offset),
    }
}

/// Two nodes, and a collection of one shard on both: node 1 is its primary.
fn commands(metric: u8) -> Vec<Message> {
    let register = |node| Command::Register {
        node,
        address: b"projector".to_vec(),
        incarnation: 1,
    };
    let spec = Spec {
        dimension: LENGTH as u32,
        metric,
        shards: 1,
        replication: 2,
    };
    let create = Command::Create {
        name: b"stars".to_vec(),
        spec,
        placement: vec![vec![1, 2]],
    };
    let commands = [register(1), register(2), create];
    (1..)
        .zip(commands)
        .map(|(n, command)| {
            Message::Request(Request {
                index: n,
                client: 1,
                seq: n,
                command,
            })
        })
        .collect()
}

fn write_of(id: u64) -> Message {
    Message::Write {
        key: key(),
        epoch: EPOCH,
        op: put(id),
    }
}

// ----- The engine -------------------------------------------------------------------------

/// A node's images, the header as it is before each call, and room for every output.
struct Engine {
    map: Vec<u8>,
    before: PutBack,
    header: Vec<u8>,
    stores: Vec<u8>,
    refused: [u8; 4],
    answer: [u8; 8],
    out: Vec<u8>,
}

/// A slice as a call takes it.
macro_rules! lent {
    ($slice:expr) => {
        ($slice.as_ptr(), $slice.len())
    };
}

impl Engine {
    fn new(id: u64, metric: u8) -> Engine {
        let mut map = vec![0; catalogue::MAP];
        for message in commands(metric) {
            let request = wire::write(&message);
            let (bytes, len) = lent!(request);
            assert_eq!(
                unsafe { sys::catalogue_apply(map.as_mut_ptr(), map.len(), bytes, len) },
                0
            );
        }
        let mut header = vec![0; catalogue::HEADER];
        assert_eq!(
            unsafe { sys::catalogue_fresh_node(header.as_mut_ptr(), header.len(), id, 1) },
            0
        );
        let stores = vec![0; catalogue::STORES];
        let out = vec![0; 39472];
        let mut engine = Engine {
            map,
            before: PutBack::to(&header),
            header,
            stores,
            refused: [0; 4],
            answer: [0; 8],
            out,
        };
        assert_eq!(engine.show(), 0);
        assert_eq!(
            unsafe {
                sys::catalogue_grant(engine.header.as_mut_ptr(), engine.header.len(), 1, 0, LEASE)
            },
            0
        );
        engine
    }

    /// A node whose log has so many entries: the primary by writes, a backup, once aligned, by Replicate.
    fn with_log(id: u64, entries: u64) -> Engine {
        let mut engine = Engine::new(id, 0);
        if id == 2 {
            assert_eq!(
                engine.arrive(sys::catalogue_new_epoch, &wire::write(&aligning())),
                0
            );
            engine.replied(ADOPTED, 0);
        }
        for n in 1..=entries {
            let said = match id {
                1 => engine.write(&wire::write(&write_of(n))),
                _ => engine.replicate(&wire::write(&replicate_of(n))),
            };
            assert_eq!(said, 0);
            if id == 2 {
                engine.replied(STORED, n);
            }
        }
        engine.stay();
        engine
    }

    /// The reply that the last call left: what it is, and its number.
    fn replied(&self, code: u8, number: u64) {
        assert_eq!(
            (self.out[0], &self.out[1..9]),
            (code, &number.to_le_bytes()[..])
        );
    }

    /// The header as it is now is the one that is put back.
    fn stay(&mut self) {
        self.before = PutBack::to(&self.header);
    }

    /// A first call, whose changes are those of all that follow.
    fn first(&mut self, call: impl Fn(&mut Engine)) {
        call(self);
        self.before.learn(&self.header);
    }

    fn put_back(&mut self) {
        self.before.put_back(&mut self.header);
    }

    fn show(&mut self) -> u32 {
        unsafe {
            sys::catalogue_show_map(
                self.header.as_mut_ptr(),
                self.header.len(),
                self.map.as_ptr(),
                self.map.len(),
                2,
                self.out.as_mut_ptr(),
                self.out.len(),
                self.answer.as_mut_ptr(),
                self.answer.len(),
            )
        }
    }

    fn write(&mut self, message: &[u8]) -> u32 {
        unsafe {
            sys::catalogue_write(
                self.header.as_mut_ptr(),
                self.header.len(),
                self.stores.as_mut_ptr(),
                self.stores.len(),
                self.refused.as_mut_ptr(),
                self.refused.len(),
                1,
                1,
                message.as_ptr(),
                message.len(),
                self.answer.as_mut_ptr(),
                self.answer.len(),
            )
        }
    }

    fn replicate(&mut self, message: &[u8]) -> u32 {
        self.arrive(sys::catalogue_replicate, message)
    }

    fn copy(&mut self, message: &[u8]) -> u32 {
        self.arrive(sys::catalogue_copy, message)
    }

    fn arrive(&mut self, call: Arrival, message: &[u8]) -> u32 {
        unsafe {
            call(
                self.header.as_mut_ptr(),
                self.header.len(),
                self.stores.as_mut_ptr(),
                self.stores.len(),
                message.as_ptr(),
                message.len(),
                self.out.as_mut_ptr(),
                self.out.len(),
            )
        }
    }

    fn wait(&mut self, offset: u64) -> u32 {
        unsafe {
            sys::catalogue_wait(
                self.header.as_mut_ptr(),
                self.header.len(),
                b"stars".as_ptr(),
                5,
                0,
                EPOCH,
                offset,
                1,
                LEASE,
                self.out.as_mut_ptr(),
                self.out.len(),
                self.answer.as_mut_ptr(),
                self.answer.len(),
            )
        }
    }

    fn step(&mut self) -> u32 {
        unsafe {
            sys::catalogue_step(
                self.header.as_ptr(),
                self.header.len(),
                self.stores.as_ptr(),
                self.stores.len(),
                b"stars".as_ptr(),
                5,
                0,
                EPOCH,
                2,
                0,
                self.out.as_mut_ptr(),
                self.out.len(),
                self.answer.as_mut_ptr(),
                self.answer.len(),
            )
        }
    }

    /// The peer's reply to a step: 2 align, 3 replicate.
    fn acked(&mut self, step: u8, reply: &Message) -> u32 {
        let reply = wire::write(reply);
        let (bytes, len) = lent!(reply);
        unsafe {
            sys::catalogue_ack(
                self.header.as_mut_ptr(),
                self.header.len(),
                b"stars".as_ptr(),
                5,
                0,
                EPOCH,
                2,
                step,
                bytes,
                len,
            )
        }
    }

    fn outcome(&mut self) -> u32 {
        unsafe {
            sys::catalogue_outcome(
                self.header.as_mut_ptr(),
                self.header.len(),
                b"stars".as_ptr(),
                5,
                0,
                EPOCH,
                2,
                0x17,
                0,
            )
        }
    }

    fn search(&mut self, message: &[u8]) -> u32 {
        unsafe {
            sys::catalogue_search(
                self.header.as_ptr(),
                self.header.len(),
                self.stores.as_ptr(),
                self.stores.len(),
                self.refused.as_mut_ptr(),
                self.refused.len(),
                1,
                message.as_ptr(),
                message.len(),
                self.out.as_mut_ptr(),
                self.out.len(),
                self.answer.as_mut_ptr(),
                self.answer.len(),
            )
        }
    }
}

type Arrival =
    unsafe extern "C" fn(*mut u8, usize, *mut u8, usize, *const u8, usize, *mut u8, usize) -> u32;

// ----- The Rust ---------------------------------------------------------------------------

fn rust_map(metric: u8) -> ShardMap {
    let mut map = front::map::Map::default();
    for message in commands(metric) {
        let Message::Request(request) = message else {
            unreachable!("commands are requests")
        };
        map.apply(&request);
    }
    map.machine.map().clone()
}

fn rust_node(id: u64, map: &ShardMap) -> Arc<Rust> {
    let settings = Settings {
        id,
        incarnation: 1,
        lease: LEASE,
        ack_timeout: LEASE,
        min_in_sync: 1,
    };
    let node = inside::make(&settings);
    inside::show(&node, map.clone(), 2);
    inside::grant(&node, 1, 0);
    node
}

fn rust_write(node: &Arc<Rust>, write: &Write) {
    inside::write(node, 1, write.clone()).expect("it is accepted");
}

fn rust_with_log(id: u64, entries: u64, map: &ShardMap) -> Arc<Rust> {
    let node = rust_node(id, map);
    if id == 2 {
        rust_align(&node);
    }
    for n in 1..=entries {
        match id {
            1 => rust_write(
                &node,
                &Write {
                    shard: convert::key(&key()),
                    epoch: Epoch(EPOCH),
                    op: convert::op(&put(n)),
                },
            ),
            _ => rust_stored(&node, rust_replicate(n)),
        }
    }
    node
}

fn rust_replicate(offset: u64) -> Replicate {
    Replicate {
        shard: convert::key(&key()),
        epoch: Epoch(EPOCH),
        offset,
        op: convert::op(&put(offset)),
    }
}

/// What a primary sends first: an empty log, at its epoch.
fn aligning() -> Message {
    Message::NewEpoch {
        key: key(),
        epoch: EPOCH,
        end_offset: 0,
        epochs: vec![],
        metric: 0,
    }
}

fn rust_align(node: &Arc<Rust>) {
    let announced = NewEpoch {
        shard: convert::key(&key()),
        epoch: Epoch(EPOCH),
        end_offset: 0,
        epochs: vec![],
        metric: Metric::Euclidean,
    };
    assert_eq!(
        inside::new_epoch(node, announced),
        NewEpochAck::Adopted { through: 0 }
    );
}

fn rust_stored(node: &Arc<Rust>, message: Replicate) {
    let through = message.offset;
    assert_eq!(
        inside::replicate(node, message),
        ReplicateAck::Stored { through }
    );
}

fn replicate_of(offset: u64) -> Message {
    Message::Replicate {
        key: key(),
        epoch: EPOCH,
        offset,
        op: put(offset),
    }
}

// ----- The tables -------------------------------------------------------------------------

fn writes(map: &ShardMap) {
    measure::head("Write of a new vector of 32 components");
    for n in LOGS {
        let mut engine = Engine::with_log(1, n);
        let message = wire::write(&write_of(n + 1));
        let rust = rust_with_log(1, n, map);
        let write = Write {
            shard: convert::key(&key()),
            epoch: Epoch(EPOCH),
            op: convert::op(&put(n + 1)),
        };
        engine.first(|e| assert_eq!(e.write(&message), 0));
        let row = measure::row(
            &format!("{n} entries"),
            1.0,
            &mut || {
                engine.put_back();
                assert_eq!(engine.write(&message), 0);
            },
            &mut || rust_write(&rust, &write),
        );
        measure::print(&row);
    }
}

fn replicates(map: &ShardMap) {
    measure::head("Replicate of a new vector of 32 components");
    for n in LOGS {
        let mut engine = Engine::with_log(2, n);
        let message = wire::write(&replicate_of(n + 1));
        let rust = rust_with_log(2, n, map);
        let mut next = rust_replicate(n);
        engine.first(|e| assert_eq!(e.replicate(&message), 0));
        let row = measure::row(
            &format!("{n} entries"),
            1.0,
            &mut || {
                engine.put_back();
                assert_eq!(engine.replicate(&message), 0);
            },
            &mut || {
                next.offset += 1;
                rust_stored(&rust, next.clone());
            },
        );
        engine.replied(STORED, n + 1);
        measure::print(&row);
    }
}

fn copies(map: &ShardMap) {
    measure::head("CopyShard of 256 new vectors of 32 components");
    for n in LOGS {
        let mut engine = Engine::with_log(2, n);
        let entries: Vec<Entry> = (n + 1..=n + BATCH).map(entry).collect();
        let message = wire::write(&Message::CopyShard {
            key: key(),
            epoch: EPOCH,
            entries: entries.clone(),
        });
        let rust = rust_with_log(2, n, map);
        let mut batch: Vec<LogEntry> = entries.iter().map(convert::entry).collect();
        engine.first(|e| assert_eq!(e.copy(&message), 0));
        let row = measure::row(
            &format!("{n} entries"),
            1.0,
            &mut || {
                engine.put_back();
                assert_eq!(engine.copy(&message), 0);
            },
            &mut || {
                let entries = batch.clone();
                let message = CopyShard {
                    shard: convert::key(&key()),
                    epoch: Epoch(EPOCH),
                    entries,
                };
                let through = batch[batch.len() - 1].offset;
                assert_eq!(
                    inside::copy_shard(&rust, message),
                    CopyShardAck::Stored { through }
                );
                batch.iter_mut().for_each(|e| e.offset += BATCH);
            },
        );
        engine.replied(STORED, n + BATCH);
        measure::print(&row);
    }
}

fn waits(map: &ShardMap) {
    measure::head("wait for an entry that one peer lacks");
    for n in [1, 1024] {
        let mut engine = Engine::with_log(1, n);
        let rust = rust_with_log(1, n, map);
        let shard = convert::key(&key());
        engine.first(|e| assert_eq!(e.wait(n), 1));
        let row = measure::row(
            &format!("{n} entries"),
            1.0,
            &mut || {
                engine.put_back();
                assert_eq!(engine.wait(n), 1);
            },
            &mut || {
                let (done, _) = inside::wait(&rust, 1, &shard, EPOCH, n).expect("it is primary");
                assert!(!done);
            },
        );
        measure::print(&row);
    }
}

/// The engine's number for what the Rust's worker asks.
fn code_of(asked: &Asked) -> u32 {
    match asked {
        Asked::Wait => 0,
        Asked::Stop => 1,
        Asked::Align(_) => 2,
        Asked::Replicate(_) => 3,
        Asked::Copy(_) => 4,
    }
}

fn steps(map: &ShardMap) {
    measure::head(
        "a worker's step: the request is written (the Rust's is encoded, and read again by the harness)",
    );
    for n in [0, 1, 256, 1024] {
        let mut engine = Engine::with_log(1, n);
        let rust = rust_with_log(1, n, map);
        let shard = convert::key(&key());
        let (align, sends) = (format!("align, {n} entries"), format!("send, {n} entries"));
        let row = measure::row(
            &align,
            1.0,
            &mut || assert_eq!(engine.step(), 2),
            &mut || {
                let _ =
                    std::hint::black_box(inside::step(&rust, &shard, EPOCH, 2, Metric::Euclidean));
            },
        );
        measure::print(&row);
        assert_eq!(engine.acked(2, &Message::Adopted(0)), 0);
        inside::record_ack(&rust, &shard, EPOCH, 2, 0, true);
        let (step, _) = inside::step(&rust, &shard, EPOCH, 2, Metric::Euclidean);
        assert_eq!(engine.step(), code_of(&step));
        let row = measure::row(
            &sends,
            1.0,
            &mut || {
                engine.step();
            },
            &mut || {
                let _ =
                    std::hint::black_box(inside::step(&rust, &shard, EPOCH, 2, Metric::Euclidean));
            },
        );
        measure::print(&row);
    }
}

fn shows(map: &ShardMap) {
    measure::head("the same map shown again");
    for n in [0, 1024] {
        let mut engine = Engine::with_log(1, n);
        let rust = rust_with_log(1, n, map);
        engine.first(|e| assert_eq!(e.show(), 0));
        let row = measure::row(
            &format!("{n} entries"),
            1.0,
            &mut || {
                engine.put_back();
                assert_eq!(engine.show(), 0);
            },
            &mut || {
                inside::show(&rust, map.clone(), 2);
            },
        );
        measure::print(&row);
    }
}

/// The primary of a shard under a metric, with these vectors in its log.
fn filled(metric: u8, writes: &[(u64, Vec<f32>)]) -> (Engine, Arc<Rust>) {
    let mut engine = Engine::new(1, metric);
    let rust = rust_node(1, &rust_map(metric));
    for (id, vector) in writes {
        let op = Op::Put {
            id: *id,
            vector: vector.iter().map(|x| x.to_bits()).collect(),
        };
        let write = Write {
            shard: convert::key(&key()),
            epoch: Epoch(EPOCH),
            op: convert::op(&op),
        };
        let (key, epoch) = (key(), EPOCH);
        let message = wire::write(&Message::Write { key, epoch, op });
        assert_eq!(engine.write(&message), 0);
        rust_write(&rust, &write);
    }
    (engine, rust)
}

fn query_of(vector: &[f32], k: u32) -> SearchQuery {
    SearchQuery {
        shard: convert::key(&key()),
        epoch: Epoch(EPOCH),
        vector: vector.to_vec(),
        k,
    }
}

fn search_of(vector: &[f32], k: u32) -> Vec<u8> {
    wire::write(&Message::Search {
        key: key(),
        epoch: EPOCH,
        k,
        vector: vector.iter().map(|x| x.to_bits()).collect(),
    })
}

/// The neighbours that the engine's last search left are those that the Rust found.
fn same_hits(engine: &Engine, rust: &Arc<Rust>, query: &SearchQuery) {
    let SearchResult::Found(found) = inside::search(rust, 1, query) else {
        panic!("it is primary")
    };
    assert_eq!(engine.answer, (found.len() as u64).to_le_bytes());
    for (hit, bytes) in found.iter().zip(engine.out.chunks(12)) {
        assert_eq!(bytes[..8], hit.id.to_le_bytes());
        assert_eq!(bytes[8..], hit.distance.to_bits().to_le_bytes());
    }
}

fn searches() {
    let (writes, queries) = shard::samples();
    let mut nodes = [filled(0, &writes), filled(1, &writes)];
    for (engine, rust) in &mut nodes {
        for (query, k) in queries
            .iter()
            .flat_map(|q| peers::NEIGHBOURS.map(|k| (q, k)))
        {
            assert_eq!(engine.search(&search_of(query, k)), 0);
            same_hits(engine, rust, &query_of(query, k));
        }
    }
    let [(plain, plain_rust), (angular, angular_rust)] = nodes;
    let (mut engines, rusts) = ([plain, angular], [plain_rust, angular_rust]);
    let place = |k| {
        peers::NEIGHBOURS
            .iter()
            .position(|&n| n == k)
            .expect("it is asked")
    };
    let of = |q: &Vec<f32>| peers::NEIGHBOURS.map(|k| (search_of(q, k), query_of(q, k)));
    let asked: Vec<_> = queries.iter().map(of).collect();
    let mut engine = |by_angle: bool, q: usize, k: u32| {
        let message = &asked[q][place(k)].0;
        assert_eq!(engines[usize::from(by_angle)].search(message), 0);
    };
    let what = "Search over the images, 1,024 vectors of 32 floats";
    peers::table(
        what,
        "Rust",
        queries.len(),
        &mut engine,
        &mut |by_angle, q, k| {
            let query = &asked[q][place(k)].1;
            std::hint::black_box(inside::search(&rusts[usize::from(by_angle)], 1, query));
        },
    );
    peers::beside(what, &peers::Vectors::new(&writes), &queries, &mut engine);
}

/// The same epoch table again, at a higher epoch each time: nothing is cut.
fn new_epochs(map: &ShardMap) {
    measure::head("NewEpoch that cuts nothing");
    for n in LOGS {
        let mut engine = Engine::with_log(2, n);
        let epochs = vec![(EPOCH, n)];
        let message = wire::write(&Message::NewEpoch {
            key: key(),
            epoch: EPOCH + 1,
            end_offset: n,
            epochs,
            metric: 0,
        });
        let rust = rust_with_log(2, n, map);
        let mut announced = NewEpoch {
            shard: convert::key(&key()),
            epoch: Epoch(EPOCH),
            end_offset: n,
            epochs: vec![(Epoch(EPOCH), n)],
            metric: Metric::Euclidean,
        };
        engine.first(|e| assert_eq!(e.arrive(sys::catalogue_new_epoch, &message), 0));
        let row = measure::row(
            &format!("{n} entries"),
            1.0,
            &mut || {
                engine.put_back();
                assert_eq!(engine.arrive(sys::catalogue_new_epoch, &message), 0);
            },
            &mut || {
                announced.epoch.0 += 1;
                assert_eq!(
                    inside::new_epoch(&rust, announced.clone()),
                    NewEpochAck::Adopted { through: n }
                );
            },
        );
        engine.replied(ADOPTED, n);
        measure::print(&row);
    }
}

fn headers(map: &ShardMap) {
    measure::head(
        "calls on a header alone (the Rust's grant is a heartbeat that the harness drives)",
    );
    let mut engine = Engine::with_log(1, 64);
    let rust = rust_with_log(1, 64, map);
    let shard = convert::key(&key());
    let row = measure::row(
        "grant",
        1.0,
        &mut || {
            assert_eq!(
                unsafe {
                    sys::catalogue_grant(
                        engine.header.as_mut_ptr(),
                        engine.header.len(),
                        1,
                        0,
                        LEASE,
                    )
                },
                0
            )
        },
        &mut || inside::grant(&rust, 1, 0),
    );
    measure::print(&row);
    assert_eq!(engine.acked(2, &Message::Adopted(0)), 0);
    inside::record_ack(&rust, &shard, EPOCH, 2, 0, true);
    engine.stay();
    engine.first(|e| assert_eq!(e.acked(3, &Message::Stored(1)), 0));
    let row = measure::row(
        "ack of one entry (the Rust's is the same one again)",
        1.0,
        &mut || {
            engine.put_back();
            assert_eq!(engine.acked(3, &Message::Stored(1)), 0);
        },
        &mut || {
            std::hint::black_box(inside::record_ack(&rust, &shard, EPOCH, 2, 1, false));
        },
    );
    measure::print(&row);
    engine.put_back();
    engine.first(|e| assert_eq!(e.outcome(), 0));
    let time = measure::alone(1.0, &mut || {
        engine.put_back();
        assert_eq!(engine.outcome(), 0);
    });
    println!("| outcome of a proposal | {time:.0} | | | |");
}

/// A Write under another epoch is refused with 18 as soon as the lent state is tested: images read, nothing written.
fn tests() {
    println!("\nreading the images and their test alone (a Write refused with 18), ns\n");
    for n in LOGS {
        let mut engine = Engine::with_log(1, n);
        let message = wire::write(&Message::Write {
            key: key(),
            epoch: EPOCH + 1,
            op: put(n + 1),
        });
        let time = measure::alone(1.0, &mut || assert_eq!(engine.write(&message), 18));
        println!("- {n} entries: {time:.0}");
    }
}

pub fn node() {
    let map = rust_map(0);
    writes(&map);
    replicates(&map);
    copies(&map);
    new_epochs(&map);
    searches();
    waits(&map);
    steps(&map);
    shows(&map);
    headers(&map);
    tests();
}
