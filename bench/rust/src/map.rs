//! The shard map's entry points, over its byte image: maps from nearly empty to full, decoding included.

use catalogue::sys;
use controlplane::state::{self, StateMachine};
use rpc::{CollectionSpec, Metric};
use wire::{Change, Command, Key, Message, Request, Spec};

use crate::measure;
use crate::putback::PutBack;

/// How far a map is filled.
struct Filling {
    nodes: u64,
    collections: u64,
    shards: u32,
    replicas: u64,
    clients: u64,
}

struct Requests {
    all: Vec<Vec<u8>>,
}

impl Requests {
    fn put(&mut self, client: u64, command: Command) {
        let index = self.all.len() as u64 + 1;
        let (seq, message) = (index, Message::Request);
        let request = Request {
            index,
            client,
            seq,
            command,
        };
        self.all.push(wire::write(&message(request)));
    }

    fn fill(&mut self, f: &Filling) {
        for node in 1..=f.nodes {
            let address = format!("projector-{node}.dome:7000").into_bytes();
            let command = Command::Register {
                node,
                address,
                incarnation: 1,
            };
            self.put(1 + node % f.clients, command);
        }
        for n in 0..f.collections {
            let list: Vec<u64> = (0..f.replicas).map(|r| 1 + (n + r) % f.nodes).collect();
            let spec = Spec {
                dimension: 32,
                metric: 0,
                shards: f.shards,
                replication: f.replicas as u32,
            };
            let command = Command::Create {
                name: format!("catalogue-{n:02}").into_bytes(),
                spec,
                placement: vec![list; f.shards as usize],
            };
            self.put(1 + n % f.clients, command);
        }
        for client in 1..=f.clients {
            self.put(client, Command::Bench { bytes: vec![0; 16] });
        }
    }

    /// A member shrunk out and expanded in again, so many times.
    fn change(&mut self, times: usize) {
        for n in 0..times {
            let change = Change {
                key: Key {
                    name: b"catalogue-00".to_vec(),
                    shard: 0,
                },
                node: 2,
                epoch: 1,
            };
            let command = match n % 2 {
                0 => Command::Shrink(change),
                _ => Command::Expand(change),
            };
            self.put(1, command);
        }
    }
}

const FILLINGS: [(&str, Filling); 3] = [
    ("2 nodes, 1 shard, 1 client", filling(2, 1, 1, 2, 1)),
    (
        "8 nodes, 16 shards of 3, 16 clients",
        filling(8, 4, 4, 3, 16),
    ),
    (
        "32 nodes, 64 shards of 8, 64 clients",
        filling(32, 16, 4, 8, 64),
    ),
];

const fn filling(
    nodes: u64,
    collections: u64,
    shards: u32,
    replicas: u64,
    clients: u64,
) -> Filling {
    Filling {
        nodes,
        collections,
        shards,
        replicas,
        clients,
    }
}

fn image_apply(image: &mut [u8], request: &[u8]) -> u32 {
    unsafe {
        sys::catalogue_apply(
            image.as_mut_ptr(),
            image.len(),
            request.as_ptr(),
            request.len(),
        )
    }
}

/// The image and the Rust's machine after the same requests.
fn filled(f: &Filling) -> (Vec<u8>, StateMachine, Requests) {
    let mut requests = Requests { all: vec![] };
    requests.fill(f);
    let (mut image, mut machine) = (vec![0; catalogue::MAP], StateMachine::default());
    for bytes in &requests.all {
        assert_eq!(image_apply(&mut image, bytes), 0);
        let Some(Message::Request(r)) = wire::read(bytes) else {
            unreachable!("a request")
        };
        assert_eq!(
            machine.apply(r.index, &rpc_request(&r)),
            rpc::Outcome::Applied
        );
    }
    (image, machine, requests)
}

fn rpc_request(r: &Request) -> rpc::Request {
    rpc::Request {
        client: r.client,
        seq: r.seq,
        command: front::convert::command(&r.command),
    }
}

/// The engine's image is put back before each Shrink, where that changes it; the Rust goes on with Shrink and Expand in turn.
/// An older request is decoded and the map tested, and nothing is written: the test alone.
fn images_apply() {
    measure::head("apply over the map's image, one Shrink or Expand");
    for (name, f) in &FILLINGS {
        let (start, mut machine, mut requests) = filled(f);
        requests.change(2);
        let last = &requests.all[requests.all.len() - 2..];
        let (mut image, mut before) = (start.clone(), PutBack::to(&start));
        assert_eq!(image_apply(&mut image, &last[0]), 0);
        before.learn(&image);
        let read = |bytes: &[u8]| match wire::read(bytes) {
            Some(Message::Request(r)) => rpc_request(&r),
            _ => unreachable!("a request"),
        };
        let mut turns = [read(&last[0]), read(&last[1])];
        let (mut n, mut turn) = (requests.all.len() as u64, 0);
        let row = measure::row(
            name,
            1.0,
            &mut || {
                before.put_back(&mut image);
                assert_eq!(image_apply(&mut image, &last[0]), 0);
            },
            &mut || {
                let request = &mut turns[turn];
                (n, turn) = (n + 1, 1 - turn);
                request.seq = n;
                assert_eq!(machine.apply(n, request), rpc::Outcome::Applied);
            },
        );
        measure::print(&row);
        let mut later = start.clone();
        last.iter()
            .for_each(|bytes| assert_eq!(image_apply(&mut later, bytes), 0));
        let test = measure::alone(1.0, &mut || {
            assert_eq!(image_apply(&mut later, &last[0]), 1)
        });
        println!("| {name}, an older request | {test:.0} | | | |");
    }
}

fn images_place() {
    measure::head("place of 4 shards of 2, and replacement, over the map's image");
    for (name, f) in &FILLINGS {
        let (image, machine, _) = filled(f);
        let spec = CollectionSpec {
            dimension: 1,
            metric: Metric::Euclidean,
            shards: 4,
            replication: 2,
        };
        let mut lists = [0; 1024];
        let row = measure::row(
            &format!("place, {name}"),
            1.0,
            &mut || {
                let out = lists.as_mut_ptr();
                assert_eq!(
                    unsafe { sys::catalogue_place(image.as_ptr(), image.len(), 4, 2, out, 1024) },
                    0
                );
            },
            &mut || assert!(std::hint::black_box(state::place(machine.map(), &spec)).is_some()),
        );
        measure::print(&row);
        let (name_of, mut answer) = (b"catalogue-00", [0; 8]);
        let key = front::convert::key(&Key {
            name: name_of.to_vec(),
            shard: 0,
        });
        let row = measure::row(
            &format!("replacement, {name}"),
            1.0,
            &mut || {
                let (n, out) = (name_of.as_ptr(), answer.as_mut_ptr());
                unsafe {
                    sys::catalogue_replacement(
                        image.as_ptr(),
                        image.len(),
                        n,
                        name_of.len(),
                        0,
                        out,
                        8,
                    )
                };
            },
            &mut || {
                std::hint::black_box(state::replacement(machine.map(), &key));
            },
        );
        measure::print(&row);
    }
}

/// The same by trying every live node on a copy of the map.
fn tried(map: &rpc::ShardMap, spec: &CollectionSpec) -> usize {
    let now = state::place(map, spec);
    let mut count = 0;
    let mut left = map.clone();
    for (id, node) in &map.nodes {
        if node.status != rpc::NodeStatus::Alive {
            continue;
        }
        left.nodes.get_mut(id).expect("a node").status = rpc::NodeStatus::Dead;
        count += usize::from(std::hint::black_box(state::place(&left, spec)) != now);
        left.nodes.get_mut(id).expect("a node").status = rpc::NodeStatus::Alive;
    }
    count
}

fn images_losses() {
    measure::head("the losses of a collection, over the map's image");
    for (name, f) in &FILLINGS {
        let (image, machine, _) = filled(f);
        let name_of = b"catalogue-00";
        let spec = machine.map().collections["catalogue-00"].clone();
        let (mut list, mut answer) = (vec![0; 33280], [0; 8]);
        let row = measure::row(
            &format!("losses, {name}"),
            1.0,
            &mut || {
                let said = unsafe {
                    sys::catalogue_place_losses(
                        image.as_ptr(),
                        image.len(),
                        name_of.as_ptr(),
                        name_of.len(),
                        list.as_mut_ptr(),
                        list.len(),
                        answer.as_mut_ptr(),
                        answer.len(),
                    )
                };
                assert_eq!(said, 0);
            },
            &mut || {
                std::hint::black_box(tried(machine.map(), &spec));
            },
        );
        measure::print(&row);
        assert_eq!(
            u64::from_le_bytes(answer) as usize,
            tried(machine.map(), &spec)
        );
    }
}

pub fn images() {
    images_apply();
    images_place();
    images_losses();
}
