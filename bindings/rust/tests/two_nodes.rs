//! A write goes from a client to two nodes and is acknowledged; what is refused changes nothing.

use catalogue::{Key, Loss, Map, Neighbor, Node, Outcome, Refusal, Sent, Step, Worker};

const LEASE: u64 = 1_000;

/// Bytes of a message, one field behind the other.
#[derive(Default)]
struct Bytes(Vec<u8>);

impl Bytes {
    fn u8(mut self, n: u8) -> Bytes {
        self.0.push(n);
        self
    }

    fn u32(mut self, n: u32) -> Bytes {
        self.0.extend(n.to_le_bytes());
        self
    }

    fn u64(mut self, n: u64) -> Bytes {
        self.0.extend(n.to_le_bytes());
        self
    }

    fn text(mut self, text: &str, room: usize) -> Bytes {
        self.0.push(text.len() as u8);
        self.0.extend(text.as_bytes());
        self.0.resize(self.0.len() + room - text.len(), 0);
        self
    }

    fn vector(mut self, vector: &[f32]) -> Bytes {
        self.0.push(vector.len() as u8);
        vector
            .iter()
            .for_each(|x| self.0.extend(x.to_bits().to_le_bytes()));
        self
    }
}

fn request(seq: u64, command: u8) -> Bytes {
    Bytes::default()
        .u8(0x01)
        .u64(seq)
        .u64(1)
        .u64(seq)
        .u8(command)
}

fn register(seq: u64, node: u64) -> Vec<u8> {
    request(seq, 0x12).u64(node).text("projector", 64).u64(1).0
}

/// One shard of the collection, of two components, on nodes 1 and 2.
fn create(seq: u64) -> Vec<u8> {
    request(seq, 0x10)
        .text("stars", 32)
        .u32(2)
        .u8(0)
        .u32(1)
        .u32(2)
        .u8(1)
        .u8(2)
        .u64(1)
        .u64(2)
        .0
}

fn write(epoch: u64, id: u64, vector: &[f32]) -> Vec<u8> {
    Bytes::default()
        .u8(0x23)
        .text("stars", 32)
        .u32(0)
        .u64(epoch)
        .u8(1)
        .u64(id)
        .vector(vector)
        .0
}

fn search(epoch: u64, k: u32, vector: &[f32]) -> Vec<u8> {
    Bytes::default()
        .u8(0x24)
        .text("stars", 32)
        .u32(0)
        .u64(epoch)
        .u32(k)
        .vector(vector)
        .0
}

/// A map with the collection, and its two nodes with a lease; the worker that node 1, the primary, is to start.
fn dome() -> (Map, Node, Node, Worker) {
    let mut map = Map::new();
    assert_eq!(map.apply(&register(1, 1)), Ok(Outcome::Applied));
    assert_eq!(map.apply(&register(2, 2)), Ok(Outcome::Applied));
    assert_eq!(map.place(1, 2), Ok(Some(vec![vec![1, 2]])));
    assert_eq!(map.apply(&create(3)), Ok(Outcome::Applied));
    let lost = |node| Loss {
        node,
        then: Ok(None),
    };
    assert_eq!(map.place_losses(b"stars"), Ok(vec![lost(1), lost(2)]));
    assert_eq!(map.place_losses(b"moons"), Ok(vec![]));
    let (mut first, mut second) = (Node::new(1, 1), Node::new(2, 1));
    let mut workers = first.show_map(&map, 2).unwrap();
    assert_eq!(second.show_map(&map, 2), Ok(vec![]));
    first.grant(1, 0, LEASE).unwrap();
    assert_eq!(workers.len(), 1);
    (map, first, second, workers.remove(0))
}

/// The worker's steps until it has nothing to send.
fn catch_up(from: &mut Node, to: &mut Node, worker: &Worker) {
    while let Step::Send(sent, message) = from.step(worker).unwrap() {
        let reply = match sent {
            Sent::Align => to.new_epoch(&message),
            Sent::Replicate => to.replicate(&message),
            Sent::Copy => to.copy(&message),
        };
        from.ack(worker, sent, &reply.unwrap()).unwrap();
    }
}

#[test]
fn a_write_is_acknowledged_when_both_have_it() {
    let (_, mut first, mut second, worker) = dome();
    let key = Key::new("stars", 0);
    assert_eq!(first.write(10, 2, &write(1, 7, &[3.0, 4.0])), Ok(1));
    assert!(!first.wait(&key, 1, 1, 10, LEASE).unwrap().done);
    catch_up(&mut first, &mut second, &worker);
    assert!(first.wait(&key, 1, 1, 11, LEASE).unwrap().done);
    let found = first.search(12, &search(1, 5, &[0.0, 0.0]), 5);
    assert_eq!(
        found,
        Ok(vec![Neighbor {
            id: 7,
            distance: 5.0
        }])
    );
}

#[test]
fn what_is_refused_counts_and_changes_nothing() {
    let (_, mut first, mut second, _) = dome();
    let before = (first.header().to_vec(), first.stores().to_vec());
    assert_eq!(first.write(10, 2, &[0x23]), Err(Refusal::Undecodable));
    assert_eq!(
        first.write(10, 2, &write(1, 7, &[f32::NAN])),
        Err(Refusal::OutsideDomain)
    );
    assert_eq!(
        first.write(10, 2, &write(9, 7, &[1.0])),
        Err(Refusal::NotPrimary(1))
    );
    assert_eq!(
        first.write(LEASE, 2, &write(1, 7, &[1.0])),
        Err(Refusal::NoLease)
    );
    assert_eq!(
        first.write(10, 3, &write(1, 7, &[1.0])),
        Err(Refusal::TooFewInSync)
    );
    assert_eq!(first.refused(), 5);
    assert_eq!(
        (first.header(), first.stores()),
        (&before.0[..], &before.1[..])
    );
    // A backup that no primary has aligned yet is at epoch 0.
    assert_eq!(
        second.search(10, &search(1, 1, &[1.0]), 1),
        Err(Refusal::NotPrimary(0))
    );
}

#[test]
fn bytes_that_are_no_state_are_refused() {
    let mut map = Map::from_bytes(&[0; 7]);
    assert_eq!(map.apply(&register(1, 1)), Err(Refusal::Malformed));
    let mut node = Node::from_bytes(&[0xff; catalogue::HEADER], &[], 0);
    assert_eq!(node.grant(1, 0, LEASE), Err(Refusal::Malformed));
    assert_eq!(node.grant(1, u64::MAX, LEASE), Err(Refusal::Undecodable));
}

/// The ids of oracle/stored/shardof, with the answers of the Rust that this engine is a port of.
#[test]
fn ids_are_placed_as_stored() {
    let stored = include_bytes!("../../../oracle/stored/shardof/all.in");
    let answers = include_str!("../../../oracle/stored/shardof/all.out");
    let (records, rest) = stored.as_chunks::<12>();
    assert!(rest.is_empty() && records.len() == answers.lines().count());
    for (record, answer) in records.iter().zip(answers.lines()) {
        let id = u64::from_le_bytes(record[..8].try_into().unwrap());
        let shards = u32::from_le_bytes(record[8..].try_into().unwrap());
        assert_eq!(catalogue::shard_of(id, shards).to_string(), answer);
    }
}

#[test]
fn the_version_is_the_packages() {
    let (major, minor, patch) = catalogue::version();
    assert_eq!(
        format!("{major}.{minor}.{patch}"),
        env!("CARGO_PKG_VERSION")
    );
}
