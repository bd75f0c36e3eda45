//! Each finding of docs/DIFFERENCES.md, shown on the unchanged Rust with its smallest input. Those
//! that the front ends refuse are shown on the Rust's own functions.

use std::panic::{AssertUnwindSafe, catch_unwind};
use std::sync::Arc;

use controlplane::state::StateMachine;
use published::node::Node;
use published::node::inside::{self, Asked, Reply, Settings};
use published::shard::{ShardReplica, distance};
use rpc::{
    CollectionSpec, ControlCommand, DataNodeId, Epoch, Metric, NewEpochAck, Outcome, ReplicateAck,
    Request, ShardKey, Write, WriteOp,
};

const METRIC: Metric = Metric::Euclidean;

fn key() -> ShardKey {
    ShardKey {
        collection: "a".into(),
        shard: 0,
    }
}

/// A map, and node 1 with the lease of a second.
struct Dome {
    map: StateMachine,
    index: u64,
    nodes: Vec<Arc<Node>>,
}

impl Dome {
    /// Shard `a/0` on nodes 1 to `count`, all of them shown the map.
    fn new(count: u64) -> Self {
        Self::taking(count, 1)
    }

    /// The same, where a write is taken with so many in sync.
    fn taking(count: u64, min_in_sync: u64) -> Self {
        let make = |id| {
            inside::make(&Settings {
                id,
                incarnation: 7,
                lease: 1_000_000,
                ack_timeout: 100,
                min_in_sync,
            })
        };
        let mut dome = Dome {
            map: StateMachine::new(),
            index: 0,
            nodes: (1..=count).map(make).collect(),
        };
        for node in 1..=count {
            dome.register(node);
        }
        dome.create((1..=count).collect());
        for slot in 0..dome.nodes.len() {
            dome.show(slot);
        }
        inside::grant(&dome.nodes[0], 7, 0);
        dome
    }

    fn apply(&mut self, command: ControlCommand) -> Outcome {
        self.index += 1;
        let request = Request {
            client: 1,
            seq: self.index,
            command,
        };
        self.map.apply(self.index, &request)
    }

    fn register(&mut self, node: u64) {
        self.apply(ControlCommand::RegisterNode {
            node: DataNodeId(node),
            address: String::new(),
            incarnation: 7,
        });
    }

    fn create(&mut self, nodes: Vec<u64>) {
        self.apply(ControlCommand::CreateCollection {
            name: "a".into(),
            spec: CollectionSpec {
                dimension: 1,
                metric: METRIC,
                shards: 1,
                replication: 8,
            },
            placement: vec![nodes.into_iter().map(DataNodeId).collect()],
        });
    }

    fn add(&mut self, node: u64) -> Outcome {
        self.apply(ControlCommand::AddReplica {
            shard: key(),
            node: DataNodeId(node),
            incarnation: 7,
            epoch: Epoch(1),
        })
    }

    fn remove(&mut self, node: u64) -> Outcome {
        self.apply(ControlCommand::RemoveReplica {
            shard: key(),
            node: DataNodeId(node),
            epoch: Epoch(1),
        })
    }

    fn promote(&mut self, node: u64, epoch: u64) -> Outcome {
        self.apply(ControlCommand::PromotePrimary {
            shard: key(),
            node: DataNodeId(node),
            epoch: Epoch(epoch),
        })
    }

    /// Shows the map to the node in `slot`; how many workers start.
    fn show(&mut self, slot: usize) -> usize {
        inside::show(&self.nodes[slot], self.map.map().clone(), 0).len()
    }

    fn write(&self) -> u64 {
        self.write_at(1)
    }

    fn write_at(&self, epoch: u64) -> u64 {
        let write = Write {
            shard: key(),
            epoch: Epoch(epoch),
            op: WriteOp::Delete { id: 1 },
        };
        inside::write(&self.nodes[0], 0, write).expect("accepted")
    }

    /// Node 2 aligned at offset 0, so that its next step sends.
    fn align(&self) {
        inside::record_ack(&self.nodes[0], &key(), 1, 2, 0, true);
    }

    /// One step of node 1's worker for node 2, carried over and back; what node 2 then holds.
    fn exchange(&self, epoch: u64) -> u64 {
        let (one, two) = (&self.nodes[0], &self.nodes[1]);
        let (asked, mut worker) = inside::step(one, &key(), epoch, 2, METRIC);
        let reply = match asked {
            Asked::Align(message) => Reply::Align(inside::new_epoch(two, message)),
            Asked::Replicate(message) => Reply::Replicate(inside::replicate(two, message)),
            Asked::Copy(message) => Reply::Copy(inside::copy_shard(two, message)),
            Asked::Wait | Asked::Stop => panic!("there is something to send"),
        };
        inside::resume(&mut worker, reply);
        inside::last_offset(two, &key()).expect("held")
    }
}

fn panics<T>(call: impl FnOnce() -> T) -> bool {
    catch_unwind(AssertUnwindSafe(call)).is_err()
}

#[test]
fn a_sum_starts_at_minus_zero() {
    let nothing = distance(METRIC, &[], 0.0, &[]);
    assert_eq!(nothing.to_bits(), 0x8000_0000);
    // In the domain a vector has a component, and the sign of a zero sum never shows.
    let zero = distance(METRIC, &[1.0], 1.0, &[1.0]);
    assert_eq!(zero.to_bits(), 0);
    let angular = distance(Metric::Angular, &[0.0, 1.0], 1.0, &[-1.0, -0.0]);
    assert_eq!(angular.to_bits(), 1.0f32.to_bits());
}

#[test]
fn a_gap_of_zero_panics() {
    let dome = Dome::new(2);
    dome.write();
    dome.align();
    let (asked, mut worker) = inside::step(&dome.nodes[0], &key(), 1, 2, METRIC);
    assert!(matches!(asked, Asked::Replicate(_)));
    let gap = Reply::Replicate(ReplicateAck::Gap { next: 0 });
    assert!(panics(|| inside::resume(&mut worker, gap)));
}

#[test]
fn an_ack_of_the_largest_offset_panics_at_the_next_step() {
    let dome = Dome::new(2);
    dome.align();
    inside::record_ack(&dome.nodes[0], &key(), 1, 2, u64::MAX, false);
    let step = || inside::step(&dome.nodes[0], &key(), 1, 2, METRIC).0;
    assert!(panics(step));
}

#[test]
fn a_promotion_at_the_last_epoch_panics() {
    let mut dome = Dome::new(1);
    let map = dome.map.field_map_mut();
    map.shards.get_mut(&key()).expect("created").epoch = Epoch(u64::MAX);
    assert!(panics(|| dome.promote(1, u64::MAX)));
}

#[test]
fn a_peer_added_again_gets_no_second_worker() {
    let mut dome = Dome::new(2);
    dome.remove(2);
    assert_eq!(dome.show(0), 0);
    let (asked, _) = inside::step(&dome.nodes[0], &key(), 1, 2, METRIC);
    assert_eq!(asked, Asked::Stop);
    dome.add(2);
    assert_eq!(dome.show(0), 0);
}

fn in_ack_set(dome: &Dome, peer: u64) -> bool {
    let held = inside::held(&dome.nodes[0], &key()).expect("held");
    let rows = held.role.expect("primary").rows;
    rows.iter().any(|r| r.node == peer && r.in_ack_set)
}

#[test]
fn a_late_reply_brings_a_removed_peer_into_the_ack_set() {
    let mut dome = Dome::new(2);
    dome.remove(2);
    dome.show(0);
    assert!(!in_ack_set(&dome, 2));
    let expand = inside::record_ack(&dome.nodes[0], &key(), 1, 2, 0, false);
    assert!(expand.is_some() && in_ack_set(&dome, 2));
}

/// A reply from before a removal counts after the peer was added again with nothing.
#[test]
fn a_late_reply_brings_an_empty_replica_in_sync() {
    let mut dome = Dome::new(2);
    let offset = dome.write();
    dome.remove(2);
    dome.show(0);
    dome.show(1);
    let (acknowledged, _) = inside::wait(&dome.nodes[0], 0, &key(), 1, offset).expect("primary");
    assert!(acknowledged);
    dome.add(2);
    dome.show(0);
    dome.show(1);
    let expand = inside::record_ack(&dome.nodes[0], &key(), 1, 2, 1, false);
    assert!(expand.is_some());
    let expanded = dome.apply(ControlCommand::ExpandInSync {
        shard: key(),
        node: DataNodeId(2),
        epoch: Epoch(1),
    });
    assert_eq!(expanded, Outcome::Applied);
    assert_eq!(dome.promote(2, 1), Outcome::Applied);
    dome.show(1);
    let held = inside::held(&dome.nodes[1], &key()).expect("held");
    assert!(held.role.is_some() && held.replica.last_offset() == 0);
}

/// A lone entry of an older epoch goes as Replicate and is stored under the newer epoch. The next
/// alignment takes it for another entry and cuts it off, with all that follows.
#[test]
fn a_lone_older_entry_loses_an_acknowledged_write() {
    let mut dome = Dome::new(2);
    dome.write();
    dome.promote(1, 1);
    dome.show(0);
    assert_eq!(dome.exchange(2), 0);
    assert_eq!(dome.exchange(2), 1);
    let offset = dome.write_at(2);
    assert_eq!(dome.exchange(2), 2);
    let (acknowledged, _) = inside::wait(&dome.nodes[0], 0, &key(), 2, offset).expect("primary");
    assert!(acknowledged);
    dome.promote(1, 2);
    dome.show(0);
    assert_eq!(dome.exchange(3), 0);
    assert_eq!(dome.promote(2, 3), Outcome::Applied);
    dome.show(1);
    let held = inside::held(&dome.nodes[1], &key()).expect("held");
    assert!(held.role.is_some() && held.replica.last_offset() == 0);
}

/// The step of paper 01 is Align; the Rust, which has no address, sends nothing.
#[test]
fn a_replica_that_never_registered_is_sent_nothing() {
    let mut dome = Dome::new(1);
    dome.add(9);
    assert!(!dome.map.map().nodes.contains_key(&DataNodeId(9)));
    assert_eq!(dome.show(0), 1);
    let (asked, _) = inside::step(&dome.nodes[0], &key(), 1, 9, METRIC);
    assert!(matches!(asked, Asked::Align(_)));
    inside::forget_address(&dome.nodes[0], 9);
    let (asked, _) = inside::step(&dome.nodes[0], &key(), 1, 9, METRIC);
    assert_eq!(asked, Asked::Wait);
}

/// Dropped and created again between two maps that the node sees.
#[test]
fn a_collection_created_again_keeps_the_old_log() {
    let mut dome = Dome::new(1);
    dome.write();
    dome.promote(1, 1);
    dome.show(0);
    dome.apply(ControlCommand::DropCollection { name: "a".into() });
    dome.create(vec![1]);
    dome.show(0);
    let held = inside::held(&dome.nodes[0], &key()).expect("held");
    assert_eq!(held.replica.last_offset(), 1);
    assert_eq!(held.role.expect("primary").epoch, 2);
    let map = dome.map.map();
    assert_eq!(map.shards[&key()].epoch, Epoch(1));
}

/// A step down and the same map again: the peer whose worker still runs gets a second one.
#[test]
fn a_step_down_and_the_same_map_start_workers_twice() {
    let mut dome = Dome::new(3);
    inside::step_down(&dome.nodes[0], &key(), 1);
    assert_eq!(dome.show(0), 2);
}

/// Behind is measured against the log's end at each ack, which under steady writes moves on.
#[test]
fn a_peer_that_keeps_up_is_shrunk_under_steady_writes() {
    let dome = Dome::new(2);
    let first = dome.write();
    let wait = |now| inside::wait(&dome.nodes[0], now, &key(), 1, first).expect("primary");
    assert!(!wait(0).0);
    dome.write();
    inside::record_ack(&dome.nodes[0], &key(), 1, 2, first, false);
    let (done, shrinks) = wait(101);
    assert!(done && shrinks.len() == 1);
}

/// Nothing in the Rust bounds a component; one that is no number is stored and found.
#[test]
fn a_component_that_is_no_number_is_stored() {
    let mut replica = ShardReplica::new(Epoch(1), METRIC);
    replica.append(WriteOp::Upsert {
        id: 1,
        vector: vec![f32::NAN],
    });
    assert!(replica.search(&[0.0], 1)[0].distance.is_nan());
}

/// A node's client number is the clock at its start.
#[test]
fn two_nodes_started_together_share_a_client_number() {
    let mut dome = Dome::new(2);
    let shrink = |node| ControlCommand::ShrinkInSync {
        shard: key(),
        node: DataNodeId(node),
        epoch: Epoch(1),
    };
    let request = |command| Request {
        client: 5,
        seq: 1,
        command,
    };
    assert_eq!(dome.map.apply(9, &request(shrink(2))), Outcome::Applied);
    // Another node's first command is answered with the outcome of the first one's.
    let other = dome.map.apply(10, &request(shrink(8)));
    assert_eq!(other, Outcome::Applied);
}

fn shrink() -> ControlCommand {
    ControlCommand::ShrinkInSync {
        shard: key(),
        node: DataNodeId(2),
        epoch: Epoch(1),
    }
}

/// A write that node 2 is too slow for: the Shrink that a wait proposes.
fn shrink_proposed(dome: &Dome) -> inside::Proposal {
    assert_eq!(dome.exchange(1), 0);
    let offset = dome.write();
    let wait = |now| inside::wait(&dome.nodes[0], now, &key(), 1, offset).expect("primary");
    assert!(wait(0).1.is_empty());
    let (done, mut shrinks) = wait(101);
    assert!(!done && shrinks.len() == 1);
    shrinks.remove(0)
}

/// Caught up when it is shrunk, a peer is sent nothing more, so that no ack proposes its Expand.
#[test]
fn a_peer_that_catches_up_during_its_shrink_stays_out() {
    let mut dome = Dome::taking(2, 2);
    let proposal = shrink_proposed(&dome);
    assert_eq!(dome.exchange(1), 1);
    assert_eq!(dome.apply(shrink()), Outcome::Applied);
    inside::settle(proposal.task, true);
    let (asked, _) = inside::step(&dome.nodes[0], &key(), 1, 2, METRIC);
    assert_eq!(asked, Asked::Wait);
    let write = |epoch| Write {
        shard: key(),
        epoch: Epoch(epoch),
        op: WriteOp::Delete { id: 1 },
    };
    assert!(inside::write(&dome.nodes[0], 0, write(1)).is_err());
    // A promotion starts the worker anew, and its alignment is an ack.
    assert_eq!(dome.promote(1, 1), Outcome::Applied);
    assert_eq!(dome.show(0), 1);
    assert!(inside::write(&dome.nodes[0], 0, write(2)).is_err());
    assert_eq!(dome.exchange(2), 1);
    assert!(inside::write(&dome.nodes[0], 0, write(2)).is_ok());
}

/// An Expand that never comes about leaves a peer in the ack set that no Shrink takes out.
#[test]
fn a_lost_expand_leaves_a_peer_that_cannot_be_shrunk() {
    let mut dome = Dome::new(2);
    let proposal = shrink_proposed(&dome);
    assert_eq!(dome.apply(shrink()), Outcome::Applied);
    inside::settle(proposal.task, true);
    let expand = inside::record_ack(&dome.nodes[0], &key(), 1, 2, 1, false);
    inside::settle(expand.expect("an Expand"), false);
    assert!(in_ack_set(&dome, 2));
    assert!(inside::record_ack(&dome.nodes[0], &key(), 1, 2, 1, false).is_none());
    // Node 2 fails; its Shrink is rejected, and proposed for ever.
    let offset = dome.write();
    let node = Arc::clone(&dome.nodes[0]);
    let wait = |now| inside::wait(&node, now, &key(), 1, offset).expect("primary");
    assert!(!wait(200).0);
    for now in [301, 302, 900] {
        let (done, mut shrinks) = wait(now);
        assert!(!done && shrinks.len() == 1);
        let rejected = Outcome::Rejected("node 2 is not in sync".into());
        assert_eq!(dome.apply(shrink()), rejected);
        inside::settle(shrinks.remove(0).task, false);
    }
    // A promotion takes the ack set from the map.
    assert_eq!(dome.promote(1, 1), Outcome::Applied);
    dome.show(0);
    let offset = dome.write_at(2);
    assert!(
        inside::wait(&node, 901, &key(), 2, offset)
            .expect("primary")
            .0
    );
}

/// The alignment comes a second time, behind an entry of its epoch: the entry is cut, and the reply
/// that was given for it still counts.
#[test]
fn a_late_alignment_loses_an_acknowledged_write() {
    let mut dome = Dome::new(2);
    let offset = dome.write();
    let (asked, _) = inside::step(&dome.nodes[0], &key(), 1, 2, METRIC);
    let Asked::Align(late) = asked else {
        panic!("a new worker aligns its peer")
    };
    assert_eq!(dome.exchange(1), 0);
    assert_eq!(dome.exchange(1), 1);
    let again = inside::new_epoch(&dome.nodes[1], late);
    assert_eq!(again, NewEpochAck::Adopted { through: 0 });
    let (acknowledged, _) = inside::wait(&dome.nodes[0], 0, &key(), 1, offset).expect("primary");
    assert!(acknowledged);
    assert_eq!(dome.promote(2, 1), Outcome::Applied);
    assert_eq!(inside::last_offset(&dome.nodes[1], &key()), Some(0));
}
