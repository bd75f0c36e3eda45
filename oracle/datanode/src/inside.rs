// A child module of the published node.rs, which is how it sees that file's private items. It
// drives each transition as it stands and shows the state; rules that paper 01 adds (limits,
// refusals 21 to 26) are left to the crate `front`.

use super::*;

use std::panic::{AssertUnwindSafe, catch_unwind, resume_unwind};
use std::pin::Pin;
use std::task::Poll;

use rpc::proto::{HeartbeatReply, ProposeReply};
use tokio::Task;

// ----- A node, its state copied and shown -------------------------------------------------

/// What a node is made with; times in microseconds.
pub struct Settings {
    pub id: u64,
    pub incarnation: u64,
    pub lease: u64,
    pub ack_timeout: u64,
    pub min_in_sync: u64,
}

pub fn make(settings: &Settings) -> Arc<Node> {
    std::time::set_wall(settings.incarnation);
    Node::new(NodeOptions {
        id: DataNodeId(settings.id),
        address: String::new(),
        control: vec![(1, "control".into())],
        heartbeat: Duration::ZERO,
        lease: Duration::from_micros(settings.lease),
        ack_timeout: Duration::from_micros(settings.ack_timeout),
        min_in_sync: settings.min_in_sync as usize,
        record: false,
    })
    .expect("one control server is named")
}

/// A copy of a node's whole state.
pub struct Saved(State);

pub fn save(node: &Node) -> Saved {
    let state = node.lock();
    Saved(State {
        incarnation: state.incarnation,
        map: state.map.clone(),
        lease_expiry: state.lease_expiry,
        shards: state
            .shards
            .iter()
            .map(|(key, local)| (key.clone(), copy(local)))
            .collect(),
        serves: state.serves.clone(),
    })
}

pub fn restore(node: &Node, saved: Saved) {
    *node.lock() = saved.0;
}

fn copy(local: &Local) -> Local {
    Local {
        replica: local.replica.clone(),
        primary: local.primary.as_ref().map(|p| Primary {
            epoch: p.epoch,
            end_offset: p.end_offset,
            epochs: p.epochs.clone(),
            ack_set: p.ack_set.clone(),
            acked: p.acked.clone(),
            aligned: p.aligned.clone(),
            behind_since: p.behind_since.clone(),
            proposing: p.proposing.clone(),
            workers: p.workers.clone(),
        }),
    }
}

/// A worker's row.
pub struct Row {
    pub node: u64,
    pub acked: u64,
    pub aligned: bool,
    pub behind: Option<u128>,
    pub proposing: bool,
    pub in_ack_set: bool,
}

/// The primary role of a held shard.
pub struct Role {
    pub epoch: u64,
    pub end_offset: u64,
    pub own: bool,
    pub rows: Vec<Row>,
}

/// A held shard.
pub struct Held {
    pub replica: ShardReplica,
    pub role: Option<Role>,
}

/// What a node knows of itself.
pub struct Header {
    pub id: u64,
    pub incarnation: u64,
    pub version: u64,
    pub expiry: Option<u128>,
    pub held: usize,
    /// The most workers that any of its primaries has.
    pub workers: usize,
}

pub fn header(node: &Node) -> Header {
    let state = node.lock();
    let primaries = state.shards.values().filter_map(|l| l.primary.as_ref());
    Header {
        id: node.options.id.0,
        incarnation: state.incarnation,
        version: state.map.version,
        expiry: state.lease_expiry.map(Instant::micros),
        held: state.shards.len(),
        workers: primaries.map(|p| p.workers.len()).max().unwrap_or(0),
    }
}

pub fn held(node: &Node, key: &ShardKey) -> Option<Held> {
    let state = node.lock();
    let local = state.shards.get(key)?;
    Some(Held {
        replica: local.replica.clone(),
        role: local.primary.as_ref().map(|p| role(node.options.id, p)),
    })
}

fn role(me: DataNodeId, primary: &Primary) -> Role {
    let known = |n: &DataNodeId| *n == me || primary.workers.contains(n);
    assert!(
        primary.ack_set.iter().all(known),
        "a member of the ack set has a worker"
    );
    let row = |node: &DataNodeId| Row {
        node: node.0,
        acked: primary.acked.get(node).copied().unwrap_or(0),
        aligned: primary.aligned.contains(node),
        behind: primary.behind_since.get(node).map(|t| t.micros()),
        proposing: primary.proposing.contains(node),
        in_ack_set: primary.ack_set.contains(node),
    };
    Role {
        epoch: primary.epoch.0,
        end_offset: primary.end_offset,
        own: primary.ack_set.contains(&me),
        rows: primary.workers.iter().map(row).collect(),
    }
}

/// The last offset of a held shard.
pub fn last_offset(node: &Node, key: &ShardKey) -> Option<u64> {
    let state = node.lock();
    state.shards.get(key).map(|l| l.replica.last_offset())
}

/// Whether the node is the shard's primary at `epoch`, and if so whether `peer` has a worker.
pub fn worker_at(node: &Node, key: &ShardKey, epoch: u64, peer: u64) -> Option<bool> {
    let state = node.lock();
    let primary = state.shards.get(key)?.primary.as_ref()?;
    (primary.epoch == Epoch(epoch)).then(|| primary.workers.contains(&DataNodeId(peer)))
}

// ----- Maps and leases --------------------------------------------------------------------

/// A worker that the node starts.
pub struct Started {
    pub key: ShardKey,
    pub peer: u64,
    pub epoch: u64,
    pub metric: Metric,
}

/// Shows a map. Addresses are the host's matter: each replica gets its number as address, also
/// where the map has no such node, so that every worker finds a client and tells whom it serves.
pub fn show(node: &Arc<Node>, mut map: ShardMap, fresh: u64) -> Vec<Started> {
    for id in map
        .shards
        .values()
        .flat_map(|s| &s.replicas)
        .map(|r| r.node)
    {
        let info = map.nodes.entry(id).or_insert(rpc::DataNodeInfo {
            address: String::new(),
            incarnation: 0,
            status: NodeStatus::Alive,
        });
        info.address = id.0.to_string();
    }
    std::time::set_wall(fresh);
    node.on_map(map);
    tokio::spawned().iter_mut().map(started).collect()
}

/// A new worker tells its operands by its first request, an alignment.
fn started(task: &mut Task) -> Started {
    let (uri, asked) = poll(task.as_mut());
    let Asked::Align(message) = asked else {
        unreachable!("a new worker aligns its peer")
    };
    let peer = uri.strip_prefix("http://").expect("the scheme");
    Started {
        key: message.shard,
        peer: peer.parse().expect("an address that `show` gave"),
        epoch: message.epoch.0,
        metric: message.metric,
    }
}

/// A heartbeat sent at `sent` under `incarnation`, and its grant.
pub fn grant(node: &Arc<Node>, incarnation: u64, sent: u64) {
    std::time::set_now(sent);
    let own = std::mem::replace(&mut node.lock().incarnation, incarnation);
    let mut beats = Box::pin(Arc::clone(node).heartbeats());
    assert!(tokio::poll(beats.as_mut()).is_pending());
    node.lock().incarnation = own;
    rpc::proto::answer(HeartbeatReply {
        granted: true,
        leader: 1,
        map: Vec::new(),
    });
    assert!(tokio::poll(beats.as_mut()).is_pending());
    rpc::proto::clear();
}

// ----- Calls ------------------------------------------------------------------------------

/// The part of `write` under the lock; the loop behind it, which begins with `notified`, is
/// `wait` below.
pub fn write(node: &Arc<Node>, now: u64, write: Write) -> Result<u64, Refusal> {
    std::time::set_now(now);
    let key = write.shard.clone();
    let mut call = Box::pin(node.write(write));
    tokio::sync::end_at_notified(true);
    let answer = catch_unwind(AssertUnwindSafe(|| tokio::poll(call.as_mut())));
    tokio::sync::end_at_notified(false);
    match answer {
        Ok(Poll::Ready(WriteResult::Refused(refusal))) => Err(refusal),
        Ok(_) => unreachable!("an accepted write comes to `notified`"),
        Err(thrown) if thrown.is::<tokio::sync::Ended>() => {
            Ok(last_offset(node, &key).expect("the shard is held"))
        }
        Err(thrown) => resume_unwind(thrown),
    }
}

pub fn search(node: &Node, now: u64, query: &SearchQuery) -> SearchResult {
    std::time::set_now(now);
    node.search(query)
}

pub fn replicate(node: &Node, message: Replicate) -> ReplicateAck {
    node.on_replicate(message)
}

pub fn new_epoch(node: &Node, message: NewEpoch) -> NewEpochAck {
    node.on_new_epoch(message)
}

pub fn copy_shard(node: &Node, message: CopyShard) -> CopyShardAck {
    node.on_copy(message)
}

/// A proposal under way: `Expand` or `Shrink` of a peer, and the task that waits for its outcome.
pub struct Proposal {
    pub peer: u64,
    pub task: Task,
}

/// Whether a write is acknowledged, and the Shrink proposals that the wait starts.
pub fn wait(
    node: &Arc<Node>,
    now: u64,
    key: &ShardKey,
    epoch: u64,
    offset: u64,
) -> Result<(bool, Vec<Proposal>), Refusal> {
    std::time::set_now(now);
    let before = proposing(node, key);
    let done = node.check_acks(key, Epoch(epoch), offset)?;
    let peers: Vec<u64> = proposing(node, key).difference(&before).copied().collect();
    let tasks = tokio::spawned();
    assert_eq!(peers.len(), tasks.len());
    let shrinks = peers.into_iter().zip(tasks);
    Ok((
        done,
        shrinks
            .map(|(peer, task)| Proposal { peer, task })
            .collect(),
    ))
}

fn proposing(node: &Node, key: &ShardKey) -> BTreeSet<u64> {
    let state = node.lock();
    let primary = state.shards.get(key).and_then(|l| l.primary.as_ref());
    primary.map_or_else(BTreeSet::new, |p| p.proposing.iter().map(|n| n.0).collect())
}

// ----- Workers ----------------------------------------------------------------------------

/// What a worker's step asks for.
#[derive(Debug, PartialEq)]
pub enum Asked {
    Wait,
    Stop,
    Align(NewEpoch),
    Replicate(Replicate),
    Copy(CopyShard),
}

/// One poll of `replicate_to`: where its request goes, and what it asks.
fn poll(task: Pin<&mut (dyn Future<Output = ()> + 'static)>) -> (String, Asked) {
    rpc::proto::clear();
    if tokio::poll(task).is_ready() {
        return (String::new(), Asked::Stop);
    }
    let Some(sent) = rpc::proto::sent().pop() else {
        return (String::new(), Asked::Wait);
    };
    let request = sent.request.as_ref();
    let asked = if let Some(r) = request.downcast_ref::<NewEpochRequest>() {
        Asked::Align(rpc::decode(&r.new_epoch).expect("as encoded"))
    } else if let Some(r) = request.downcast_ref::<ReplicateRequest>() {
        Asked::Replicate(rpc::decode(&r.replicate).expect("as encoded"))
    } else if let Some(r) = request.downcast_ref::<CopyShardRequest>() {
        Asked::Copy(rpc::decode(&r.copy).expect("as encoded"))
    } else {
        unreachable!("a worker sends nothing else")
    };
    (sent.uri, asked)
}

/// A worker's step, and the worker that now waits for the reply.
pub fn step(
    node: &Arc<Node>,
    key: &ShardKey,
    epoch: u64,
    peer: u64,
    metric: Metric,
) -> (Asked, Task) {
    let worker = Arc::clone(node).replicate_to(key.clone(), DataNodeId(peer), Epoch(epoch), metric);
    let mut task: Task = Box::pin(worker);
    let (_, asked) = poll(task.as_mut());
    (asked, task)
}

/// A reply, as the request of that kind gets it.
#[derive(Debug, PartialEq)]
pub enum Reply {
    Align(NewEpochAck),
    Replicate(ReplicateAck),
    Copy(CopyShardAck),
}

/// Hands `reply` to the worker that waits for it. The Expand proposal that follows, if any.
pub fn resume(worker: &mut Task, reply: Reply) -> Option<Task> {
    match reply {
        Reply::Align(ack) => rpc::proto::answer(NewEpochReply {
            ack: rpc::encode(&ack),
        }),
        Reply::Replicate(ack) => rpc::proto::answer(ReplicateReply {
            ack: rpc::encode(&ack),
        }),
        Reply::Copy(ack) => rpc::proto::answer(CopyShardReply {
            ack: rpc::encode(&ack),
        }),
    }
    let _ = tokio::poll(worker.as_mut());
    rpc::proto::clear();
    tokio::spawned().pop()
}

/// The functions that `replicate_to` calls after a reply, for one that no worker waits for.
pub fn record_ack(
    node: &Arc<Node>,
    key: &ShardKey,
    epoch: u64,
    peer: u64,
    through: u64,
    aligned: bool,
) -> Option<Task> {
    node.record_ack(key, Epoch(epoch), DataNodeId(peer), through, aligned);
    tokio::spawned().pop()
}

pub fn unalign(node: &Node, key: &ShardKey, epoch: u64, peer: u64) {
    node.unalign(key, Epoch(epoch), DataNodeId(peer));
}

pub fn step_down(node: &Node, key: &ShardKey, epoch: u64) {
    node.step_down(key, Epoch(epoch));
}

// ----- Outcomes ---------------------------------------------------------------------------

/// Delivers a proposal's outcome to its task.
pub fn settle(mut task: Task, applied: bool) {
    let outcome = match applied {
        true => Outcome::Applied,
        false => Outcome::Rejected("not applied".into()),
    };
    rpc::proto::answer(ProposeReply {
        accepted: true,
        leader: 1,
        outcome: rpc::encode(&outcome),
    });
    assert!(tokio::poll(task.as_mut()).is_ready());
    rpc::proto::clear();
}

/// Delivers an outcome that no proposal of the node waits for. A scratch node is brought to make
/// that very proposal, and its task runs over this node's state.
pub fn settle_foreign(
    node: &Node,
    shrink: bool,
    key: &ShardKey,
    epoch: u64,
    peer: u64,
    applied: bool,
) {
    let scratch = make(&Settings {
        id: u64::from(peer == 0),
        incarnation: 0,
        lease: 0,
        ack_timeout: 0,
        min_in_sync: 0,
    });
    scratch
        .lock()
        .shards
        .insert(key.clone(), behind(epoch, DataNodeId(peer), shrink));
    let task = if shrink {
        let (_, mut made) = wait(&scratch, 1, key, epoch, 0).expect("it is primary");
        made.pop().map(|p| p.task)
    } else {
        record_ack(&scratch, key, epoch, peer, 0, false)
    };
    std::mem::swap(&mut *scratch.lock(), &mut *node.lock());
    settle(task.expect("a proposal"), applied);
    std::mem::swap(&mut *scratch.lock(), &mut *node.lock());
}

/// A primary one of whose peers is behind since time 0, or caught up outside the ack set.
fn behind(epoch: u64, peer: DataNodeId, shrink: bool) -> Local {
    let mut replica = ShardReplica::new(Epoch(epoch), Metric::Euclidean);
    let mut ack_set = BTreeSet::new();
    if shrink {
        replica.append(rpc::WriteOp::Delete { id: 0 });
        ack_set.insert(peer);
    }
    Local {
        replica,
        primary: Some(Primary {
            epoch: Epoch(epoch),
            end_offset: 0,
            epochs: Vec::new(),
            ack_set,
            acked: BTreeMap::new(),
            aligned: BTreeSet::new(),
            behind_since: BTreeMap::from([(peer, Instant::at(0))]),
            proposing: BTreeSet::new(),
            workers: BTreeSet::new(),
        }),
    }
}

/// Takes a node out of the map that `node` was shown, as where it never registered.
pub fn forget_address(node: &Node, peer: u64) {
    node.lock().map.nodes.remove(&DataNodeId(peer));
}
