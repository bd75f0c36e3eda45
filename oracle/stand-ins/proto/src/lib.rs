//! Stand-in for the code generated from the service definitions: the messages that the sources
//! name, and clients that put their request on a shelf and wait until an answer is laid there.

use std::any::Any;
use std::cell::RefCell;
use std::future::poll_fn;
use std::task::Poll;

use tonic::transport::Channel;
use tonic::{Response, Status};

/// A request that a client made.
pub struct Sent {
    /// Where to.
    pub uri: String,
    /// The message, of the type that the client's function takes.
    pub request: Box<dyn Any>,
}

thread_local! {
    static SENT: RefCell<Vec<Sent>> = RefCell::default();
    static ANSWER: RefCell<Option<Box<dyn Any>>> = RefCell::default();
}

/// Takes the requests made since the last call, oldest first.
pub fn sent() -> Vec<Sent> {
    SENT.take()
}

/// Lays an answer down for the client that waits.
pub fn answer(message: impl Any) {
    ANSWER.set(Some(Box::new(message)));
}

/// Takes away an answer that nobody waited for.
pub fn clear() {
    SENT.take();
    ANSWER.take();
}

async fn exchange<A: Any>(to: &Channel, request: impl Any) -> Result<Response<A>, Status> {
    let uri = to.uri.clone();
    let request = Box::new(request);
    SENT.with_borrow_mut(|sent| sent.push(Sent { uri, request }));
    poll_fn(|_| match ANSWER.take() {
        None => Poll::Pending,
        Some(message) => Poll::Ready(match message.downcast::<A>() {
            Ok(message) => Ok(Response::new(*message)),
            Err(_) => Err(Status("an answer to another request".into())),
        }),
    })
    .await
}

macro_rules! messages {
    ($($name:ident { $($field:ident: $kind:ty),* })*) => {
        $(
            #[derive(Debug, Clone)]
            pub struct $name { $(pub $field: $kind),* }
        )*
    };
}

messages! {
    WriteRequest { write: Vec<u8> }
    WriteReply { result: Vec<u8> }
    SearchRequest { query: Vec<u8> }
    SearchReply { result: Vec<u8> }
    ReplicateRequest { replicate: Vec<u8> }
    ReplicateReply { ack: Vec<u8> }
    NewEpochRequest { new_epoch: Vec<u8> }
    NewEpochReply { ack: Vec<u8> }
    CopyShardRequest { copy: Vec<u8> }
    CopyShardReply { ack: Vec<u8> }
    Empty { }
    EventsReply { events: Vec<u8> }
    FaultsRequest { drop_to: Vec<u64> }
    InspectRequest { shard: Vec<u8> }
    InspectReply { dump: Vec<u8> }
    HeartbeatRequest { node: u64, incarnation: u64, address: String, known_version: u64 }
    HeartbeatReply { granted: bool, leader: u64, map: Vec<u8> }
    ProposeRequest { request: Vec<u8> }
    ProposeReply { accepted: bool, leader: u64, outcome: Vec<u8> }
}

macro_rules! client {
    ($module:ident $name:ident { $($call:ident: $request:ident => $reply:ident),* }) => {
        pub mod $module {
            use super::*;

            #[derive(Debug, Clone)]
            pub struct $name<T>(T);

            impl $name<Channel> {
                pub fn new(channel: Channel) -> Self {
                    $name(channel)
                }

                $(
                    pub async fn $call(
                        &mut self,
                        request: $request,
                    ) -> Result<Response<$reply>, Status> {
                        exchange(&self.0, request).await
                    }
                )*
            }
        }
    };
}

client! {
    data_node_client DataNodeClient {
        replicate: ReplicateRequest => ReplicateReply,
        new_epoch: NewEpochRequest => NewEpochReply,
        copy_shard: CopyShardRequest => CopyShardReply
    }
}

client! {
    control_plane_client ControlPlaneClient {
        heartbeat: HeartbeatRequest => HeartbeatReply,
        propose: ProposeRequest => ProposeReply
    }
}

macro_rules! server {
    ($module:ident $name:ident { $($call:ident: $request:ident => $reply:ident),* }) => {
        pub mod $module {
            use super::*;

            #[allow(async_fn_in_trait)]
            pub trait $name {
                $(
                    async fn $call(
                        &self,
                        request: tonic::Request<$request>,
                    ) -> Result<Response<$reply>, Status>;
                )*
            }
        }
    };
}

server! {
    data_node_server DataNode {
        write: WriteRequest => WriteReply,
        search: SearchRequest => SearchReply,
        replicate: ReplicateRequest => ReplicateReply,
        new_epoch: NewEpochRequest => NewEpochReply,
        copy_shard: CopyShardRequest => CopyShardReply,
        events: Empty => EventsReply,
        set_faults: FaultsRequest => Empty,
        inspect: InspectRequest => InspectReply
    }
}
