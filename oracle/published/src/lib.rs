//! The data node as published, without the edits of oracle/edits; else as crate `datanode`.

extern crate clockstd as std;
#[macro_use]
extern crate reach;

#[path = "../../../target/oracle/published/crates/datanode/src/control.rs"]
pub mod control;
#[path = "../../../target/oracle/published/crates/datanode/src/node.rs"]
pub mod node;
#[path = "../../../target/oracle/published/crates/datanode/src/shard.rs"]
pub mod shard;
