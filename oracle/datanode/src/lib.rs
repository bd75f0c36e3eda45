//! The data node, its clock taken from outside: the published files with the edits of oracle/edits. `node` gets a child module `inside`
//! (src/inside.rs), which reaches its private items; `reach` opens the replica's fields.

extern crate clockstd as std;
#[macro_use]
extern crate reach;

#[path = "../../../target/oracle/sources/crates/datanode/src/control.rs"]
pub mod control;
#[path = "../../../target/oracle/sources/crates/datanode/src/node.rs"]
pub mod node;
#[path = "../../../target/oracle/sources/crates/datanode/src/shard.rs"]
pub mod shard;
