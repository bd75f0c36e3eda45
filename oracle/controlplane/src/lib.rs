//! The published shard map state machine; `reach` opens its session table.

#[macro_use]
extern crate reach;

#[path = "../../../target/oracle/sources/crates/controlplane/src/state.rs"]
pub mod state;
