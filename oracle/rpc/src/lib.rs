//! The published `rpc` crate, its clock taken from outside.

extern crate clockstd as std;

#[path = "../../../target/oracle/sources/crates/rpc/src/lib.rs"]
mod source;

pub use source::*;
