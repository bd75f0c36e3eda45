//! The unchanged Rust behind paper 01's calls: bytes in, lines out. Around the Rust stand only
//! what the paper adds: the layout, refusals 21 to 26, the limits and the refused count.
//!
//! 24 never comes from these programs: they lend no state but their own.

pub mod applymap;
pub mod convert;
pub mod counts;
pub mod decode;
pub mod history;
pub mod join;
pub mod loadsheet;
pub mod losses;
pub mod map;
pub mod node;
pub mod placement;
pub mod reason;
pub mod replay;
pub mod search;
pub mod shardof;
pub mod show;
pub mod streams;

/// Times and acknowledged offsets go up to here.
pub const TIME: u64 = 1 << 62;
pub const ENTRIES: u64 = 1024;
pub const SHARDS_HELD: usize = 8;
pub const WORKERS: usize = 32;

/// Panics of the Rust that a front end answers for (epoch 2^64 - 1) say nothing on their own.
pub fn quiet() {
    std::panic::set_hook(Box::new(|_| {}));
}

/// Runs a program from standard input to standard output.
pub fn main(program: fn(&[u8]) -> String) {
    use std::io::{Read, Write};
    let mut input = Vec::new();
    std::io::stdin()
        .read_to_end(&mut input)
        .expect("standard input");
    let output = program(&input);
    std::io::stdout()
        .write_all(output.as_bytes())
        .expect("standard output");
}
