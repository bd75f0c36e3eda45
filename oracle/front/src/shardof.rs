//! Program `shardof`: a row of records, id u64 and shards u32, and for each the shard of that id.

use std::fmt::Write;

pub fn run(input: &[u8]) -> String {
    let (records, _) = input.as_chunks::<12>();
    let mut out = String::new();
    for record in records {
        let (id, shards) = record.split_first_chunk::<8>().expect("twelve bytes");
        let shards = shards.try_into().expect("four bytes");
        let shard = rpc::shard_of(u64::from_le_bytes(*id), u32::from_le_bytes(shards));
        writeln!(out, "{shard}").expect("a string");
    }
    out
}
