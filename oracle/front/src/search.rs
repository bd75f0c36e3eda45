//! Program `search`: a row of cases, each a metric byte, k as u32, the query as a vector of the
//! wire, a u16 count of up to 1,024 and so many operations, which are played in order from none.
//! It prints `found C` and C lines `ID BITS`, or `refused 22` where a component of the query or of
//! an operation is outside the domain. A case that does not read ends the program with no line.

use std::fmt::Write;

use datanode::shard::ShardReplica;
use rpc::{Epoch, Neighbor};
use wire::Op;

use crate::{ENTRIES, convert};

struct Case {
    metric: u8,
    k: u32,
    query: Vec<u32>,
    ops: Vec<Op>,
}

pub fn run(mut input: &[u8]) -> String {
    let mut out = String::new();
    while let Some((case, rest)) = read(input) {
        input = rest;
        match nearest(&case) {
            None => out.push_str("refused 22\n"),
            Some(found) => out.push_str(&lines(&found)),
        }
    }
    out
}

fn read(input: &[u8]) -> Option<(Case, &[u8])> {
    let (&[metric, k0, k1, k2, k3], input) = input.split_first_chunk::<5>()?;
    let (query, length) = wire::read_vector(input)?;
    let (count, mut input) = input[length..].split_first_chunk::<2>()?;
    let count = u16::from_le_bytes(*count);
    if metric > 1 || u64::from(count) > ENTRIES {
        return None;
    }
    let mut ops = Vec::new();
    for _ in 0..count {
        let (op, length) = wire::read_op(input)?;
        ops.push(op);
        input = &input[length..];
    }
    let k = u32::from_le_bytes([k0, k1, k2, k3]);
    let case = Case {
        metric,
        k,
        query,
        ops,
    };
    Some((case, input))
}

fn nearest(case: &Case) -> Option<Vec<Neighbor>> {
    let fits = case.query.iter().all(|&b| wire::in_domain(b))
        && case.ops.iter().all(convert::op_in_domain);
    if !fits {
        return None;
    }
    let mut replica = ShardReplica::new(Epoch(0), convert::metric(case.metric));
    for op in &case.ops {
        replica.append(convert::op(op));
    }
    Some(replica.search(&convert::floats(&case.query), case.k as usize))
}

/// The lines of a search's answer.
pub fn lines(found: &[Neighbor]) -> String {
    let mut out = format!("found {}\n", found.len());
    for hit in found {
        writeln!(out, "{} {:08x}", hit.id, hit.distance.to_bits()).expect("a string");
    }
    out
}
