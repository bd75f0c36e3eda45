//! Two edits behind a log (paper 02, 2.10): logs that differ by the order of their last two edits,
//! of different ids, or by an earlier edit of the id of the last. Each twin has the same vectors.

use wire::Op;

/// Two logs with the same vectors.
pub type Twins = [Vec<Op>; 2];

fn put(id: u64, vector: &[f32]) -> Op {
    Op::Put {
        id,
        vector: vector.iter().map(|f| f.to_bits()).collect(),
    }
}

fn behind(log: &[Op], edits: &[&Op]) -> Vec<Op> {
    log.iter().chain(edits.iter().copied()).cloned().collect()
}

/// Logs of different lengths; the longest has space for two edits and no more.
fn logs() -> Vec<Vec<Op>> {
    let full = |n: u64| match n % 3 {
        2 => Op::Delete { id: n % 7 },
        _ => put(n % 40, &[n as f32, 1.0]),
    };
    vec![
        vec![],
        vec![put(5, &[1.0])],
        vec![put(9, &[0.5, 2.0]), put(5, &[1.0]), Op::Delete { id: 9 }],
        (0..1022).map(full).collect(),
    ]
}

/// Every two edits of different ids, in both orders.
pub fn different() -> Vec<Twins> {
    let edits = |id: u64| [put(id, &[(id % 10) as f32, 2.0]), Op::Delete { id }];
    let mut all = Vec::new();
    for log in logs() {
        for (a, b) in [(5, 3), (5, 9), (7, u64::MAX)] {
            for x in edits(a) {
                for y in edits(b) {
                    all.push([behind(&log, &[&x, &y]), behind(&log, &[&y, &x])]);
                }
            }
        }
    }
    all
}

/// Every two edits of one id, against the later alone.
pub fn same() -> Vec<Twins> {
    let edits = [
        put(5, &[2.0]),
        put(5, &[3.0, -1.0, 4.0]),
        Op::Delete { id: 5 },
    ];
    let mut all = Vec::new();
    for log in logs() {
        for x in &edits {
            for y in &edits {
                all.push([behind(&log, &[x, y]), behind(&log, &[y])]);
            }
        }
    }
    all
}
