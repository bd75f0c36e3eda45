//! The answers of two shards join into one list; what is wrong with them is told.

use catalogue::{Answers, Neighbor, Refusal, join, shard_of};

fn at(id: u64, distance: f32) -> Neighbor {
    Neighbor { id, distance }
}

/// The first ids of a shard of two.
fn ids(shard: u32) -> Vec<u64> {
    (1..)
        .filter(|&id| shard_of(id, 2) == shard)
        .take(3)
        .collect()
}

#[test]
fn nearest_first_and_of_equal_distances_the_lower_id() {
    let (a, b) = (ids(0), ids(1));
    let mut answers = Answers::new();
    answers.put(0, &[at(a[0], 1.0), at(a[1], 2.0)]);
    answers.put(1, &[at(b[0], 1.0), at(b[1], 1.5)]);
    let (low, high) = (a[0].min(b[0]), a[0].max(b[0]));
    let found = join(2, 3, &answers).expect("two answers in order");
    assert_eq!(found, [at(low, 1.0), at(high, 1.0), at(b[1], 1.5)]);
    assert_eq!(join(2, 9, &answers).map(|l| l.len()), Ok(4));
}

#[test]
fn refusals() {
    let (a, b) = (ids(0), ids(1));
    let refused = |put: &dyn Fn(&mut Answers)| {
        let mut answers = Answers::new();
        put(&mut answers);
        join(2, 1, &answers)
    };
    let far = at(a[1], 2.0);
    assert_eq!(
        refused(&|l| l.put(0, &[far, at(a[0], 1.0)])),
        Err(Refusal::OutOfOrder)
    );
    assert_eq!(
        refused(&|l| l.put(0, &[at(a[0], 1.0), far, at(a[0], 3.0)])),
        Err(Refusal::OutOfOrder)
    );
    assert_eq!(
        refused(&|l| l.put(0, &[far, at(b[0], 3.0)])),
        Err(Refusal::WrongShard)
    );
}
