//! How many placements of an empty map pass: its nodes are all unknown.

use catalogue::{Asked, Counts, Map, Refusal};

const ASKED: Asked = Asked {
    dimension: 2,
    shards: 2,
    replication: 1,
};

#[test]
fn no_node_is_alive() {
    let counts = Map::new().count_placements(b"stars", ASKED, &[1, 2, 7], 2, 1);
    assert_eq!(
        counts,
        Ok(Counts {
            accepted: 0,
            exists: 0,
            zero: 0,
            mismatched: 12,
            not_alive: 9,
            no_room: 0,
        })
    );
}

#[test]
fn refusals() {
    let map = Map::new();
    let of = |ids: &[u64], lists, nodes| map.count_placements(b"stars", ASKED, ids, lists, nodes);
    assert_eq!(of(&[1, 2, 3, 4], 16, 8), Err(Refusal::TooMany));
    assert_eq!(of(&[1, 1], 16, 8), Err(Refusal::TooWide));
    assert_eq!(of(&[1], 17, 0), Err(Refusal::TooWide));
    assert_eq!(of(&[1], 0, 9), Err(Refusal::TooWide));
    assert_eq!(of(&[1, 2, 3, 4, 5], 1, 1), Err(Refusal::TooWide));
    assert_eq!(
        map.count_placements(&[200], ASKED, &[], 0, 0),
        Err(Refusal::Undecodable)
    );
    assert_eq!(
        Map::from_bytes(&[0; 8]).count_placements(b"stars", ASKED, &[1, 1], 0, 0),
        Err(Refusal::Malformed)
    );
}
