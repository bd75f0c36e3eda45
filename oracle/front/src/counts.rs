//! How Create ends on every placement of a request (paper 02, 2.14): each is put to the Rust.

use wire::{Command, Request, Spec};

use crate::map::{Answer, Map};

/// More placements than this are not walked, and no stored list asks for so many without 35.
pub const WALKED: u128 = 30_000;

/// Every list of at most `most` members, the shortest first.
fn sequences<T: Clone>(members: &[T], most: u32) -> Vec<Vec<T>> {
    let mut all = vec![vec![]];
    let mut last = all.clone();
    for _ in 0..most {
        let longer = |l: &Vec<T>| {
            let end = |m: &T| [l.as_slice(), std::slice::from_ref(m)].concat();
            members.iter().map(end).collect::<Vec<_>>()
        };
        last = last.iter().flat_map(longer).collect();
        all.extend(last.iter().cloned());
    }
    all
}

/// How many lists of at most `most` of so many members.
fn sum_of_powers(members: u128, most: u32) -> u128 {
    (0..most).fold(1, |sum, _| sum.saturating_mul(members).saturating_add(1))
}

/// Accepted, 2, 3, 4, 5, 23; or 36, then 35.
pub fn count(
    map: &Map,
    name: &[u8],
    spec: &Spec,
    ids: &[u64],
    lists: u32,
    nodes: u32,
) -> Result<[u64; 6], u8> {
    let twice = (1..ids.len()).any(|i| ids[..i].contains(&ids[i]));
    if ids.len() > 4 || twice || lists > 16 || nodes > 8 {
        return Err(36);
    }
    let total = sum_of_powers(sum_of_powers(ids.len() as u128, nodes), lists);
    if total > u64::MAX.into() {
        return Err(35);
    }
    assert!(total <= WALKED, "a stored list asks for {total} placements");
    let mut six = [0; 6];
    for placement in sequences(&sequences(ids, nodes), lists) {
        let place = match ended(map, name, spec, placement) {
            Answer::Applied => 0,
            Answer::Rejected(reason) => [2, 3, 4, 5]
                .iter()
                .position(|n| *n == reason)
                .map(|i| i + 1)
                .expect("2 to 5"),
            Answer::Refused(23) => 5,
            other => panic!("Create answered {other:?}"),
        };
        six[place] += 1;
    }
    Ok(six)
}

/// Create's own answer, by a client that the map knows, or has room for, and that has said nothing yet.
fn ended(map: &Map, name: &[u8], spec: &Spec, placement: Vec<Vec<u64>>) -> Answer {
    let mut map = Map {
        machine: map.machine.clone(),
    };
    map.apply(&Request {
        index: 1,
        client: u64::MAX,
        seq: u64::MAX,
        command: Command::Create {
            name: name.to_vec(),
            spec: spec.clone(),
            placement,
        },
    })
}
