//! A second search, written from paper 01: sums from +0.0 in order, the whole-number root and the
//! order by bits. It agrees with the Rust's, whose sums begin at -0.0 and whose root and order are
//! the machine's, on random cases of every kind of float.

use std::collections::BTreeMap;
use std::fmt::Write;

use generate::rng::Rng;
use generate::searches;
use wire::Op;

fn float(bits: u32) -> f32 {
    f32::from_bits(bits)
}

fn root(sum: f32) -> f32 {
    float(floats::root(sum.to_bits()).expect("a sum of squares"))
}

fn sum(terms: impl Iterator<Item = f32>) -> f32 {
    terms.fold(0.0, |sum, term| sum + term)
}

fn norm(vector: &[u32]) -> f32 {
    root(sum(vector.iter().map(|&b| float(b) * float(b))))
}

fn distance(metric: u8, query: &[u32], vector: &[u32]) -> f32 {
    let pairs = || {
        query
            .iter()
            .zip(vector)
            .map(|(a, b)| (float(*a), float(*b)))
    };
    if metric == 0 {
        return root(sum(pairs().map(|(a, b)| (a - b) * (a - b))));
    }
    let denominator = norm(query) * norm(vector);
    if denominator == 0.0 {
        return 1.0;
    }
    1.0 - sum(pairs().map(|(a, b)| a * b)) / denominator
}

/// What the paper says of a case; none where a component is outside the domain.
fn nearest(case: &[u8]) -> Option<String> {
    let (metric, k) = (case[0], u32::from_le_bytes(case[1..5].try_into().ok()?));
    let (query, length) = wire::read_vector(&case[5..])?;
    let mut rest = &case[5 + length + 2..];
    let mut stored: BTreeMap<u64, Vec<u32>> = BTreeMap::new();
    let mut inside = query.iter().all(|&b| wire::in_domain(b));
    while let Some((op, length)) = wire::read_op(rest) {
        rest = &rest[length..];
        match op {
            Op::Delete { id } => drop(stored.remove(&id)),
            Op::Put { id, vector } => {
                inside &= vector.iter().all(|&b| wire::in_domain(b));
                stored.insert(id, vector);
            }
        }
    }
    if !inside {
        return None;
    }
    let hit = |(id, vector): (&u64, &Vec<u32>)| (distance(metric, &query, vector).to_bits(), *id);
    let mut hits: Vec<(u32, u64)> = stored.iter().map(hit).collect();
    hits.sort_by(|a, b| floats::order(a.0, b.0).then(a.1.cmp(&b.1)));
    hits.truncate(k as usize);
    let mut out = format!("found {}\n", hits.len());
    for (bits, id) in hits {
        writeln!(out, "{id} {bits:08x}").ok()?;
    }
    Some(out)
}

#[test]
fn the_second_search_agrees_with_the_rust() {
    let mut rng = Rng::new(2024);
    for n in 0..20_000 {
        let case = searches::random(&mut rng, n % 4 != 0);
        let second = nearest(&case).unwrap_or("refused 22\n".into());
        assert_eq!(front::search::run(&case), second);
    }
}
