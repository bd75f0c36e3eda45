//! A rejection in words, and again in the old words when the request is repeated.

use catalogue::{Map, Outcome};

/// Drop of a collection, by client 1.
fn drop(seq: u64, name: &str) -> Vec<u8> {
    let mut bytes = vec![0x01];
    for n in [seq, 1, seq] {
        bytes.extend(n.to_le_bytes());
    }
    bytes.extend([0x11, name.len() as u8]);
    bytes.extend(name.as_bytes());
    bytes.resize(bytes.len() + 32 - name.len(), 0);
    bytes
}

#[test]
fn the_words_name_the_collection() {
    let mut map = Map::new();
    let said = (Outcome::Rejected(6), "no collection a b/c".to_string());
    assert_eq!(map.apply_in_words(&drop(1, "a b/c")), Ok(said.clone()));
    assert_eq!(map.apply_in_words(&drop(1, "other")), Ok(said));
    let older = (
        Outcome::Rejected(1),
        "an older command from this client".to_string(),
    );
    assert_eq!(map.apply_in_words(&drop(0, "other")), Ok(older));
}
