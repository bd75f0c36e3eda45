//! Paper 02, 2.10, of the Rust: two edits of different ids in either order leave the same vectors
//! and answers, of one id the later alone counts, and logs show the order in which they came.

use generate::edits;
use generate::histories;
use generate::searches;

#[test]
fn twins_are_searched_alike() {
    for [one, other] in searches::orders() {
        assert_ne!(one, other);
        let answer = front::search::run(&one);
        assert!(answer.starts_with("found"));
        assert_eq!(answer, front::search::run(&other));
    }
}

/// What is printed behind the last append.
fn looked(output: &str) -> &str {
    let at = output.find("ids").expect("the ids are printed");
    &output[at..]
}

#[test]
fn twins_have_the_same_vectors() {
    for [one, other] in histories::orders() {
        let run = |m: &histories::Made| front::history::run(&m.records.concat());
        let (one, other) = (run(&one), run(&other));
        assert_eq!(looked(&one), looked(&other));
        assert!(!one.contains("refused") && !other.contains("refused"));
    }
}

#[test]
fn the_logs_differ() {
    for [one, other] in edits::different() {
        assert_ne!(one, other);
    }
}
