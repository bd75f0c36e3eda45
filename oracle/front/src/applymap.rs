//! Program `applymap` of paper 01: requests from an empty map, a line for each.

use std::fmt::Write;

use wire::Message;

use crate::map::{Answer, Map};

pub fn run(input: &[u8]) -> String {
    lines(&mut Map::default(), input)
}

/// The lines of the requests that a stream begins with, applied to a map.
pub fn lines(map: &mut Map, mut input: &[u8]) -> String {
    let mut out = String::new();
    while let Some((Message::Request(request), length)) = wire::read_first(input) {
        input = &input[length..];
        let answer = map.apply(&request);
        writeln!(out, "{}", line(request.index, answer, map.version())).expect("a string");
    }
    out
}

/// Index, word, reason and version.
pub fn line(index: u64, answer: Answer, version: u64) -> String {
    let (word, reason) = match answer {
        Answer::Applied => ("applied", 0),
        Answer::Rejected(reason) => ("rejected", reason),
        Answer::Refused(number) => ("refused", number),
    };
    format!("{index} {word} {reason} {version}")
}
