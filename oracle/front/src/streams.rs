//! Program `streams`: a row of records, each a length u32 and so many bytes: a stream of `applymap`,
//! from an empty map. It prints that program's lines, behind that of a rejected command the Rust's
//! own words, and then the whole map as `replay` does. A record that is cut short ends the program
//! with no line.

use std::fmt::Write;

use wire::Message;

use crate::map::Map;
use crate::{applymap, show};

/// A stream as a record.
pub fn record(stream: &[u8]) -> Vec<u8> {
    let mut out = (stream.len() as u32).to_le_bytes().to_vec();
    out.extend(stream);
    out
}

pub fn run(mut input: &[u8]) -> String {
    let mut out = String::new();
    while let Some((stream, rest)) = read(input) {
        input = rest;
        let mut map = Map::default();
        lines(&mut out, &mut map, stream);
        out.push_str(&show::map(&map));
    }
    out
}

fn lines(out: &mut String, map: &mut Map, mut stream: &[u8]) {
    while let Some((Message::Request(request), length)) = wire::read_first(stream) {
        stream = &stream[length..];
        let (answer, words) = map.apply_in_words(&request);
        out.push_str(&applymap::line(request.index, answer, map.version()));
        if let Some(words) = words {
            write!(out, " {words}").expect("a string");
        }
        out.push('\n');
    }
}

fn read(input: &[u8]) -> Option<(&[u8], &[u8])> {
    let (length, rest) = input.split_first_chunk::<4>()?;
    rest.split_at_checked(u32::from_le_bytes(*length) as usize)
}
