//! The engine beside the unchanged Rust, on the same input in one run. Ratios are the Rust's time over
//! the engine's: above 1 the engine is faster. `beside` runs all; `beside search` and so on, one part.

mod map;
mod measure;
mod node;
mod peers;
mod putback;
mod shard;

fn main() {
    let parts: [(&str, fn()); 5] = [
        ("search", shard::search),
        ("append", shard::append),
        ("adopt", shard::adopt),
        ("map", map::images),
        ("node", node::node),
    ];
    let asked: Vec<String> = std::env::args().skip(1).collect();
    // `layout` is measured by another program, which `make bench` runs before this one.
    let known = |a: &String| a == "layout" || parts.iter().any(|(name, _)| a == name);
    if let Some(a) = asked.iter().find(|a| !known(a)) {
        eprintln!("bench: there is no part {a}");
        std::process::exit(2);
    }
    for (name, run) in parts {
        if asked.is_empty() || asked.iter().any(|a| a == name) {
            run();
        }
    }
}
