//! Program `losses` over the unchanged Rust: standard input to standard output.

fn main() {
    front::quiet();
    front::main(front::losses::run);
}
