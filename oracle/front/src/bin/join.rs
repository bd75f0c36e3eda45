//! Program `join`: standard input to standard output.

fn main() {
    front::main(front::join::run);
}
