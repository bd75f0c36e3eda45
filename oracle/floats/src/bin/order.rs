//! Program `order`: standard input to standard output.

use std::io::Read;

fn main() {
    let mut input = Vec::new();
    std::io::stdin()
        .read_to_end(&mut input)
        .expect("standard input");
    print!("{}", floats::programs::order(&input));
}
