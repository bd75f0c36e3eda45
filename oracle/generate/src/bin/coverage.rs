//! `coverage RUNS FILE`: writes the table of answers; fails if the stored lists lack one.

use std::process::ExitCode;

fn main() -> ExitCode {
    front::quiet();
    let arguments: Vec<String> = std::env::args().skip(1).collect();
    let [runs, file] = arguments.as_slice() else {
        panic!("coverage RUNS FILE");
    };
    let (table, missing) = generate::coverage::table(runs.parse().expect("a number"));
    std::fs::write(file, table).expect("a file");
    for row in &missing {
        println!("no stored list comes to: {row}");
    }
    match missing.is_empty() {
        true => ExitCode::SUCCESS,
        false => ExitCode::FAILURE,
    }
}
