//! Writes every stored list below a folder: `store FOLDER`. With `--check` in front of the folder
//! it writes nothing and says which stored list is not what the oracle answers today.

use std::fs;
use std::path::Path;
use std::process::ExitCode;

use generate::lists::{self, List};

fn main() -> ExitCode {
    front::quiet();
    let arguments: Vec<String> = std::env::args().skip(1).collect();
    match arguments.as_slice() {
        [folder] => write(Path::new(folder)),
        [flag, folder] if flag == "--check" => check(Path::new(folder)),
        _ => panic!("store [--check] FOLDER"),
    }
}

fn write(folder: &Path) -> ExitCode {
    let mut bytes = 0;
    for list in lists::all() {
        let place = folder.join(list.program);
        fs::create_dir_all(&place).expect("a folder");
        fs::write(place.join(format!("{}.in", list.name)), &list.input).expect("a file");
        fs::write(place.join(format!("{}.out", list.name)), &list.output).expect("a file");
        bytes += list.input.len() + list.output.len();
    }
    println!("{bytes} bytes below {}", folder.display());
    ExitCode::SUCCESS
}

fn differs(folder: &Path, list: &List) -> bool {
    let read = |end: &str| {
        let name = format!("{}.{end}", list.name);
        fs::read(folder.join(list.program).join(name)).unwrap_or_default()
    };
    read("in") != list.input || read("out") != list.output.as_bytes()
}

fn check(folder: &Path) -> ExitCode {
    let mut code = ExitCode::SUCCESS;
    for list in lists::all() {
        if differs(folder, &list) {
            println!("differs: {}/{}", list.program, list.name);
            code = ExitCode::FAILURE;
        }
    }
    code
}
