//! `mutants ROOT [NAME ..]`: builds the oracle with each deliberate mistake of oracle/mutants in
//! turn, in a copy below target/oracle/mutants, and shows which stored lists tell it apart.
//!
//! A mistake is a file `NAME.edit`: `why:` in words, `file:` below the copy (`sources/` are the
//! published files), then `old:` and `new:`, each a text up to the next word or the end.

use std::fs;
use std::path::{Path, PathBuf};
use std::process::{Command, ExitCode, Stdio};

const PROGRAMS: [&str; 12] = [
    "applymap",
    "decode",
    "history",
    "loadsheet",
    "losses",
    "order",
    "placement",
    "replay",
    "roots",
    "search",
    "shardof",
    "streams",
];

struct Edit {
    name: String,
    why: String,
    file: String,
    old: String,
    new: String,
}

fn parse(path: &Path) -> Edit {
    let text = fs::read_to_string(path).expect("an edit");
    let part = |from: &str, to: &str| {
        let start = text.find(from).expect("each part") + from.len();
        let end = text[start..].find(to).map_or(text.len(), |n| start + n);
        text[start..end].trim_matches([' ', '\n']).to_string()
    };
    Edit {
        name: path.file_stem().expect("a name").to_string_lossy().into(),
        why: part("why:", "\nfile:"),
        file: part("\nfile:", "\nold:"),
        old: part("\nold:", "\nnew:"),
        new: part("\nnew:", "\0"),
    }
}

/// The copy: the workspace without its lists, and the published files as they were built.
fn copy(root: &Path) -> PathBuf {
    let place = root.join("target/oracle/mutants");
    let _ = fs::remove_dir_all(place.join("oracle"));
    for (from, to) in [
        ("oracle", "oracle"),
        ("target/oracle/sources", "target/oracle/sources"),
    ] {
        copy_folder(&root.join(from), &place.join(to));
    }
    place
}

fn copy_folder(from: &Path, to: &Path) {
    fs::create_dir_all(to).expect("a folder");
    for item in fs::read_dir(from).expect("a folder") {
        let item = item.expect("an item");
        let name = item.file_name();
        if name == "stored" || name == "mutants" {
            continue;
        }
        let (source, target) = (item.path(), to.join(&name));
        if source.is_dir() {
            copy_folder(&source, &target);
        } else {
            fs::copy(&source, &target).expect("a copy");
        }
    }
}

fn place_of(copy: &Path, file: &str) -> PathBuf {
    match file.strip_prefix("sources/") {
        Some(rest) => copy.join("target/oracle/sources").join(rest),
        None => copy.join("oracle").join(file),
    }
}

fn build(copy: &Path) -> bool {
    let status = Command::new("cargo")
        .args([
            "build",
            "--offline",
            "--quiet",
            "-p",
            "front",
            "-p",
            "floats",
        ])
        .current_dir(copy.join("oracle"))
        .env("CARGO_TARGET_DIR", copy.join("cargo"))
        .env("RUSTFLAGS", "-Awarnings")
        .status();
    status.expect("cargo").success()
}

/// Whether the stored answer differs from what the program in the copy prints.
fn differs(copy: &Path, program: &str, input: &Path) -> bool {
    let output = Command::new(copy.join("cargo/debug").join(program))
        .stdin(fs::File::open(input).expect("a list"))
        .stderr(Stdio::null())
        .output()
        .expect("a program");
    let stored = fs::read(input.with_extension("out")).expect("a list");
    !output.status.success() || output.stdout != stored
}

/// The stored lists that tell the copy from the oracle.
fn told_apart(root: &Path, copy: &Path) -> Vec<String> {
    let mut lists = Vec::new();
    for program in PROGRAMS {
        let folder = root.join("oracle/stored").join(program);
        let mut inputs: Vec<PathBuf> = fs::read_dir(folder)
            .expect("stored lists")
            .map(|item| item.expect("an item").path())
            .filter(|path| path.extension().is_some_and(|e| e == "in"))
            .collect();
        inputs.sort();
        for input in inputs.iter().filter(|i| differs(copy, program, i)) {
            let name = input.file_stem().expect("a name").to_string_lossy();
            lists.push(format!("{program}/{name}"));
        }
    }
    lists
}

fn main() -> ExitCode {
    let mut arguments = std::env::args().skip(1);
    let root = PathBuf::from(arguments.next().expect("mutants ROOT [NAME ..]"));
    let chosen: Vec<String> = arguments.collect();
    let mut edits: Vec<PathBuf> = fs::read_dir(root.join("oracle/mutants"))
        .expect("mutants")
        .map(|item| item.expect("an item").path())
        .filter(|path| path.extension().is_some_and(|e| e == "edit"))
        .collect();
    edits.sort();
    let copy = copy(&root);
    assert!(build(&copy), "the copy builds");
    assert!(
        told_apart(&root, &copy).is_empty(),
        "the copy answers as stored"
    );
    let mut code = ExitCode::SUCCESS;
    for edit in edits.iter().map(|path| parse(path)) {
        if !chosen.is_empty() && !chosen.contains(&edit.name) {
            continue;
        }
        if !caught(&root, &copy, &edit) {
            code = ExitCode::FAILURE;
        }
    }
    code
}

fn caught(root: &Path, copy: &Path, edit: &Edit) -> bool {
    let place = place_of(copy, &edit.file);
    let right = fs::read_to_string(&place).expect("the file");
    if right.matches(&edit.old).count() != 1 {
        println!("{}: the old text is not there exactly once", edit.name);
        return false;
    }
    fs::write(&place, right.replacen(&edit.old, &edit.new, 1)).expect("the file");
    let lists = match build(copy) {
        true => told_apart(root, copy),
        false => vec![],
    };
    fs::write(&place, right).expect("the file");
    let (first, more) = (lists.first(), lists.len().saturating_sub(1));
    match first {
        Some(list) => println!("{}: told apart by {list} and {more} more", edit.name),
        None => println!("{}: NOT told apart ({})", edit.name, edit.why),
    }
    first.is_some()
}
