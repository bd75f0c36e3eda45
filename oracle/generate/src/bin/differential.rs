//! `differential SECONDS SEED`: fresh random inputs through the engine's programs and the oracle,
//! until the time is over or an answer differs. Then it prints the shortest input it can find that
//! still shows the difference, and keeps it as target/oracle/difference.in.
//!
//! Where the engine's programs are, environment variables say: ENGINE_REPLAY and so on. A program
//! that is not there is named, and nothing is compared.

use std::io::Write;
use std::process::{Command, ExitCode, Stdio};
use std::time::{Duration, Instant};

use front::replay::Record;
use generate::rng::Rng;
use generate::{damage, dome, histories, joins, losses, maps, placements, searches, stream};

/// A program of which both sides have one.
struct Program {
    name: &'static str,
    variable: &'static str,
    default: &'static str,
    oracle: fn(&[u8]) -> String,
    fresh: fn(&mut Rng) -> Vec<Vec<u8>>,
    describe: fn(&[u8]) -> String,
}

const PROGRAMS: [Program; 13] = [
    Program {
        name: "replay",
        variable: "ENGINE_REPLAY",
        default: "target/host/replay",
        oracle: front::replay::run,
        fresh: fresh_replay,
        describe: describe_call,
    },
    Program {
        name: "applymap",
        variable: "ENGINE_APPLYMAP",
        default: "target/host/applymap",
        oracle: front::applymap::run,
        fresh: fresh_applymap,
        describe: describe_message,
    },
    Program {
        name: "streams",
        variable: "ENGINE_STREAMS",
        default: "target/host/streams",
        oracle: front::streams::run,
        fresh: |rng| vec![front::streams::record(&fresh_applymap(rng).concat())],
        describe: |_| String::new(),
    },
    Program {
        name: "loadsheet",
        variable: "ENGINE_LOADSHEET",
        default: "target/host/loadsheet",
        oracle: front::loadsheet::run,
        fresh: fresh_applymap,
        describe: describe_message,
    },
    Program {
        name: "search",
        variable: "ENGINE_SEARCH",
        default: "target/host/search",
        oracle: front::search::run,
        fresh: fresh_search,
        describe: |_| String::new(),
    },
    Program {
        name: "join",
        variable: "ENGINE_JOIN",
        default: "target/host/join",
        oracle: front::join::run,
        fresh: |rng| (0..20).map(|_| joins::random(rng)).collect(),
        describe: |_| String::new(),
    },
    Program {
        name: "history",
        variable: "ENGINE_HISTORY",
        default: "target/host/history",
        oracle: front::history::run,
        fresh: |rng| histories::random(rng.next(), 60 + rng.below(300)).records,
        describe: |record| format!("call {}", record[0]),
    },
    Program {
        name: "placement",
        variable: "ENGINE_PLACEMENT",
        default: "target/host/placement",
        oracle: front::placement::run,
        fresh: |rng| placements::random(rng.next(), 40 + rng.below(200)).records,
        describe: |record| format!("call {}", record[0]),
    },
    Program {
        name: "losses",
        variable: "ENGINE_LOSSES",
        default: "target/host/losses",
        oracle: front::losses::run,
        fresh: |rng| losses::random(rng.next(), 40 + rng.below(200)).records,
        describe: |record| format!("call {}", record[0]),
    },
    Program {
        name: "decode",
        variable: "ENGINE_DECODE",
        default: "target/host/decode",
        oracle: front::decode::run,
        fresh: fresh_decode,
        describe: |record| describe_message(&record[2..]),
    },
    Program {
        name: "roots",
        variable: "ENGINE_ROOTS",
        default: "target/host/roots",
        oracle: floats::programs::roots,
        fresh: fresh_roots,
        describe: |_| String::new(),
    },
    Program {
        name: "order",
        variable: "ENGINE_ORDER",
        default: "target/host/order",
        oracle: floats::programs::order,
        fresh: fresh_order,
        describe: |_| String::new(),
    },
    Program {
        name: "shardof",
        variable: "ENGINE_SHARDOF",
        default: "target/host/shardof",
        oracle: front::shardof::run,
        fresh: fresh_shardof,
        describe: |_| String::new(),
    },
];

fn fresh_replay(rng: &mut Rng) -> Vec<Vec<u8>> {
    let events = 50 + rng.below(500);
    let shape = match rng.below(20) {
        0 => dome::FULL,
        1..10 => dome::TAME,
        _ => dome::WILD,
    };
    let stream = dome::run(rng.next(), events, shape);
    let bytes = |record: &Record| {
        let mut out = Vec::new();
        record.write(&mut out);
        out
    };
    stream.records.iter().map(bytes).collect()
}

fn fresh_applymap(rng: &mut Rng) -> Vec<Vec<u8>> {
    let count = 50 + rng.below(500);
    match rng.once_in(2) {
        true => maps::random(rng.next(), count).records,
        false => maps::crowded(rng.next(), count).records,
    }
}

fn fresh_search(rng: &mut Rng) -> Vec<Vec<u8>> {
    (0..20).map(|_| searches::random(rng, false)).collect()
}

fn fresh_decode(rng: &mut Rng) -> Vec<Vec<u8>> {
    let mut record = || {
        let whole = damage::random(rng);
        let bytes = match rng.once_in(4) {
            true => whole,
            false => damage::damaged(rng, &whole),
        };
        damage::input(&[bytes])
    };
    (0..300).map(|_| record()).collect()
}

/// Patterns from +0 to the largest finite one, a quarter of them subnormal.
fn fresh_roots(rng: &mut Rng) -> Vec<Vec<u8>> {
    let mut pattern = || match rng.once_in(4) {
        true => rng.next() as u32 % 0x0080_0000,
        false => rng.next() as u32 % 0x7f80_0000,
    };
    (0..2000)
        .map(|_| pattern().to_le_bytes().to_vec())
        .collect()
}

/// Pairs without a NaN, half of them neighbours or the same but for the sign.
fn fresh_order(rng: &mut Rng) -> Vec<Vec<u8>> {
    let any = |rng: &mut Rng| rng.next() as u32 % 0x7f80_0001 | (rng.next() as u32 & 1) << 31;
    let mut pair = || {
        let a = any(rng);
        let b = match rng.below(6) {
            0 => a,
            1 => a ^ 1 << 31,
            2 if a % (1 << 31) < 0x7f80_0000 => a + 1,
            _ => any(rng),
        };
        [a.to_le_bytes(), b.to_le_bytes()].concat()
    };
    (0..2000).map(|_| pair()).collect()
}

fn fresh_shardof(rng: &mut Rng) -> Vec<Vec<u8>> {
    let mut record = || {
        let mut out = rng.corner().to_le_bytes().to_vec();
        out.extend((rng.corner() as u32).to_le_bytes());
        out
    };
    (0..500).map(|_| record()).collect()
}

fn describe_call(record: &[u8]) -> String {
    let Some((record, _)) = Record::read(record) else {
        return "ends the program".into();
    };
    let name = stream::NAMES[usize::from(record.call)];
    let message = wire::read(&record.operands);
    let line = message.map_or(String::new(), |m| format!(": {}", wire::line(&m)));
    format!("{name} at node {}, now {}{line}", record.node, record.now)
}

fn describe_message(bytes: &[u8]) -> String {
    wire::read(bytes).map_or("undecodable".into(), |m| wire::line(&m))
}

/// What the engine prints; a program that fails adds its end.
fn engine(command: &str, input: &[u8]) -> String {
    let mut words = command.split_whitespace();
    let mut child = Command::new(words.next().expect("a command"))
        .args(words)
        .stdin(Stdio::piped())
        .stdout(Stdio::piped())
        .spawn()
        .expect("the engine's program starts");
    let mut pipe = child.stdin.take().expect("a pipe");
    let input = input.to_vec();
    let feeder = std::thread::spawn(move || {
        // A program that ends early closes its end.
        let _ = pipe.write_all(&input);
    });
    let output = child.wait_with_output().expect("it ends");
    feeder.join().expect("written");
    let mut text = String::from_utf8_lossy(&output.stdout).into_owned();
    if !output.status.success() {
        text.push_str(&format!("({})\n", output.status));
    }
    text
}

fn differ(program: &Program, command: &str, records: &[Vec<u8>]) -> bool {
    let input = records.concat();
    engine(command, &input) != (program.oracle)(&input)
}

/// Drops records as long as the difference stays: halves first, then single ones.
fn shrink(program: &Program, command: &str, mut records: Vec<Vec<u8>>) -> Vec<Vec<u8>> {
    let mut size = records.len().div_ceil(2);
    while size > 0 {
        let mut dropped = false;
        let mut start = 0;
        while start < records.len() {
            let end = (start + size).min(records.len());
            let fewer = [&records[..start], &records[end..]].concat();
            if differ(program, command, &fewer) {
                records = fewer;
                dropped = true;
            } else {
                start = end;
            }
        }
        if size > 1 {
            size = size.div_ceil(2);
        } else if !dropped {
            size = 0;
        }
    }
    records
}

fn report(program: &Program, command: &str, records: &[Vec<u8>]) {
    let input = records.concat();
    println!("{}: {} records differ:", program.name, records.len());
    for record in records {
        let hex: String = record.iter().map(|b| format!("{b:02x}")).collect();
        println!("  {}\n    {hex}", (program.describe)(record));
    }
    let (theirs, ours) = (engine(command, &input), (program.oracle)(&input));
    let same = theirs
        .lines()
        .zip(ours.lines())
        .take_while(|(a, b)| a == b)
        .count();
    let line = |text: &str| text.lines().nth(same).unwrap_or("(no line)").to_string();
    println!("line {}:", same + 1);
    println!("  engine: {}\n  oracle: {}", line(&theirs), line(&ours));
    let file = "target/oracle/difference.in";
    std::fs::write(file, input).expect("a file");
    println!("the input is in {file}");
}

fn main() -> ExitCode {
    front::quiet();
    let arguments: Vec<u64> = std::env::args()
        .skip(1)
        .map(|a| a.parse().expect("a number"))
        .collect();
    let [seconds, seed] = arguments.as_slice() else {
        panic!("differential SECONDS SEED");
    };
    let there: Vec<(&Program, String)> = PROGRAMS.iter().filter_map(found).collect();
    if there.len() < PROGRAMS.len() {
        return ExitCode::FAILURE;
    }
    let end = Instant::now() + Duration::from_secs(*seconds);
    let mut rng = Rng::new(*seed);
    let mut runs = 0;
    while Instant::now() < end {
        for (program, command) in &there {
            let records = (program.fresh)(&mut rng);
            if differ(program, command, &records) {
                let shortest = shrink(program, command, records);
                report(program, command, &shortest);
                return ExitCode::FAILURE;
            }
            runs += 1;
        }
    }
    let names: Vec<&str> = there.iter().map(|(p, _)| p.name).collect();
    println!(
        "{runs} runs of {} with seed {seed}: no difference",
        names.join(", ")
    );
    ExitCode::SUCCESS
}

/// A file, or a command on the path.
fn is_there(word: &str) -> bool {
    let folders = std::env::var_os("PATH").unwrap_or_default();
    let on_path = || std::env::split_paths(&folders).any(|f| f.join(word).is_file());
    std::path::Path::new(word).is_file() || (!word.contains('/') && on_path())
}

fn found(program: &Program) -> Option<(&Program, String)> {
    let command = std::env::var(program.variable).unwrap_or(program.default.into());
    if command.split_whitespace().next().is_some_and(is_there) {
        return Some((program, command));
    }
    eprintln!(
        "differential: {} is not at {command} (set {})",
        program.name, program.variable
    );
    None
}
