//! The stored lists: what each is made of, with its seed.

use front::replay::{Record, call};

use crate::stream::{Stream, Tally};
use crate::{
    damage, dome, histories, joins, losses, maps, patterns, placements, rng::Rng, scripts, searches,
};

/// One stored input with its answers.
pub struct List {
    /// The folder, which is the program's name.
    pub program: &'static str,
    pub name: String,
    pub input: Vec<u8>,
    pub output: String,
    pub tally: Tally,
}

/// Every stored list.
pub fn all() -> Vec<List> {
    let mut all = applymap();
    all.push(streams(&all));
    all.extend(loadsheet());
    all.extend(search());
    all.extend(history());
    all.extend(join());
    all.extend(placement());
    all.extend(lost());
    all.extend(decode());
    all.extend(replay());
    all.extend(float_patterns());
    all.push(list("shardof", "all", ids(6), front::shardof::run));
    all
}

/// Ids and counts of shards: few, none, the largest, any.
fn ids(seed: u64) -> Vec<u8> {
    let mut rng = Rng::new(seed);
    let mut out = Vec::new();
    for n in 0..300 {
        let id = if n < 20 { n } else { rng.corner() };
        let shards = match rng.below(4) {
            0 => rng.below(3) as u32,
            1 => 64,
            2 => u32::MAX - rng.below(2) as u32,
            _ => rng.next() as u32,
        };
        out.extend(id.to_le_bytes());
        out.extend(shards.to_le_bytes());
    }
    out
}

fn list(program: &'static str, name: &str, input: Vec<u8>, run: fn(&[u8]) -> String) -> List {
    let output = run(&input);
    List {
        program,
        name: name.into(),
        input,
        output,
        tally: Tally::new(),
    }
}

/// The paper's example: a node registered, the same again, marked dead.
fn paper() -> maps::Requests {
    let mut r = maps::Requests::default();
    let register = || wire::Command::Register {
        node: 1,
        address: vec![],
        incarnation: 4,
    };
    let dead = wire::Command::MarkNodeDead {
        node: 1,
        incarnation: 4,
    };
    for (n, command) in [register(), register(), dead].into_iter().enumerate() {
        r.put(wire::Request {
            index: 5 + n as u64,
            client: 9,
            seq: 1 + n as u64,
            command,
        });
    }
    r
}

fn applymap() -> Vec<List> {
    let run = front::applymap::run;
    let from = |name: &str, r: maps::Requests| List {
        tally: r.tally,
        ..list("applymap", name, r.input, run)
    };
    let mut all = vec![
        from("paper", paper()),
        from("limits", maps::limits()),
        from("two-faults", maps::two_faults()),
        from("repeats", maps::repeats()),
    ];
    for seed in 1..=3 {
        all.push(from(&format!("random-{seed}"), maps::random(seed, 200)));
    }
    // What ends the program: nothing at all, a request cut short, a message of another kind, a
    // name with an unused byte that is not zero.
    let whole = paper().input;
    let mut unclean = whole.clone();
    unclean[35 + 63] = 1;
    let gap = wire::write(&wire::Message::Gap(1));
    for (name, input) in [
        ("empty", vec![]),
        ("cut", whole[..whole.len() - 1].to_vec()),
        ("other-kind", [whole.clone(), gap, whole.clone()].concat()),
        ("unclean", unclean),
    ] {
        all.push(list("applymap", name, input, run));
    }
    all
}

/// The lists of `applymap` one after another, with the map that each leads to; then requests after
/// which every reason is remembered of some client.
fn streams(lists: &[List]) -> List {
    let applied = |r: &Record| r.call == call::APPLY;
    let remembered = scripts::sessions().records.into_iter().filter(applied);
    let remembered: Vec<u8> = remembered.flat_map(|r| r.operands).collect();
    let inputs = lists.iter().map(|list| &list.input);
    let records = inputs
        .chain([&remembered])
        .flat_map(|i| front::streams::record(i));
    list("streams", "all", records.collect(), front::streams::run)
}

/// The load sheet: each case of its own, full maps, and what ends the reading.
fn loadsheet() -> Vec<List> {
    use maps::sheets;
    let whole = sheets::known_later().input;
    let mut inputs = vec![
        ("ids", sheets::ids().input),
        ("repeated", sheets::repeated().input),
        ("unknown", sheets::unknown().input),
        ("known-later", whole.clone()),
        ("removed", sheets::removed().input),
        ("lives", sheets::lives().input),
        ("full", sheets::full().input),
        ("clients", sheets::clients().input),
        ("random", maps::random(4, 300).input),
        ("crowded", maps::crowded(5, 200).input),
        ("empty", vec![]),
        ("garbage", [vec![0x7f], whole.clone()].concat()),
    ];
    inputs.push(("cut", whole[..whole.len() - 1].to_vec()));
    let run = front::loadsheet::run;
    let list = |(name, input)| list("loadsheet", name, input, run);
    inputs.into_iter().map(list).collect()
}

fn search() -> Vec<List> {
    let mut rng = Rng::new(7);
    let random: Vec<u8> = (0..160)
        .flat_map(|_| searches::random(&mut rng, true))
        .collect();
    let run = front::search::run;
    vec![
        list("search", "chosen", searches::chosen().concat(), run),
        list("search", "random", random, run),
        list(
            "search",
            "orders",
            searches::orders().concat().concat(),
            run,
        ),
    ]
}

fn join() -> Vec<List> {
    let run = front::join::run;
    // the answers are the Rust's own, of one search over all vectors
    let (input, output) = joins::collections(8, 40);
    let mut whole = list("join", "whole", input, run);
    assert_eq!(
        whole.output, output,
        "the second reading of 2.2 joins to one search"
    );
    whole.output = output;
    vec![
        whole,
        list("join", "chosen", joins::chosen(), run),
        list("join", "full", joins::full(), run),
    ]
}

fn history() -> Vec<List> {
    let from = |name: &str, made: histories::Made| {
        let input = made.records.concat();
        list("history", name, input, front::history::run)
    };
    let mut all = vec![
        from("chosen", histories::chosen()),
        from("full", histories::full()),
        from("orders", histories::orders_shown()),
    ];
    for seed in 1..=3 {
        all.push(from(
            &format!("random-{seed}"),
            histories::random(seed, 120),
        ));
    }
    all
}

fn placement() -> Vec<List> {
    let from = |name: &str, made: placements::Made| {
        let input = made.records.concat();
        list("placement", name, input, front::placement::run)
    };
    let mut all = vec![from("chosen", placements::chosen())];
    for seed in 1..=2 {
        all.push(from(
            &format!("random-{seed}"),
            placements::random(seed, 120),
        ));
    }
    all.push(from("counts", placements::counts()));
    all
}

fn lost() -> Vec<List> {
    let from = |name: &str, made: losses::Made| {
        let input = made.records.concat();
        list("losses", name, input, front::losses::run)
    };
    vec![
        from("chosen", losses::chosen()),
        from("random-1", losses::random(1, 120)),
        from("random-2", losses::random(2, 120)),
    ]
}

fn decode() -> Vec<List> {
    let run = front::decode::run;
    vec![
        list("decode", "kinds", damage::input(&damage::stored(5)), run),
        list("decode", "long", damage::input(&damage::long()), run),
    ]
}

fn replay() -> Vec<List> {
    let from = |name: &str, stream: Stream| List {
        program: "replay",
        name: name.into(),
        input: stream.input(),
        output: stream.output(),
        tally: stream.tally,
    };
    let mut all = vec![
        from("starred", scripts::starred()),
        from("settled", scripts::settled()),
        from("lone-entry", scripts::lone_entry()),
        from("late-alignment", scripts::late_alignment()),
        from("caught-up", scripts::caught_up_during_shrink()),
        from("lost-expand", scripts::lost_expand()),
        from("sessions", scripts::sessions()),
        from("replies", scripts::replies()),
        from("two-faults", scripts::two_faults()),
        from("full-log", scripts::full_log()),
        from("nine-shards", scripts::nine_shards()),
        from("many-workers", scripts::many_workers()),
    ];
    for seed in 1..=3 {
        let run = dome::run(seed, 260, dome::TAME);
        all.push(from(&format!("tame-{seed}"), run));
    }
    for seed in 11..=17 {
        let run = dome::run(seed, 200, dome::WILD);
        all.push(from(&format!("wild-{seed}"), run));
    }
    // A record cut short, an unknown call and a node above 8 end the program with no line.
    for (name, tail) in [
        ("ends-cut", vec![14, 1, 0, 0]),
        (
            "ends-call",
            [vec![18], vec![0; 11], node_record(1)].concat(),
        ),
        ("ends-node", [node_record(9), node_record(1)].concat()),
    ] {
        let mut input = node_record(1);
        input.extend(tail);
        all.push(list("replay", name, input, front::replay::run));
    }
    all
}

fn node_record(node: u8) -> Vec<u8> {
    let mut record = vec![14, node];
    record.extend([0; 10]);
    record
}

fn float_patterns() -> Vec<List> {
    use ::floats::programs;
    let roots = patterns::root_input(&patterns::for_roots(3));
    let order = patterns::order_input(&patterns::for_order(4));
    let nans = patterns::order_input(&patterns::for_order_of_nans());
    let classes = patterns::order_input(&patterns::for_order_of_classes());
    vec![
        list("roots", "all", roots, programs::roots),
        list("order", "finite", order, programs::order),
        list("order", "nan", nans, programs::order),
        list("order", "classes", classes, programs::order),
    ]
}
