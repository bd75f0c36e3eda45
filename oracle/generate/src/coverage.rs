//! Which answers occur how often, and which cannot occur and why.

use std::collections::BTreeMap;
use std::fmt::Write;

use crate::stream::Tally;
use crate::{dome, lists, maps};

/// Reasons and refusals that each command must come to, besides `applied` and `rejected 1`.
const COMMANDS: [(&str, &[&str]); 10] = [
    (
        "Create",
        &[
            "rejected 2",
            "rejected 3",
            "rejected 4",
            "rejected 5",
            "refused 23",
        ],
    ),
    ("Drop", &["rejected 6"]),
    ("Register", &["rejected 7", "refused 23"]),
    ("MarkNodeDead", &["rejected 8"]),
    (
        "Add",
        &["rejected 9", "rejected 10", "rejected 11", "refused 23"],
    ),
    (
        "Remove",
        &["rejected 9", "rejected 10", "rejected 12", "rejected 13"],
    ),
    ("Promote", &["rejected 9", "rejected 10", "rejected 14"]),
    (
        "Shrink",
        &["rejected 9", "rejected 10", "rejected 14", "rejected 15"],
    ),
    (
        "Expand",
        &["rejected 9", "rejected 10", "rejected 13", "rejected 16"],
    ),
    ("Bench", &["refused 23"]),
];

/// Answers that each call must come to.
const CALLS: [(&str, &[&str]); 17] = [
    ("make", &["ok", "none", "refused 21"]),
    ("apply", &["refused 21"]),
    (
        "map shown",
        &["shown", "shown, with lines", "refused 21", "refused 23"],
    ),
    ("lease grant", &["ok", "refused 21"]),
    (
        "Write",
        &[
            "accepted",
            "refused 17",
            "refused 18",
            "refused 19",
            "refused 20",
            "refused 21",
            "refused 22",
            "refused 23",
        ],
    ),
    (
        "Search",
        &[
            "found",
            "found, with lines",
            "refused 17",
            "refused 18",
            "refused 19",
            "refused 21",
            "refused 22",
            "refused 23",
        ],
    ),
    (
        "Replicate",
        &[
            "stored",
            "gap",
            "stale",
            "refused 21",
            "refused 22",
            "refused 23",
        ],
    ),
    (
        "NewEpoch",
        &["adopted", "stale", "refused 21", "refused 23"],
    ),
    (
        "CopyShard",
        &["stored", "stale", "refused 21", "refused 22", "refused 23"],
    ),
    (
        "wait",
        &[
            "done",
            "done, with lines",
            "waiting",
            "waiting, with lines",
            "refused 17",
            "refused 18",
            "refused 21",
        ],
    ),
    (
        "step",
        &["wait", "stop", "align", "replicate", "copy", "refused 21"],
    ),
    ("ack", &["ok", "expand", "refused 21", "refused 26"]),
    ("outcome", &["ok", "refused 21"]),
    ("held", &["none", "backup", "primary", "refused 21"]),
    ("node", &["node", "none", "refused 21"]),
    ("map", &["version", "refused 21"]),
    (
        "place",
        &[
            "none",
            "placed",
            "placed, with lines",
            "refused 21",
            "refused 23",
        ],
    ),
];

const CANNOT: [(&str, &str); 6] = [
    (
        "24 in any call",
        "the programs lend no state but their own, which stays well formed",
    ),
    ("22 in apply, NewEpoch or an ack", "these carry no vector"),
    (
        "25 in Promote",
        "an epoch begins at 1 and rises by one, so no stream comes to 2^64 - 1",
    ),
    (
        "23 of Drop, MarkNodeDead, Remove, Promote, Shrink or Expand for their own limit",
        "they add nothing; a 65th client is refused before the command is looked at",
    ),
    (
        "9 or 10 of Create, Drop, Register or MarkNodeDead",
        "these name no shard",
    ),
    (
        "`none` of a call on the map",
        "the node byte is not looked at there",
    ),
];

/// Every row that must occur.
pub fn rows() -> Vec<String> {
    let mut rows = Vec::new();
    for (command, reasons) in COMMANDS {
        let always = ["applied", "rejected 1"];
        let all = always.iter().chain(reasons);
        rows.extend(all.map(|r| format!("apply {command}: {r}")));
    }
    rows.push("apply with an equal seq: applied".into());
    for reason in 2..=16 {
        rows.push(format!("apply with an equal seq: rejected {reason}"));
    }
    for (call, answers) in CALLS {
        rows.extend(answers.iter().map(|a| format!("{call}: {a}")));
    }
    for answer in ["node", "none", "refused 21"] {
        rows.push(format!("replacement: {answer}"));
    }
    rows
}

fn merge(into: &mut Tally, from: Tally) {
    for (row, count) in from {
        *into.entry(row).or_default() += count;
    }
}

/// Counts over the stored lists.
pub fn stored() -> Tally {
    let mut tally = Tally::new();
    lists::all()
        .into_iter()
        .for_each(|l| merge(&mut tally, l.tally));
    tally
}

/// Counts over `runs` fresh runs of each kind.
pub fn fresh(runs: u64) -> Tally {
    let mut tally = Tally::new();
    for seed in 0..runs {
        merge(&mut tally, maps::random(1_000_000 + seed, 300).tally);
        merge(&mut tally, maps::crowded(2_000_000 + seed, 300).tally);
        merge(
            &mut tally,
            dome::run(3_000_000 + seed, 300, dome::TAME).tally,
        );
        merge(
            &mut tally,
            dome::run(4_000_000 + seed, 300, dome::WILD).tally,
        );
        if seed % 20 == 0 {
            merge(
                &mut tally,
                dome::run(5_000_000 + seed, 300, dome::FULL).tally,
            );
        }
    }
    tally
}

/// The table, and the rows that no stored list comes to.
pub fn table(runs: u64) -> (String, Vec<String>) {
    let (stored, fresh) = (stored(), fresh(runs));
    let mut counts: BTreeMap<String, (u64, u64)> = BTreeMap::new();
    for row in rows() {
        counts.entry(row).or_default();
    }
    stored
        .into_iter()
        .for_each(|(row, n)| counts.entry(row).or_default().0 = n);
    fresh
        .into_iter()
        .for_each(|(row, n)| counts.entry(row).or_default().1 = n);
    let mut out = String::from(
        "# Answers of the oracle, counted\n\nWritten by `make stored`. The second column counts the stored \
         lists of `applymap` and `replay`, the third\n",
    );
    writeln!(
        out,
        "{runs} fresh runs of each kind: requests, requests near the limits, tame and wild runs of a dome (of full ones \
         a twentieth).\n"
    )
    .expect("a string");
    out.push_str("| answer | stored | fresh |\n|---|---:|---:|\n");
    for (row, (stored, fresh)) in &counts {
        writeln!(out, "| {row} | {stored} | {fresh} |").expect("a string");
    }
    out.push_str("\n## What cannot occur in these programs\n\n| answer | why |\n|---|---|\n");
    for (answer, why) in CANNOT {
        writeln!(out, "| {answer} | {why} |").expect("a string");
    }
    let missing = rows().into_iter().filter(|row| counts[row].0 == 0);
    (out, missing.collect())
}
