//! Two ways to do the same thing, timed in turns in one run by the thread's own processor time, so
//! that other work on the machine counts little.

const WARM_UP: usize = 20;
const TURNS: usize = 201;
const TURN: u64 = 400_000;

#[repr(C)]
struct Time {
    seconds: i64,
    nanoseconds: i64,
}

unsafe extern "C" {
    fn clock_gettime(clock: i32, time: *mut Time) -> i32;
}

/// Nanoseconds of processor time that this thread has used.
fn now() -> u64 {
    const THREAD: i32 = 3;
    let mut time = Time {
        seconds: 0,
        nanoseconds: 0,
    };
    assert_eq!(unsafe { clock_gettime(THREAD, &mut time) }, 0);
    time.seconds as u64 * 1_000_000_000 + time.nanoseconds as u64
}

/// What a row of the table says: nanoseconds for one call, and peer over engine.
pub struct Row {
    pub name: String,
    pub engine: f64,
    pub peer: f64,
    pub ratio: [f64; 3],
}

/// How many calls fill a turn.
fn calls(call: &mut dyn FnMut()) -> usize {
    let start = now();
    let mut n = 0;
    while now() - start < TURN {
        call();
        n += 1;
    }
    n.max(1)
}

fn turn(call: &mut dyn FnMut(), calls: usize) -> f64 {
    let start = now();
    for _ in 0..calls {
        call();
    }
    (now() - start) as f64 / calls as f64
}

fn sorted(mut times: Vec<f64>) -> Vec<f64> {
    times.sort_by(f64::total_cmp);
    times
}

/// Engine and peer take turns; medians, and the middle nine tenths of the ratios. `units` is how
/// many of the named things one call does.
pub fn row(name: &str, units: f64, engine: &mut dyn FnMut(), peer: &mut dyn FnMut()) -> Row {
    let (of_engine, of_peer) = (calls(engine), calls(peer));
    let (mut engines, mut peers, mut ratios) = (Vec::new(), Vec::new(), Vec::new());
    for n in 0..WARM_UP + TURNS {
        let (e, p) = (turn(engine, of_engine), turn(peer, of_peer));
        if n >= WARM_UP {
            engines.push(e / units);
            peers.push(p / units);
            ratios.push(p / e);
        }
    }
    let ratios = sorted(ratios);
    let at = |part: usize| ratios[(ratios.len() - 1) * part / 100];
    Row {
        name: name.into(),
        engine: sorted(engines)[TURNS / 2],
        peer: sorted(peers)[TURNS / 2],
        ratio: [at(5), at(50), at(95)],
    }
}

/// One thing alone, nanoseconds a call.
pub fn alone(units: f64, call: &mut dyn FnMut()) -> f64 {
    let n = calls(call);
    let times: Vec<f64> = (0..WARM_UP + TURNS)
        .map(|_| turn(call, n) / units)
        .collect();
    sorted(times[WARM_UP..].to_vec())[TURNS / 2]
}

pub fn head(what: &str) {
    head_beside(what, "Rust");
}

pub fn head_beside(what: &str, peer: &str) {
    println!("\n{what}\n");
    println!("| | engine ns | {peer} ns | ratio | 5% to 95% |\n|---|---|---|---|---|");
}

/// Two decimals, or three where a ratio is small.
fn short(ratio: f64) -> String {
    let decimals = if ratio < 0.1 { 3 } else { 2 };
    format!("{ratio:.decimals$}")
}

pub fn print(row: &Row) {
    let [low, middle, high] = row.ratio.map(short);
    println!(
        "| {} | {:.0} | {:.0} | {middle} | {low} to {high} |",
        row.name, row.engine, row.peer
    );
}
