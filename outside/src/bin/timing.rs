//! timing: the proved monitor beside this implementation, on the same calls in one run.
//!
//! Each row is the best of many rounds of each, taken in turn: nanoseconds a call and their ratio. Three kinds of states: empty (no link
//! ever), mixed (a random history) and 32 links (all places taken, and stay so).

use outside::drill;
use outside::generator::{self, Rng};
use outside::kinds::KINDS;
use outside::lent;
use outside::monitor::{self as plain, Monitor, LINKS};
use outside::words;
use std::fs::{self, File};
use std::hint::black_box;
use std::path::Path;
use std::process::{Command, Stdio};
use std::time::{Duration, Instant};

type Calls = Vec<[u32; 6]>;

const CALLS: usize = 100_000;

/// A workload: the calls that make the state, and those that are timed on it.
struct Load {
    name: &'static str,
    before: Calls,
    calls: Calls,
}

fn mixed(calls: usize) -> Calls {
    let mut list = Vec::with_capacity(calls);
    generator::random(1, calls as u64, &mut |_, call, _| list.push(call));
    list
}

/// Random kinds and arguments that make no link.
fn empty(calls: usize) -> Calls {
    let mut rng = Rng::new(2);
    let kinds = KINDS.iter().map(|row| row.number);
    let kinds: Vec<u32> = kinds.filter(|kind| !matches!(kind, 12 | 13)).collect();
    (0..calls)
        .map(|n| {
            let kind = rng.pick(&kinds);
            let (party, a, b) = (rng.below(16), rng.below(9), rng.below(3));
            // Rights stay full.
            let [b, c] = if kind == 23 { [u32::MAX; 2] } else { [b, 7] };
            [n as u32, party, kind, a, b, c]
        })
        .collect()
}

/// Ten conversations of party 0's at work, 22 requests of its that wait.
fn full_before() -> Calls {
    let mut list = vec![[0, 0, 1, 0, 0, 0]];
    for party in 1..=10 {
        list.push([0, party, 1, 0, 0, 0]);
        list.push([0, party, 10, 1, 0, 0]);
        list.push([0, 0, 13, 1, 4, 7]);
        list.push([0, party, 14, 0, 0, 0]);
    }
    list.extend([[0, 0, 12, 1, 0, 7]; 22]);
    list
}

/// Sends with their receives, and calls that are answered or refused without another link.
fn full(calls: usize) -> Calls {
    let mut rng = Rng::new(3);
    let mut list = Vec::with_capacity(calls);
    while list.len() + 2 <= calls {
        let link = 1 + rng.below(10);
        match rng.below(6) {
            0 => list.extend([[9, 0, 17, link, 0, 7], [9, link, 18, link, 0, 0]]),
            1 => list.push([9, 0, 15, 11 + rng.below(22), rng.below(2), 0]),
            2 => list.push([9, 0, 12, 1, 0, 7]),
            3 => list.push([9, link, 6, 0, 0, 0]),
            4 => list.push([9, 0, 18, link, 0, 0]),
            _ => list.push([9, 11 + rng.below(5), 14, 0, 0, 0]),
        }
    }
    list
}

fn loads() -> [Load; 3] {
    [
        Load {
            name: "empty",
            before: vec![],
            calls: empty(CALLS),
        },
        Load {
            name: "mixed",
            before: vec![],
            calls: mixed(CALLS),
        },
        Load {
            name: "32 links",
            before: full_before(),
            calls: full(CALLS),
        },
    ]
}

fn after(calls: &[[u32; 6]]) -> Monitor {
    let mut m = Monitor::fresh();
    for &call in calls {
        plain::step(&mut m, call);
    }
    m
}

/// The least time of some rounds of each, taken in turn, in nanoseconds for each of `of`.
fn best(rounds: usize, of: usize, mut proved: impl FnMut(), mut plain: impl FnMut()) -> [f64; 2] {
    let time = |round: &mut dyn FnMut()| {
        let start = Instant::now();
        round();
        start.elapsed().as_nanos() as f64 / of as f64
    };
    let mut least = [f64::INFINITY; 2];
    for _ in 0..rounds {
        least[0] = least[0].min(time(&mut proved));
        least[1] = least[1].min(time(&mut plain));
    }
    least
}

fn row(what: &str, name: &str, [proved, plain]: [f64; 2]) {
    println!(
        "| {what} | {name} | {proved:.1} | {plain:.1} | {:.2} |",
        proved / plain
    );
}

fn list(load: &Load, rounds: usize) -> [f64; 2] {
    let start = after(&load.before);
    let lent = words::record(&start);
    let calls = load.calls.as_flattened();
    let mut ours = vec![0i64; calls.len()];
    let mut theirs = ours.clone();
    let times = best(
        rounds,
        load.calls.len(),
        || {
            let mut m = lent;
            assert_eq!(lent::run(&mut m, black_box(calls), &mut ours), 0);
            black_box(&m);
        },
        || {
            let mut m = start.clone();
            assert_eq!(plain::run_list(&mut m, black_box(calls), &mut theirs), 0);
            black_box(&m);
        },
    );
    assert_eq!(ours, theirs);
    times
}

fn single(load: &Load) -> [f64; 2] {
    let start = after(&load.before);
    let lent = words::record(&start);
    best(
        60,
        load.calls.len(),
        || {
            let mut m = lent;
            for &call in &load.calls {
                black_box(lent::step(&mut m, black_box(call)));
            }
        },
        || {
            let mut m = start.clone();
            for &call in &load.calls {
                black_box(plain::step(&mut m, black_box(call)));
            }
        },
    )
}

/// Records of a load: its first, or a hundred along a history.
fn states(load: &Load) -> Vec<Monitor> {
    let mut m = after(&load.before);
    let mut kept = vec![];
    for (n, &call) in load.calls.iter().enumerate() {
        if n.is_multiple_of(CALLS / 100) {
            kept.push(m.clone());
        }
        plain::step(&mut m, call);
    }
    kept
}

fn soundness(load: &Load) -> [f64; 2] {
    let theirs = states(load);
    let ours: Vec<words::Monitor> = theirs.iter().map(words::record).collect();
    const TIMES: usize = 200;
    best(
        60,
        theirs.len() * TIMES,
        || {
            for _ in 0..TIMES {
                for m in &ours {
                    assert!(lent::is_sound(black_box(m)));
                }
            }
        },
        || {
            for _ in 0..TIMES {
                for m in &theirs {
                    assert!(black_box(m).is_sound());
                }
            }
        },
    )
}

/// A drill file in memory, answered into a list of places; here read as a whole, then run as one list.
fn from_memory(load: &Load) -> [f64; 2] {
    let mut bytes = vec![];
    for call in load.before.iter().chain(&load.calls) {
        drill::push_call(call, &mut bytes);
    }
    let calls = load.before.len() + load.calls.len();
    let mut ours = vec![0i64; 6 * calls];
    let mut theirs = ours.clone();
    let times = best(
        60,
        calls,
        || {
            let mut m = words::Monitor::fresh();
            let passed = lent::file(&mut m, black_box(&bytes), &mut ours);
            assert_eq!((passed.code, passed.calls), (0, calls));
        },
        || {
            let mut m = Monitor::fresh();
            let (list, refusal) = drill::read_calls(black_box(&bytes));
            assert_eq!(refusal, None);
            assert_eq!(plain::run_list(&mut m, list.as_flattened(), &mut theirs), 0);
        },
    );
    assert_eq!(ours, theirs);
    times
}

/// Runs a program on a file; its time, and the most memory that it was seen to have, in KiB.
fn run(program: &Path, file: &Path) -> (Duration, u64) {
    let start = Instant::now();
    let mut child = Command::new(program)
        .stdin(File::open(file).expect("the file is there"))
        .stdout(Stdio::null())
        .spawn()
        .expect("the program is there");
    let status = format!("/proc/{}/status", child.id());
    let mut most = 0;
    while child.try_wait().expect("it can be waited for").is_none() {
        let text = fs::read_to_string(&status).unwrap_or_default();
        let seen = text.lines().find_map(|line| line.strip_prefix("VmHWM:"));
        let seen = seen.and_then(|line| line.trim().trim_end_matches(" kB").parse().ok());
        most = most.max(seen.unwrap_or(0));
        std::thread::sleep(Duration::from_millis(1));
    }
    (start.elapsed(), most)
}

fn program(calls: usize) -> ([f64; 2], u64) {
    let here = Path::new(env!("CARGO_MANIFEST_DIR"));
    let file = here.join("target/timing-calls");
    let mut bytes = vec![];
    let mut seeds = 0;
    let mut left = calls;
    while left > 0 {
        seeds += 1;
        let part = left.min(CALLS);
        generator::random(seeds, part as u64, &mut |_, call, _| {
            drill::push_call(&call, &mut bytes)
        });
        left -= part;
    }
    fs::write(&file, bytes).expect("a file can be written");
    let proved = here.join("../target/bin/drill");
    let plain = here.join("target/release/drill");
    let mut most = 0;
    let times = best(
        15,
        calls,
        || most = most.max(run(&proved, &file).1),
        || {
            run(&plain, &file);
        },
    );
    fs::remove_file(&file).expect("the file is there");
    (times, most)
}

fn main() {
    println!("| what | state | proved, ns | Rust, ns | ratio |");
    println!("|---|---|---|---|---|");
    let loads = loads();
    for load in &loads {
        row("a call of a list of 100,000", load.name, list(load, 60));
    }
    for load in &loads {
        row("a single lent call", load.name, single(load));
    }
    for load in &loads {
        row("soundness alone", load.name, soundness(load));
    }
    for load in &loads {
        row(
            "a call of a drill file in memory",
            load.name,
            from_memory(load),
        );
    }
    let (times, memory) = program(400_000);
    row("a call of the program, 400,000", "mixed", times);
    let (times, more) = program(4_000_000);
    row("a call of the program, 4,000,000", "mixed", times);
    println!(
        "| the program's memory, KiB | 400,000 and 4,000,000 calls | {memory} and {more} | | |"
    );
    for (calls, rounds) in [(100_000, 60), (10_000_000, 5)] {
        let load = Load {
            name: "32 links",
            before: full_before(),
            calls: full(calls),
        };
        row(
            &format!("a call of a list of {calls}"),
            load.name,
            list(&load, rounds),
        );
    }
    assert!(after(&loads[2].before).link_count == LINKS);
}
