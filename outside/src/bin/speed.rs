//! speed SEED COUNT: nanoseconds a call, singly and as lent lists, on random
//! histories of 2,000 calls from fresh monitors.

use outside::generator;
use outside::monitor::{run_list, step, Monitor};
use std::hint::black_box;
use std::process::ExitCode;
use std::time::Instant;

const HISTORY: usize = 2000;

fn main() -> ExitCode {
    let words: Vec<u64> = std::env::args()
        .skip(1)
        .filter_map(|word| word.parse().ok())
        .collect();
    let [seed, count] = words[..] else {
        eprintln!("speed SEED COUNT");
        return ExitCode::FAILURE;
    };
    let mut calls: Vec<[u32; 6]> = Vec::new();
    for n in 0..count.div_ceil(HISTORY as u64) {
        generator::random(seed.wrapping_add(n), HISTORY as u64, &mut |_, call, _| {
            calls.push(call)
        });
    }
    let per_call = |start: Instant| start.elapsed().as_nanos() as f64 / calls.len().max(1) as f64;

    let start = Instant::now();
    for history in calls.chunks(HISTORY) {
        let mut monitor = Monitor::fresh();
        for &call in history {
            black_box(step(&mut monitor, black_box(call)));
        }
    }
    println!("step: {:.1} ns a call", per_call(start));

    let mut answers = vec![0i64; 6 * HISTORY];
    let start = Instant::now();
    for history in calls.chunks(HISTORY) {
        let mut monitor = Monitor::fresh();
        run_list(
            &mut monitor,
            black_box(history.as_flattened()),
            &mut answers,
        );
        black_box(&answers);
    }
    println!("list: {:.1} ns a call", per_call(start));
    ExitCode::SUCCESS
}
