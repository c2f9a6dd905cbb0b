//! faulty FAULT [SEED [COUNT]]: COUNT random histories, from SEED on, answered
//! with one fault on. Of those on which the history statement fails, a shortest
//! one, made shorter and plainer, is printed as rows for
//! `crates/histories/proofs/Faults.antt`.

use outside::faults::{with, Fault, Run, KIND_NAMES};
use outside::generator::Generator;
use outside::history::{self, Broken, Entry};
use outside::kinds::LAST_KIND;
use std::process::ExitCode;

type Call = [u32; 6];

/// The longest history that is searched.
const LENGTH: usize = 400;
/// A kind that there is not, nor will be soon.
const UNKNOWN_KIND: u32 = 99;
const _: () = assert!(UNKNOWN_KIND > LAST_KIND);
/// How many that fail are made shorter.
const ENOUGH: usize = 100;

/// What the last entry breaks.
fn broken(entries: &[Entry]) -> Option<&'static str> {
    let last = entries.len().checked_sub(1)?;
    let at_work = history::commit(entries, last).is_some_and(|c| c.at_work.is_some());
    match history::check_from(entries, last)? {
        Broken::Sender { .. } => Some("sender"),
        Broken::WronglyCommitted { .. } if at_work => Some("commit and alone"),
        Broken::WronglyCommitted { .. } | Broken::WronglyRolledBack { .. } => Some("commit"),
        Broken::AtWork { .. } => Some("alone"),
        Broken::Refusal { .. }
        | Broken::Rights { .. }
        | Broken::Nothing { .. }
        | Broken::Outcome { .. } => None,
    }
}

/// The calls with their answers.
fn answered(calls: &[Call]) -> Option<Vec<Entry>> {
    let mut run = Run::fresh();
    calls
        .iter()
        .all(|&call| run.call(call))
        .then_some(run.entries)
}

/// Whether the statement fails at the last call, and not before it.
fn fails(calls: &[Call]) -> bool {
    answered(calls).is_some_and(|entries| {
        broken(&entries).is_some() && history::check(&entries[..entries.len() - 1]).is_none()
    })
}

/// Random calls up to the first at which the statement fails.
fn search(seed: u64) -> Option<Vec<Call>> {
    let mut generator = Generator::new(seed);
    let mut run = Run::fresh();
    for _ in 0..LENGTH {
        let mut call = generator.next_call(&run.monitor);
        // Malformed at times, with a later clock.
        let rng = generator.rng();
        match rng.below(60) {
            0 => call[2] = UNKNOWN_KIND,
            1 => call[1] = 16,
            _ => {}
        }
        if call[2] == UNKNOWN_KIND || call[1] == 16 {
            call[0] = call[0].saturating_add(rng.below(8));
        }
        // A call after which the record would be no ground is left out.
        let before = run.clone();
        if !run.call(call) {
            run = before;
            continue;
        }
        if broken(&run.entries).is_some() {
            return Some(run.entries.iter().map(|entry| entry.0).collect());
        }
    }
    None
}

/// The calls without the one at `at`; the numbers of later links fall by one
/// where it made a link.
fn without(calls: &[Call], at: usize) -> Vec<Call> {
    let made = match answered(calls) {
        Some(entries) if matches!(calls[at][2], 12 | 13) && entries[at].1[0] == 0 => {
            entries[at].1[1]
        }
        _ => 0,
    };
    let mut fewer = calls.to_vec();
    fewer.remove(at);
    for call in &mut fewer[at..] {
        if made != 0 && matches!(call[2], 15..=19) && i64::from(call[3]) > made {
            call[3] -= 1;
        }
    }
    fewer
}

/// Without one call, or two.
fn shorter(calls: &[Call]) -> Option<Vec<Call>> {
    let one = (0..calls.len()).rev().map(|at| without(calls, at));
    if let Some(fewer) = one.into_iter().find(|fewer| fails(fewer)) {
        return Some(fewer);
    }
    let pairs = (0..calls.len()).flat_map(|at| (at + 1..calls.len()).map(move |next| (at, next)));
    pairs
        .map(|(at, next)| without(&without(calls, next), at))
        .find(|fewer| fails(fewer))
}

/// With a smaller number, or two numbers smaller by one.
fn smaller(calls: &[Call]) -> Option<Vec<Call>> {
    let places: Vec<(usize, usize)> = (0..calls.len())
        .flat_map(|at| [0, 3, 4, 5].map(|field| (at, field)))
        .filter(|&(at, field)| calls[at][field] > 0)
        .collect();
    let mut tries = Vec::new();
    for &(at, field) in &places {
        for less in 0..calls[at][field].min(20) {
            let mut changed = calls.to_vec();
            changed[at][field] = less;
            tries.push(changed);
        }
        for &(other, another) in places.iter().filter(|&&place| place > (at, field)) {
            let mut changed = calls.to_vec();
            changed[at][field] -= 1;
            changed[other][another] -= 1;
            tries.push(changed);
        }
    }
    tries.into_iter().find(|changed| fails(changed))
}

/// Open, control, timeout and advertise.
fn prepares(call: &Call) -> bool {
    matches!(call[2], 1 | 8 | 9 | 10)
}

/// Parties from 0 and services from 7 on, and what prepares first; each where
/// the statement still fails.
fn tidied(mut calls: Vec<Call>) -> Vec<Call> {
    let mut attempt = |change: &dyn Fn(&mut Vec<Call>)| {
        let mut changed = calls.clone();
        change(&mut changed);
        if fails(&changed) {
            calls = changed;
        }
    };
    let renumber = |calls: &mut Vec<Call>, parties: &[u32]| {
        for call in calls {
            if let Some(new) = parties.iter().position(|&party| party == call[1]) {
                call[1] = new as u32;
            }
        }
    };
    // Parties in their order, then as they come.
    attempt(&|calls| {
        let mut parties: Vec<u32> = calls.iter().map(|call| call[1]).collect();
        parties.retain(|&party| party < 16);
        parties.sort_unstable();
        parties.dedup();
        renumber(calls, &parties);
    });
    attempt(&|calls| {
        let mut parties: Vec<u32> = Vec::new();
        let others = calls.iter().filter(|call| !prepares(call));
        for call in others.chain(calls.iter()) {
            if call[1] < 16 && !parties.contains(&call[1]) {
                parties.push(call[1]);
            }
        }
        renumber(calls, &parties);
    });
    attempt(&|calls| {
        let mut services: Vec<u32> = Vec::new();
        for call in calls.iter_mut().filter(|call| matches!(call[2], 10..=13)) {
            if !services.contains(&call[3]) {
                services.push(call[3]);
            }
            let place = services.iter().position(|&service| service == call[3]);
            call[3] = 7 + place.map_or(0, |place| place as u32);
        }
    });
    attempt(&|calls| {
        calls.sort_by_key(|call| if prepares(call) { call[1] } else { u32::MAX });
    });
    calls
}

/// The row of an entry.
fn row(entry: &Entry) -> String {
    let ([clock, party, kind, a, b, c], [code, value, event, token, service, t]) = entry;
    let kind = match KIND_NAMES.iter().find(|named| named.0 == *kind) {
        Some(named) => named.1.to_string(),
        None => kind.to_string(),
    };
    let code = match code {
        0.. => format!("pos {code}"),
        _ => format!("negsuc {}", -1 - code),
    };
    format!("row {clock} {party} {kind} {a} {b} {c} ({code}) {value} {event} {token} {service} {t}")
}

/// What the found ones break and their entries: one rule alone if there is such
/// a history, the shortest, and of these the one with the smallest numbers.
fn shortest(seed: u64, count: u64) -> Option<(&'static str, Vec<Entry>)> {
    (seed..seed + count)
        .filter_map(search)
        .take(ENOUGH)
        .filter_map(|mut calls| {
            while let Some(next) = shorter(&calls).or_else(|| smaller(&calls)) {
                calls = next;
            }
            let entries = answered(&tidied(calls))?;
            Some((broken(&entries)?, entries))
        })
        .min_by_key(|(rule, entries)| (rule.contains("and"), entries.len(), entries.clone()))
}

fn main() -> ExitCode {
    let words: Vec<String> = std::env::args().skip(1).collect();
    let fault = words
        .first()
        .and_then(|word| Fault::ALL.iter().find(|fault| fault.edit() == *word));
    let number = |at: usize, or| words.get(at).map_or(Some(or), |word| word.parse().ok());
    let (Some(&fault), Some(seed), Some(count)) = (fault, number(1, 1), number(2, 5000)) else {
        eprintln!("faulty FAULT [SEED [COUNT]], with FAULT one of");
        for fault in Fault::ALL {
            eprintln!("  {}", fault.edit());
        }
        return ExitCode::FAILURE;
    };
    with(Some(fault), || {
        let Some((rule, entries)) = shortest(seed, count) else {
            println!(
                "none of {count} histories of up to {LENGTH} calls shows {}",
                fault.edit()
            );
            return;
        };
        println!("-- breaks {rule}");
        println!("abbrev pub {} : List Row", fault.edit());
        println!("{} =", fault.edit());
        let rows: Vec<String> = entries.iter().map(row).collect();
        println!("    {}\n    ∷ []", rows.join("\n    ∷ "));
    });
    ExitCode::SUCCESS
}
