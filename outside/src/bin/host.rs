//! A host of the proved monitor: lends it its record as C does, and holds it to this implementation.
//!
//! Single calls, lists and drill files on random histories: the answers and the whole record, changed in place. Which records are equal
//! and sound, two of a history and two that differ in one word. Damaged records, which are refused and stay.

use outside::drill;
use outside::generator::{self, Rng};
use outside::lent::{equal, file, fresh, is_sound, made, run, step, Passed};
use outside::monitor::{self as plain, LINKS, PARTIES};
use outside::words::{held, record, Link, Monitor, RETURNED, WAITING, WORDS, WORKING};

/// A record in the host's memory, with bytes around it that no call may touch.
struct Lent {
    before: [u8; 256],
    record: Monitor,
    after: [u8; 256],
}

impl Lent {
    fn new(record: Monitor) -> Self {
        Lent {
            before: [0xA5; 256],
            record,
            after: [0x5A; 256],
        }
    }

    fn is(&self, record: &Monitor) {
        assert_eq!(self.record, *record);
        assert_eq!((self.before, self.after), ([0xA5; 256], [0x5A; 256]));
    }
}

/// Each call of a history singly.
fn check_steps(history: impl FnOnce(generator::Give)) -> u64 {
    let mut lent = Lent::new(made());
    let mut calls = 0;
    history(&mut |after, call, answer| {
        let before = lent.record;
        assert_eq!(
            step(&mut lent.record, call),
            answer,
            "{call:?} on {before:?}"
        );
        lent.is(&record(after));
        calls += 1;
    });
    calls
}

/// A history in lists of 0 to 99 calls, with up to 7 places more than answers; before each, lists that are refused.
fn check_lists(seed: u64, length: u64) -> u64 {
    let mut calls: Vec<u32> = Vec::new();
    generator::random(seed, length, &mut |_, call, _| calls.extend(call));
    let mut rng = Rng::new(seed);
    let mut lent = Lent::new(made());
    let mut theirs = plain::Monitor::fresh();
    let mut rest = &calls[..];
    let mut lists = 0;
    while !rest.is_empty() {
        let size = rest.len().min(6 * rng.below(100) as usize);
        let list;
        (list, rest) = rest.split_at(size);
        let before = lent.record;
        let mut answers: Vec<i64> = (0..size + rng.below(8) as usize)
            .map(|n| !(n as i64))
            .collect();
        let places = answers.clone();
        if size > 0 {
            let cut = 1 + rng.below(5) as usize;
            assert_eq!(run(&mut lent.record, &list[cut..], &mut answers), 17);
            assert_eq!(run(&mut lent.record, &list[cut..], &mut []), 17);
            assert_eq!(run(&mut lent.record, list, &mut answers[..size - cut]), 16);
            assert_eq!(answers, places);
            lent.is(&before);
        }
        let mut expected = places;
        let code = plain::run_list(&mut theirs, list, &mut expected);
        assert_eq!(run(&mut lent.record, list, &mut answers), code);
        assert_eq!(answers, expected);
        lent.is(&record(&theirs));
        lists += 1;
    }
    lists
}

/// A history as a drill file: whole, cut, with a bad number behind it, and with too few places.
fn check_file(seed: u64, length: u64) {
    let mut bytes = Vec::new();
    let mut ends = Vec::new();
    let mut expected = Vec::new();
    let mut after = made();
    generator::random(seed, length, &mut |m, call, answer| {
        drill::push_call(&call, &mut bytes);
        ends.push(bytes.len());
        expected.extend(answer);
        after = record(m);
    });
    let calls = ends.len();
    let whole = Passed {
        code: 0,
        calls,
        used: bytes.len(),
    };
    let check = |input: &[u8], code| {
        let mut lent = Lent::new(made());
        let mut answers = vec![-77; 6 * calls + 5];
        let passed = file(&mut lent.record, input, &mut answers);
        assert_eq!(passed, Passed { code, ..whole });
        assert_eq!(answers[..6 * calls], expected);
        assert_eq!(answers[6 * calls..], [-77; 5]);
        lent.is(&after);
        let mut few = vec![-77; 6 * calls - 1];
        let mut lent = Lent::new(after);
        let refused = Passed {
            code: 16,
            calls: 0,
            used: 0,
        };
        assert_eq!(file(&mut lent.record, input, &mut few), refused);
        assert!(few.iter().all(|&place| place == -77));
        lent.is(&after);
    };
    check(&bytes, 0);
    bytes.extend([0, 0, 0x80]);
    check(&bytes, 17);
    bytes.push(0);
    check(&bytes, 18);
}

/// Records of two histories, by turns: which are equal.
fn check_equal(seed: u64, length: u64) -> u64 {
    let mut kept = [const { plain::Monitor::fresh() }; 2];
    let mut pairs = 0;
    generator::random(seed, length, &mut |m, _, _| {
        let here = record(m);
        assert!(is_sound(&here) && equal(&here, &here));
        for other in &kept {
            assert_eq!(equal(&here, &record(other)), plain::equal(m, other));
            pairs += 1;
        }
        kept.swap(0, 1);
        kept[0] = m.clone();
    });
    pairs
}

/// A record with each of its words changed by itself: is it sound, and equal to the one before? A number that this implementation cannot
/// hold is none that its field may have, and the record that has it is not sound.
fn check_words(m: &Monitor) -> u64 {
    let before = held(m).expect("a record of this implementation");
    let mut changes = 0;
    for at in 0..WORDS {
        let mut changed = *m;
        let word = m.words()[at];
        for other in [word ^ 1, word ^ 2, word ^ 8, !word, u32::MAX] {
            changed.words_mut()[at] = other;
            let (sound, same) = held(&changed).map_or((false, false), |after| {
                (after.is_sound(), plain::equal(&before, &after))
            });
            let told = [
                is_sound(&changed),
                equal(&changed, &changed),
                equal(m, &changed),
                equal(&changed, m),
            ];
            assert_eq!(
                told,
                [sound, sound, same, same],
                "word {at}: {other}, {m:?}"
            );
            changes += 1;
        }
    }
    changes
}

/// Every hundredth record of a history.
fn check_changed(seed: u64, length: u64) -> u64 {
    let mut calls = 0u64;
    let mut changes = 0;
    generator::random(seed, length, &mut |m, _, _| {
        if calls.is_multiple_of(100) {
            changes += check_words(&record(m));
        }
        calls += 1;
    });
    changes
}

type Damage = (&'static str, fn(&mut Monitor));

/// The place of the first link in a state.
fn place(m: &Monitor, state: u32) -> usize {
    let live = &m.links[..m.count as usize];
    live.iter()
        .position(|l| l.state == state)
        .expect("there is one")
}

fn returned(m: &mut Monitor) -> &mut Link {
    let n = place(m, RETURNED);
    &mut m.links[n]
}

/// The first working link and the party that serves it.
fn served(m: &Monitor) -> (Link, usize) {
    let l = m.links[place(m, WORKING)];
    (l, l.server as usize)
}

/// Each way that soundness names, for a sound record with a waiting, a working and a returned link and room for another.
const DAMAGES: [Damage; 33] = [
    ("33 links", |m| m.count = 33),
    ("the most links", |m| m.count = u32::MAX),
    ("a number twice", |m| m.links[1].number = m.links[0].number),
    ("numbers that fall", |m| m.links.swap(0, 1)),
    ("number 0", |m| m.links[0].number = 0),
    ("a number past the last", |m| {
        m.links[m.count as usize - 1].number = m.lastlink + 1;
    }),
    ("last link number 60001", |m| m.lastlink = 60_001),
    ("last transaction number 60001", |m| m.lasttx = 60_001),
    ("a fresh link among them", |m| m.count += 1),
    ("originator 16", |m| returned(m).originator = 16),
    ("server 16", |m| returned(m).server = 16),
    ("5 unread", |m| returned(m).filled = 5),
    ("kind 2", |m| returned(m).kind = 2),
    ("attached 2", |m| returned(m).attached = 2),
    ("state 3", |m| returned(m).state = 3),
    ("outcome 1", |m| returned(m).outcome = 1),
    ("outcome 6", |m| returned(m).outcome = 6),
    ("outcome 0 of a returned link", |m| returned(m).outcome = 0),
    ("sender 2", |m| returned(m).sender = 2),
    ("granting 2", |m| returned(m).granting = 2),
    ("disconnected 3", |m| returned(m).disconnected = 3),
    ("opened 2", |m| m.parties[15].opened = 2),
    ("control 2", |m| m.parties[15].control = 2),
    ("rollbackonly 2", |m| m.parties[0].rollbackonly = 2),
    ("report 15", |m| m.parties[0].reports[0] = 15),
    ("report 15 of the last", |m| m.parties[15].reports[3] = 15),
    ("the greatest report", |m| {
        m.parties[7].reports[2] = u32::MAX
    }),
    ("served, no link", |m| m.parties[3].served = m.lastlink + 1),
    ("served, past the last link", |m| {
        let (l, p) = served(m);
        m.links[m.count as usize] = Link {
            number: m.lastlink + 1,
            ..l
        };
        m.parties[p].served = m.lastlink + 1;
    }),
    ("served, a waiting link", |m| {
        let n = place(m, WAITING);
        let p = m.links[n].server as usize;
        m.parties[p].served = m.links[n].number;
    }),
    ("served, a returned link", |m| {
        let Link { number, server, .. } = *returned(m);
        m.parties[server as usize].served = number;
    }),
    ("served, of another server", |m| {
        let (l, p) = served(m);
        m.parties[(p + 1) % PARTIES].served = l.number;
    }),
    ("a served link of another server", |m| {
        let n = place(m, WORKING);
        m.links[n].server = (m.links[n].server + 1) % 16;
    }),
];

/// Each damage of a record by a call and by lists: 19, and record and answer places stay.
fn check_damages(m: &Monitor, call: [u32; 6]) {
    for (name, damage) in DAMAGES {
        let mut damaged = *m;
        damage(&mut damaged);
        let mut lent = Lent::new(damaged);
        assert!(!is_sound(&damaged) && !equal(&damaged, &damaged), "{name}");
        assert_eq!(step(&mut lent.record, call), [19, 0, 0, 0, 0, 0], "{name}");
        lent.is(&damaged);
        let mut answers = [-77; 8];
        assert_eq!(run(&mut lent.record, &call, &mut answers), 19, "{name}");
        lent.is(&damaged);
        assert_eq!(run(&mut lent.record, &[], &mut answers), 19, "{name}");
        assert_eq!(run(&mut lent.record, &[], &mut []), 19, "{name}");
        lent.is(&damaged);
        let refused = Passed {
            code: 19,
            calls: 0,
            used: 0,
        };
        assert_eq!(
            file(&mut lent.record, &[0; 6], &mut answers),
            refused,
            "{name}"
        );
        lent.is(&damaged);
        assert_eq!(answers, [-77; 8], "{name}");
        fresh(&mut lent.record);
        lent.is(&Monitor::fresh());
    }
}

/// Damages every hundredth of a history's records that have links in each state.
fn check_damaged(seed: u64, length: u64) -> u64 {
    let mut fit = 0u64;
    generator::random(seed, length, &mut |after, call, _| {
        let m = record(after);
        let live = &m.links[..m.count as usize];
        let has = |state| live.iter().any(|l| l.state == state);
        // The working link is the one that its server serves, in every history.
        if (m.count as usize) < LINKS && has(WAITING) && has(WORKING) && has(RETURNED) {
            if fit.is_multiple_of(100) {
                check_damages(&m, call);
            }
            fit += 1;
        }
    });
    fit.div_ceil(100)
}

fn main() {
    let mut calls = 0;
    for seed in 1..=100 {
        calls += check_steps(|give| generator::random(seed, 2000, give));
    }
    calls += check_steps(|give| generator::spent(1, give));
    println!("step: {calls} calls alike, answers and records");

    let lists: u64 = (1..=100).map(|seed| check_lists(seed, 2000)).sum();
    println!("run: {lists} lists alike, answers and records");

    (1..=100).for_each(|seed| check_file(seed, 2000));
    println!("file: 100 drill files alike, whole, cut short and with a bad number");

    let pairs: u64 = (1..=20).map(|seed| check_equal(seed, 2000)).sum();
    println!("equal: {pairs} pairs of records alike");

    let changes: u64 = (1..=20).map(|seed| check_changed(seed, 2000)).sum();
    println!("equal, sound: {changes} records with one word changed alike");

    let damaged: u64 = (1..=20).map(|seed| check_damaged(seed, 2000)).sum();
    println!(
        "damaged: {damaged} records in {} ways, each refused and kept",
        DAMAGES.len()
    );
}
