//! How services end, read off the calls and answers alone.
//!
//! Beside the statement. The outcome of each accepted return is told once more,
//! from which transactions the calls before it doomed, let expire or ended; so is
//! what a fetch, a send or a receive says of it.

use crate::history::{is_refusal, Broken, Entry};
use crate::nothing::Seen;
use std::collections::{BTreeMap, BTreeSet};

/// What the calls and answers so far show.
#[derive(Default)]
struct Fates {
    seen: Seen,
    clock: u64,
    /// By party; 0 none.
    timeouts: BTreeMap<u32, u64>,
    /// By transaction, where it has one.
    deadlines: BTreeMap<i64, u64>,
    /// Also ended ones: no number comes again.
    doomed: BTreeSet<i64>,
    /// Outcome and ending token of each returned link.
    ended: BTreeMap<u32, (i64, i64)>,
}

impl Fates {
    /// "Already doomed or expired": live, and either.
    fn is_lost(&self, t: i64) -> bool {
        let live = t != 0 && self.seen.owned.values().any(|&owned| owned == t);
        let expired = self.deadlines.get(&t).is_some_and(|&at| self.clock >= at);
        live && (expired || self.doomed.contains(&t))
    }

    /// The outcome of the party's return.
    fn outcome(&self, party: u32, a: u32, c: u32) -> Option<i64> {
        let (_, link) = self.seen.served(party)?;
        let talking = !link.is_request;
        let owns = self.seen.owned.get(&party).is_some_and(|&t| t != 0);
        let leaves_open = self.seen.links.values().any(|l| l.is_open_end_of(party));
        let cut = talking && !link.open;
        let lost = a == 1 && self.is_lost(link.transaction);
        Some(if owns || leaves_open || cut || lost {
            2
        } else if talking && !link.server_is_free_holder() {
            if a == 2 && c == 0 {
                4
            } else {
                2
            }
        } else if a == 1 {
            8
        } else {
            4
        })
    }

    /// The party's service ends, or it falls without one.
    fn end_service(&mut self, party: u32, value: i64, c: u32) {
        let own = self.seen.links.values();
        let hung_up = own.filter(|l| !l.is_request && l.is_open_end_of(party));
        self.doomed.extend(hung_up.map(|l| l.transaction));
        if let Some((d, link)) = self.seen.served(party) {
            if value != 8 {
                self.doomed.insert(link.transaction);
            }
            let token = if value == 2 { 0 } else { i64::from(c) };
            self.ended.insert(d, (value, token));
        }
    }

    /// A call and its answer: false where a service ends in another way than it
    /// should, or another end of it is told.
    fn reads(&mut self, entry: &Entry) -> bool {
        let [clock, party, kind, a, b, c] = entry.0;
        let [code, value, event, token, _, t] = entry.1;
        if !matches!(code, 19..=21) {
            self.clock = self.clock.max(u64::from(clock));
        }
        if is_refusal(code) {
            return true;
        }
        let right = match kind {
            15 => {
                let d = if b == 1 { value } else { i64::from(a) };
                let told = match code {
                    0 => 8,
                    30 => 4,
                    _ => 2,
                };
                let ended = u32::try_from(d).ok().and_then(|d| self.ended.get(&d));
                ended == Some(&(told, token))
            }
            17 | 18 if matches!(event, 2 | 4 | 8) => self.ended.get(&a) == Some(&(event, token)),
            // After an error nothing is accepted: what was unread went with it.
            17 | 18 if event != 1 => self.ended.get(&a).is_none_or(|ended| ended.0 != 2),
            20 => self.outcome(party, a, c) == Some(value),
            21 => value == self.seen.served(party).map_or(0, |_| 2),
            _ => true,
        };
        match kind {
            2 | 21 => {
                self.timeouts.remove(&party);
            }
            3..=5 => {
                let timeout = self.timeouts.get(&party).map_or(0, |&timeout| timeout);
                if t != 0 && timeout != 0 {
                    self.deadlines.insert(t, self.clock + timeout);
                }
            }
            9 => {
                self.timeouts.insert(party, u64::from(a));
            }
            19 => {
                let link = self.seen.links.get(&a);
                self.doomed.extend(link.map(|l| l.transaction));
            }
            _ => {}
        }
        if matches!(kind, 20 | 21) {
            self.end_service(party, value, c);
        }
        self.seen.reads(entry);
        right
    }
}

/// "A return with a = 1 inside a transaction that is already doomed or expired has
/// outcome 2 in place of 8, and unread data is dropped with it", and every other
/// one its outcome of document 01. From a fresh monitor.
pub fn check_lost(history: &[Entry]) -> Option<Broken> {
    let mut fates = Fates::default();
    history
        .iter()
        .position(|entry| !fates.reads(entry))
        .map(|at| Broken::Outcome { at })
}

#[cfg(test)]
mod tests {
    use super::*;
    use crate::monitor::{step, Monitor};

    fn history(calls: &[[u32; 6]]) -> Vec<Entry> {
        let mut m = Monitor::fresh();
        calls
            .iter()
            .map(|&call| (call, step(&mut m, call)))
            .collect()
    }

    /// Successes in one that a failure dooms, in one that a disconnect dooms, in
    /// one that expires, in one that ends, and in none.
    fn lost() -> Vec<Entry> {
        history(&[
            [0, 0, 1, 0, 0, 0],
            [0, 1, 1, 0, 0, 0],
            [0, 2, 1, 0, 0, 0],
            [0, 1, 10, 5, 0, 0],
            [0, 2, 10, 5, 0, 0],
            // 5: a failure.
            [0, 0, 3, 0, 0, 0],
            [0, 0, 12, 5, 0, 21],
            [0, 0, 13, 5, 8, 22],
            [0, 1, 14, 0, 0, 0],
            [0, 2, 14, 0, 0, 0],
            [0, 2, 17, 2, 0, 41],
            [0, 1, 20, 2, 0, 31],
            [0, 2, 20, 1, 0, 32],
            [0, 0, 18, 2, 0, 0],
            [0, 0, 15, 1, 0, 0],
            [0, 0, 4, 0, 0, 0],
            // 16: a disconnect.
            [0, 0, 3, 0, 0, 0],
            [0, 0, 13, 5, 4, 21],
            [0, 0, 12, 5, 0, 22],
            [0, 0, 19, 3, 0, 0],
            [0, 1, 14, 0, 0, 0],
            [0, 1, 20, 1, 0, 31],
            [0, 0, 15, 0, 1, 0],
            [0, 0, 5, 0, 0, 0],
            // 24: a deadline.
            [0, 0, 9, 10, 0, 0],
            [5, 0, 3, 0, 0, 0],
            [5, 0, 12, 5, 0, 21],
            [5, 0, 12, 5, 0, 22],
            [5, 1, 14, 0, 0, 0],
            [5, 2, 14, 0, 0, 0],
            [14, 1, 20, 1, 0, 31],
            [15, 2, 20, 1, 0, 32],
            [15, 0, 5, 0, 0, 0],
            // 33: an end, and none.
            [15, 0, 3, 0, 0, 0],
            [15, 0, 12, 5, 0, 21],
            [15, 0, 12, 5, 3, 22],
            [15, 1, 14, 0, 0, 0],
            [15, 2, 14, 0, 0, 0],
            [30, 2, 20, 1, 0, 32],
            [30, 0, 5, 0, 0, 0],
            [30, 1, 20, 1, 0, 31],
            [30, 1, 21, 0, 0, 0],
        ])
    }

    const RETURNS: [(usize, i64); 8] = [
        (11, 4),
        (12, 2),
        (21, 2),
        (30, 8),
        (31, 2),
        (38, 8),
        (40, 8),
        (41, 0),
    ];

    #[test]
    fn right_answers() {
        let h = lost();
        for (at, value) in RETURNS {
            assert_eq!(h[at].1[..2], [0, value], "{at}");
        }
        let heard: Vec<_> = [13, 14, 22].map(|at| h[at].1[..4].to_vec()).into();
        assert_eq!(heard, [[29, 0, 2, 0], [30, 0, 0, 31], [31, 4, 0, 0]]);
        assert_eq!(check_lost(&h), None);
    }

    /// Each return with each other value; a fetch or a receive that tells another
    /// end, or a token that should have gone.
    #[test]
    fn wrong_answers() {
        let told = |at: usize, field: usize, wrong: i64| {
            let mut h = lost();
            h[at].1[field] = wrong;
            assert_eq!(check_lost(&h), Some(Broken::Outcome { at }), "{at} {wrong}");
        };
        for (at, value) in RETURNS {
            for wrong in [0, 2, 4, 8].into_iter().filter(|&wrong| wrong != value) {
                told(at, 1, wrong);
            }
        }
        for (at, field, wrong) in [
            (13, 2, 4),
            (13, 2, 8),
            (13, 2, 32),
            (13, 2, 0),
            (13, 3, 32),
            (14, 0, 31),
            (14, 0, 0),
            (14, 3, 0),
            (22, 0, 0),
            (22, 0, 30),
            (22, 3, 31),
        ] {
            told(at, field, wrong);
        }
    }

    /// Without what made it so, or with it elsewhere, the answer is wrong.
    #[test]
    fn reasons() {
        // The failure, the disconnect, the timeout, the rollback's end of the link.
        for (without, told) in [(11, 11), (19, 20), (24, 30)] {
            let mut h = lost();
            h.remove(without);
            assert_eq!(
                check_lost(&h),
                Some(Broken::Outcome { at: told }),
                "{without}"
            );
        }
        // The clock of the return, and of a call that raises none.
        let mut h = lost();
        h[31].0[0] = 14;
        assert_eq!(check_lost(&h), Some(Broken::Outcome { at: 31 }));
        h.insert(31, ([15, 16, 6, 0, 0, 0], [21, 0, 0, 0, 0, 0]));
        assert_eq!(check_lost(&h), Some(Broken::Outcome { at: 32 }));
        h[31] = ([15, 9, 6, 0, 0, 0], [-5, 0, 0, 0, 0, 0]);
        assert_eq!(check_lost(&h), None);
        // The disconnect of a link of no transaction.
        let mut h = lost();
        h[17].0[4] = 6;
        assert_eq!(check_lost(&h), Some(Broken::Outcome { at: 21 }));
    }
}
