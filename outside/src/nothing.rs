//! Whether something was there, read off the calls and answers alone.
//!
//! Beside the statement. 32, 36 and 37 are each held against the answers that
//! come at the same question: a link taken, a reply, a token, a send. Deadlines,
//! which are asked before, are not read.

use crate::history::{is_refusal, Broken, Entry};
use std::collections::{BTreeMap, BTreeSet, VecDeque};

/// A link, as the calls and answers show it.
pub(crate) struct Shown {
    pub(crate) is_request: bool,
    originator: u32,
    /// Whether the originator's end is open.
    pub(crate) open: bool,
    service: u32,
    /// 0 none.
    pub(crate) transaction: i64,
    /// Its server, once taken.
    server: Option<u32>,
    returned: bool,
    /// Whether the server holds a conversation.
    server_holds: bool,
    /// Whether the last accepted send hands over and is not yet received.
    handing_over: bool,
    /// Sender and token of each accepted send not yet received. What a cut or a
    /// return drops stays here: no token is given on such a link, nor 36 or 37.
    unread: VecDeque<(u32, u32)>,
}

impl Shown {
    fn is_working(&self) -> bool {
        self.server.is_some() && !self.returned
    }

    pub(crate) fn is_open_end_of(&self, party: u32) -> bool {
        self.open && self.originator == party
    }

    /// The server holds a conversation and is not handing it over.
    pub(crate) fn server_is_free_holder(&self) -> bool {
        self.server_holds && !self.handing_over
    }

    fn is_open_request_of(&self, party: u32) -> bool {
        self.is_request && self.is_open_end_of(party)
    }

    /// An end of a conversation that is neither cut nor returned, and whether it
    /// holds.
    fn talking_end_of(&self, party: u32) -> Option<bool> {
        let serves = self.server == Some(party);
        let end = self.originator == party || serves;
        let talking = !self.is_request && self.open && !self.returned;
        (end && talking).then_some(self.server_holds == serves)
    }

    /// Whether the party may send, and four are unread.
    fn is_full_for(&self, party: u32) -> bool {
        let holds = self.talking_end_of(party) == Some(true);
        holds && !self.handing_over && self.unread.len() == 4
    }

    /// Whether the party may receive, and nothing is unread.
    fn is_empty_for(&self, party: u32) -> bool {
        self.talking_end_of(party) == Some(false) && self.unread.is_empty()
    }
}

/// What the calls and answers so far show.
#[derive(Default)]
pub(crate) struct Seen {
    /// How many links were made: the last one's number.
    made: u32,
    pub(crate) links: BTreeMap<u32, Shown>,
    /// Party and service.
    offered: BTreeSet<(u32, u32)>,
    /// Owned transactions by party; 0 none.
    pub(crate) owned: BTreeMap<u32, i64>,
}

impl Seen {
    /// The lowest waiting link of a service that the party offers.
    fn next_to_take(&self, party: u32) -> Option<u32> {
        let mut waiting = self.links.iter().filter(|(_, l)| l.server.is_none());
        let found = waiting.find(|(_, l)| self.offered.contains(&(party, l.service)))?;
        Some(*found.0)
    }

    /// The link that the party serves.
    pub(crate) fn served(&self, party: u32) -> Option<(u32, &Shown)> {
        let serves = |l: &Shown| l.server == Some(party) && l.is_working();
        let mut served = self.links.iter().filter(|(_, l)| serves(l));
        served.next().map(|(&d, l)| (d, l))
    }

    /// The lowest returned request with an open end of the party's.
    fn next_reply(&self, party: u32) -> Option<u32> {
        let mut own = self
            .links
            .iter()
            .filter(|(_, l)| l.is_open_request_of(party));
        own.find(|(_, l)| l.returned).map(|found| *found.0)
    }

    /// The originator's end closes: by 16 or 19, or as by them.
    fn close(&mut self, d: u32) {
        let Some(link) = self.links.get_mut(&d) else {
            return;
        };
        link.open = false;
        if link.returned || !link.is_request && !link.is_working() {
            self.links.remove(&d);
        }
    }

    /// The party's transaction ends.
    fn end_transaction(&mut self, party: u32) {
        let ending = self.owned.remove(&party).unwrap_or(0);
        if ending == 0 {
            return;
        }
        self.links
            .retain(|_, l| l.transaction != ending || l.is_working());
        for link in self.links.values_mut() {
            link.open &= link.transaction != ending;
        }
    }

    /// An accepted return or fall.
    fn end_service(&mut self, party: u32) {
        let numbers = self.links.iter().filter(|(_, l)| l.is_open_end_of(party));
        for d in numbers.map(|(&d, _)| d).collect::<Vec<_>>() {
            self.close(d);
        }
        self.end_transaction(party);
        for link in self.links.values_mut() {
            link.returned |= link.server == Some(party);
        }
        self.links.retain(|_, l| l.open || !l.returned);
    }

    /// A call and its answer: false where something was there and the answer
    /// denies it, or the other way round.
    pub(crate) fn reads(&mut self, entry: &Entry) -> bool {
        let [_, party, kind, a, b, c] = entry.0;
        let [code, value, event, token, _, t] = entry.1;
        match (kind, code) {
            (14, 32) => return self.next_to_take(party).is_none(),
            (15, 36) if b == 1 => {
                return self.links.values().any(|l| l.is_open_request_of(party))
                    && self.next_reply(party).is_none();
            }
            (15, 36) => {
                let link = self.links.get(&a);
                return link.is_some_and(|l| l.is_open_request_of(party) && !l.returned);
            }
            (17, 37) => {
                let link = self.links.get(&a);
                return link.is_some_and(|l| l.is_full_for(party));
            }
            (18, 36) => {
                let link = self.links.get(&a);
                return link.is_some_and(|l| l.is_empty_for(party));
            }
            (_, 32 | 36 | 37) => return false,
            (_, code) if is_refusal(code) => return true,
            _ => {}
        }
        match kind {
            3 => {
                self.owned.insert(party, t);
            }
            4 | 5 => {
                self.end_transaction(party);
                self.owned.insert(party, t);
            }
            10 => {
                self.offered.insert((party, a));
            }
            11 => {
                self.offered.remove(&(party, a));
            }
            12 | 13 => {
                self.made += 1;
                let link = Shown {
                    is_request: kind == 12,
                    originator: party,
                    open: value != 0,
                    service: a,
                    transaction: if b & 2 == 0 { t } else { 0 },
                    server: None,
                    returned: false,
                    server_holds: b & 8 != 0,
                    handing_over: false,
                    unread: VecDeque::new(),
                };
                self.links.insert(self.made, link);
            }
            14 => {
                let Some(d) = self.next_to_take(party).filter(|&d| i64::from(d) == value) else {
                    return false;
                };
                self.links.get_mut(&d).expect("it waits").server = Some(party);
            }
            15 => {
                let d = match b {
                    1 => self.next_reply(party).filter(|&d| i64::from(d) == value),
                    _ => Some(a),
                };
                let link = d.and_then(|d| self.links.remove(&d));
                return link.is_some_and(|l| l.is_open_request_of(party) && l.returned);
            }
            16 | 19 => self.close(a),
            17 if code == 0 => {
                let Some(link) = self.links.get_mut(&a) else {
                    return false;
                };
                link.unread.push_back((party, c));
                link.handing_over = b == 1;
                return link.unread.len() <= 4;
            }
            18 if code == 0 || event == 32 => {
                let Some(link) = self.links.get_mut(&a) else {
                    return false;
                };
                if event == 32 {
                    link.server_holds = !link.server_holds;
                    link.handing_over = false;
                }
                let oldest = link.unread.pop_front();
                return oldest.is_some_and(|(sender, c)| sender != party && token == i64::from(c));
            }
            17 | 18 if event != 1 => {
                self.links.remove(&a);
            }
            20 | 21 => {
                self.end_service(party);
                if kind == 21 {
                    self.offered.retain(|&(of, _)| of != party);
                }
            }
            _ => {}
        }
        true
    }
}

/// "Keep it for an empty take. A fetch with no return yet and a receive with
/// nothing unread get a second number, a send on a full link a third." From a
/// fresh monitor.
pub fn check_nothing(history: &[Entry]) -> Option<Broken> {
    let mut seen = Seen::default();
    history
        .iter()
        .position(|entry| !seen.reads(entry))
        .map(|at| Broken::Nothing { at })
}

#[cfg(test)]
mod tests {
    use super::*;
    use crate::monitor::{step, Monitor};

    fn history(calls: &[[u32; 6]]) -> Vec<Entry> {
        let mut m = Monitor::fresh();
        calls
            .iter()
            .map(|&call| (call, step(&mut m, call)))
            .collect()
    }

    /// A request and a conversation with all of them.
    fn nothings() -> Vec<Entry> {
        history(&[
            [0, 1, 1, 0, 0, 0],
            [0, 1, 10, 5, 0, 0],
            [0, 1, 14, 0, 0, 0],
            [0, 0, 12, 5, 0, 7],
            [0, 0, 15, 1, 0, 0],
            [0, 1, 14, 0, 0, 0],
            [0, 0, 15, 9, 1, 0],
            [0, 1, 20, 1, 0, 8],
            [0, 0, 15, 1, 0, 0],
            [0, 0, 13, 5, 4, 7],
            [0, 0, 17, 2, 0, 1],
            [0, 0, 17, 2, 0, 2],
            [0, 0, 17, 2, 0, 3],
            [0, 0, 17, 2, 0, 4],
            [0, 0, 17, 2, 1, 5],
            [0, 1, 14, 0, 0, 0],
            [0, 1, 18, 2, 0, 0],
            [0, 1, 18, 2, 0, 0],
            [0, 1, 18, 2, 0, 0],
            [0, 1, 18, 2, 0, 0],
            [0, 1, 18, 2, 0, 0],
            [0, 0, 17, 2, 1, 6],
            [0, 1, 18, 2, 0, 0],
            [0, 0, 18, 2, 0, 0],
            [0, 1, 20, 1, 0, 7],
            [0, 0, 18, 2, 0, 0],
        ])
    }

    #[test]
    fn right_answers() {
        let h = nothings();
        let codes: Vec<i64> = h.iter().map(|entry| entry.1[0]).collect();
        assert_eq!(
            codes,
            [
                0, 0, 32, 0, 36, 0, 36, 0, 0, 0, 0, 0, 0, 0, 37, 0, 0, 0, 0, 0, 36, 0, 29, 36, 0,
                29
            ]
        );
        assert_eq!(check_nothing(&h), None);
    }

    /// Each number in another's place, and each where something was there.
    #[test]
    fn wrong_answers() {
        let h = nothings();
        for (at, wrong) in [
            (2, vec![36, 37, 0]),
            (4, vec![32, 37, 0, 30, 31]),
            (5, vec![32]),
            (6, vec![32, 37, 0, 30, 31]),
            (8, vec![32, 36, 37]),
            (12, vec![37]),
            (14, vec![32, 36, 0]),
            (16, vec![32, 36, 37]),
            (20, vec![32, 37, 0]),
            (22, vec![36]),
            (23, vec![32, 37, 0]),
            (25, vec![36]),
        ] {
            for code in wrong {
                let mut h = h.clone();
                h[at].1[0] = code;
                assert_eq!(
                    check_nothing(&h),
                    Some(Broken::Nothing { at }),
                    "{at} {code}"
                );
            }
        }
    }

    /// Nor where who holds is asked before: 23.
    #[test]
    fn wrong_ends() {
        for (before, call, code) in [
            (10, [0, 0, 18, 2, 0, 0], 36),
            (14, [0, 1, 17, 2, 0, 9], 37),
            (23, [0, 1, 18, 2, 0, 0], 36),
        ] {
            let mut h = nothings();
            h.truncate(before);
            h.push((call, [code, 0, 0, 0, 0, 0]));
            let told = Some(Broken::Nothing { at: before });
            assert_eq!(check_nothing(&h), told, "{before}");
        }
        // The fourth hands over.
        let mut h = nothings();
        h[13].0[4] = 1;
        assert_eq!(check_nothing(&h), Some(Broken::Nothing { at: 14 }));
    }

    /// Without the call that made it so, the answer is wrong.
    #[test]
    fn left_out() {
        let h = nothings();
        // An offer, a request, a return, the fourth send, a receive, a send.
        for (without, told) in [(1, 4), (3, 3), (7, 7), (13, 13), (16, 16), (21, 21)] {
            let mut h = h.clone();
            h.remove(without);
            assert_eq!(
                check_nothing(&h),
                Some(Broken::Nothing { at: told }),
                "{without}"
            );
        }
    }
}
