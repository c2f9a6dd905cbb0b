//! The history statement, checked to the letter on calls and answers alone.
//!
//! A history is the list of calls and answers, in order, from a fresh monitor.
//! A lent list counts as its calls, and as none where it returned 17 or 16.

/// A call and its answer.
pub type Entry = ([u32; 6], [i64; 6]);

/// A rule that a history breaks. Places count from 0.
#[derive(Clone, Copy, Debug, PartialEq, Eq)]
pub enum Broken {
    /// The later of two sends from different ends was not given SENDONLY.
    Sender { earlier: usize, later: usize },
    /// A commit was answered as committed, but something speaks against it.
    WronglyCommitted { commit: usize },
    /// A commit was not answered as committed, but nothing speaks against it.
    WronglyRolledBack { commit: usize },
    /// Another party was at work in a transaction when it was committed.
    AtWork { commit: usize, party: u32 },
    /// A refusal with something beside its number and T.
    Refusal { at: usize },
    /// A call answered as if it had a right that it lacked, or the other way
    /// round.
    Rights { at: usize },
    /// 32, 36 or 37 where something was there, or the other way round.
    Nothing { at: usize },
    /// A service ended with another outcome than it should, or was told so.
    Outcome { at: usize },
}

fn party(entry: &Entry) -> u32 {
    entry.0[1]
}

fn kind(entry: &Entry) -> u32 {
    entry.0[2]
}

fn code(entry: &Entry) -> i64 {
    entry.1[0]
}

fn value(entry: &Entry) -> i64 {
    entry.1[1]
}

fn event(entry: &Entry) -> i64 {
    entry.1[2]
}

/// The T that the answer ends in.
fn ending(entry: &Entry) -> i64 {
    entry.1[5]
}

/// "Accepted is code 0."
fn is_accepted(entry: &Entry) -> bool {
    code(entry) == 0
}

/// "past question 21": refused by none of the questions up to it.
fn is_past_21(entry: &Entry) -> bool {
    !matches!(code(entry), 19..=21)
}

/// A 15 that got a reply: "answered 0, 30 or 31".
fn is_fetched(entry: &Entry) -> bool {
    kind(entry) == 15 && matches!(code(entry), 0 | 30 | 31)
}

/// "A 15, 17, 18 or 19 is on link a." A fetch with b = 1, "answered 0, 30 or
/// 31, is on the link that its value names, whatever its a" (R-1).
fn link(entry: &Entry) -> Option<i64> {
    let [_, _, _, a, b, _] = entry.0;
    if is_fetched(entry) && b == 1 {
        return Some(value(entry));
    }
    matches!(kind(entry), 15 | 17 | 18 | 19).then(|| i64::from(a))
}

/// "Sends are accepted 17s"
fn is_send(entry: &Entry) -> bool {
    kind(entry) == 17 && is_accepted(entry)
}

/// "two on one link by different parties are from different ends"
fn from_different_ends(one: &Entry, two: &Entry) -> bool {
    link(one) == link(two) && party(one) != party(two)
}

/// "SENDONLY is given to a party by its 18 on that link, answered 29 with
/// event 32."
fn gives_sendonly(entry: &Entry, to: u32, on: Option<i64>) -> bool {
    kind(entry) == 18
        && party(entry) == to
        && link(entry) == on
        && code(entry) == 29
        && event(entry) == 32
}

/// "Between any two accepted sends on one conversation from different ends,
/// the later sender was given the SENDONLY event on it."
fn sender_rule(history: &[Entry], first: usize) -> Option<Broken> {
    for later in first..history.len() {
        let sender = &history[later];
        if !is_send(sender) {
            continue;
        }
        // Going back from the send: once SENDONLY was given, it stands between
        // this send and every earlier one.
        for earlier in (0..later).rev() {
            let entry = &history[earlier];
            if gives_sendonly(entry, party(sender), link(sender)) {
                break;
            }
            if is_send(entry) && from_different_ends(entry, sender) {
                return Some(Broken::Sender { earlier, later });
            }
        }
    }
    None
}

/// "T's owner is the party whose 3, 4 or 5 is the first call with an answer
/// ending in T; that call is T's start." Gives the start's place and the owner.
fn start(history: &[Entry], t: i64) -> Option<(usize, u32)> {
    let first = history.iter().position(|entry| ending(entry) == t)?;
    let entry = &history[first];
    matches!(kind(entry), 3..=5).then(|| (first, party(entry)))
}

/// "A commit by T's owner is that party's 4, itself past question 21, where
/// its latest earlier answer past question 21 ends in T". Gives T.
fn committing(history: &[Entry], at: usize) -> Option<i64> {
    let commit = &history[at];
    if kind(commit) != 4 || !is_past_21(commit) {
        return None;
    }
    let before = &history[..at];
    let latest = before
        .iter()
        .rev()
        .find(|entry| party(entry) == party(commit) && is_past_21(entry))?;
    let t = ending(latest);
    // "Below, T is not 0."
    let (_, owner) = (t != 0).then(|| start(before, t))??;
    (owner == party(commit)).then_some(t)
}

/// "committed is code 0 or -100"
fn is_committed(commit: &Entry) -> bool {
    matches!(code(commit), 0 | -100)
}

/// "A link d is of T if an accepted 12 or 13 without flag 2 has value d and its
/// answer ends in T; that caller is its originator." Gives d and originator.
fn links_of(before: &[Entry], t: i64) -> Vec<(i64, u32)> {
    before
        .iter()
        .filter(|entry| {
            matches!(kind(entry), 12 | 13)
                && is_accepted(entry)
                && entry.0[4] & 2 == 0
                && ending(entry) == t
        })
        .map(|entry| (value(entry), party(entry)))
        .collect()
}

/// "A party serves d from its accepted 14 with value d until its next accepted
/// 20 or 21." Whether it serves d after all of `before`.
fn serves(before: &[Entry], server: u32, d: i64) -> bool {
    before
        .iter()
        .rev()
        .filter(|entry| party(entry) == server && is_accepted(entry))
        .take_while(|entry| !matches!(kind(entry), 20 | 21))
        .any(|entry| kind(entry) == 14 && value(entry) == d)
}

/// Whether the party serves a link of T after all of `before`.
fn serves_one_of(before: &[Entry], server: u32, links: &[(i64, u32)]) -> bool {
    links.iter().any(|&(d, _)| serves(before, server, d))
}

/// "A failed end: 20 or 21 with value 2 or 4 by a party that served a link of T
/// up to it."
fn has_failed_end(before: &[Entry], links: &[(i64, u32)]) -> bool {
    before.iter().enumerate().any(|(at, entry)| {
        matches!(kind(entry), 20 | 21)
            && matches!(value(entry), 2 | 4)
            && serves_one_of(&before[..at], party(entry), links)
    })
}

/// "A disconnect: 19 with 0 on a link of T."
fn has_disconnect(before: &[Entry], links: &[(i64, u32)]) -> bool {
    before.iter().any(|entry| {
        kind(entry) == 19
            && is_accepted(entry)
            && links.iter().any(|&(d, _)| link(entry) == Some(d))
    })
}

/// "the owner's timeout at T's start (a of its last accepted 9 before that; 0
/// if there is none, or if an accepted 2 or 21 of its own came in between)"
fn timeout_at(before_start: &[Entry], owner: u32) -> u64 {
    before_start
        .iter()
        .rev()
        .filter(|entry| party(entry) == owner && is_accepted(entry))
        .take_while(|entry| !matches!(kind(entry), 2 | 21))
        .find(|entry| kind(entry) == 9)
        .map_or(0, |entry| u64::from(entry.0[3]))
}

/// "the greatest clock of calls past question 21"
fn greatest_clock(entries: &[Entry]) -> u64 {
    entries
        .iter()
        .filter(|entry| is_past_21(entry))
        .map(|entry| u64::from(entry.0[0]))
        .max()
        .unwrap_or(0)
}

/// "A deadline: the owner's timeout at T's start is not 0, and the greatest
/// clock of calls past question 21, the commit's too, is at least that timeout
/// plus the greatest up to and with T's start."
fn has_passed_deadline(history: &[Entry], commit: usize, t: i64) -> bool {
    let Some((start, owner)) = start(&history[..commit], t) else {
        return false;
    };
    let timeout = timeout_at(&history[..start], owner);
    timeout != 0
        && greatest_clock(&history[..=commit]) >= timeout + greatest_clock(&history[..=start])
}

/// "Unfinished: a link of T with no 15 on it answered 0, 30 or 31, and no 17 or
/// 18 on it by its originator answered 29 with event 2, 4 or 8."
fn has_unfinished(before: &[Entry], links: &[(i64, u32)]) -> bool {
    links.iter().any(|&(d, originator)| {
        !before.iter().any(|entry| {
            link(entry) == Some(d)
                && match kind(entry) {
                    15 => is_fetched(entry),
                    17 | 18 => {
                        party(entry) == originator
                            && code(entry) == 29
                            && matches!(event(entry), 2 | 4 | 8)
                    }
                    _ => false,
                }
        })
    })
}

/// "standing is each manager's last accepted 22 with an answer ending in T"
/// managers are 0 to 3. Gives manager and b of each, the latest first.
fn standing_reports(before: &[Entry], t: i64) -> Vec<(u32, u32)> {
    let mut standing: Vec<(u32, u32)> = Vec::new();
    for entry in before.iter().rev() {
        let [_, _, kind, a, b, _] = entry.0;
        if kind == 22
            && is_accepted(entry)
            && ending(entry) == t
            && a <= 3
            && standing.iter().all(|&(manager, _)| manager != a)
        {
            standing.push((a, b));
        }
    }
    standing
}

/// "a standing report of veto, rolled back, mixed or hazard"
fn has_report_against(before: &[Entry], t: i64) -> bool {
    standing_reports(before, t)
        .iter()
        .any(|&(_, b)| matches!(b, 2 | 4 | 5 | 6))
}

/// "At work in T: serves a link of T at the commit. Other parties are all but
/// T's owner." Gives another party at work.
fn other_at_work(before: &[Entry], links: &[(i64, u32)], owner: u32) -> Option<u32> {
    before
        .iter()
        .filter(|entry| kind(entry) == 14)
        .map(party)
        .filter(|&party| party != owner)
        .find(|&party| serves_one_of(before, party, links))
}

/// A commit by a transaction's owner, and what the calls before it show.
#[derive(Clone, Debug, PartialEq, Eq)]
pub struct Commit {
    pub committed: bool,
    pub failed_end: bool,
    pub disconnect: bool,
    pub passed_deadline: bool,
    pub unfinished: bool,
    pub report_against: bool,
    /// Another party at work in the transaction.
    pub at_work: Option<u32>,
    /// The links of the transaction and their originators.
    pub links: Vec<(i64, u32)>,
}

/// What is to be said of the commit at this place, if it is one by a
/// transaction's owner.
pub fn commit(history: &[Entry], at: usize) -> Option<Commit> {
    let t = committing(history, at)?;
    let before = &history[..at];
    let links = links_of(before, t);
    Some(Commit {
        committed: is_committed(&history[at]),
        failed_end: has_failed_end(before, &links),
        disconnect: has_disconnect(before, &links),
        passed_deadline: has_passed_deadline(history, at, t),
        unfinished: has_unfinished(before, &links),
        report_against: has_report_against(before, t),
        at_work: other_at_work(before, &links, party(&history[at])),
        links,
    })
}

/// "Every commit by a transaction's owner was answered as committed exactly
/// when the calls and answers up to it show no failed service end, no
/// disconnect, no passed deadline and no unfinished link of that transaction.
/// And whenever one was so answered, no other party was then still at work in
/// that transaction." It "now also needs no standing report of veto, rolled
/// back, mixed or hazard" (R-4).
fn commit_rules(history: &[Entry], at: usize) -> Option<Broken> {
    let found = commit(history, at)?;
    let spoiled = found.failed_end
        || found.disconnect
        || found.passed_deadline
        || found.unfinished
        || found.report_against;
    match (found.committed, spoiled) {
        (true, true) => Some(Broken::WronglyCommitted { commit: at }),
        (false, false) => Some(Broken::WronglyRolledBack { commit: at }),
        (true, false) => found
            .at_work
            .map(|party| Broken::AtWork { commit: at, party }),
        (false, true) => None,
    }
}

/// "Refusals are 16 to 28, 32, -5, -6 and -8"; 33 to 39 join them.
pub fn is_refusal(code: i64) -> bool {
    matches!(code, 16..=28 | 32..=39 | -5 | -6 | -8)
}

/// A refusal returns zeros beside its number and the caller's transaction; up
/// to question 21 the transaction is 0 too.
pub fn check_refusals(history: &[Entry]) -> Option<Broken> {
    history
        .iter()
        .position(|entry| {
            let [code, value, event, token, service, t] = entry.1;
            is_refusal(code)
                && ([value, event, token, service] != [0; 4] || (!is_past_21(entry) && t != 0))
        })
        .map(|at| Broken::Refusal { at })
}

/// Rights, read off the calls and answers: what a party may request or
/// advertise is what the last accepted 23 about it said, and all if there is
/// none, its own fall in between or not. "Not permitted is 35, which comes after
/// 22 in kinds 10, 12 and 13 and first in kind 23"; so there every other answer
/// past question 21 tells that the right was there.
pub fn check_rights(history: &[Entry]) -> Option<Broken> {
    // b and c of the last accepted 23 by its a.
    let mut last: [Option<[u32; 2]>; 32] = [None; 32];
    for (at, entry) in history.iter().enumerate() {
        let [_, party, kind, a, b, c] = entry.0;
        let code = code(entry);
        let good = match kind {
            _ if !is_past_21(entry) => true,
            10 | 12 | 13 if code == 22 => true,
            10 | 12 | 13 => {
                let of = 2 * party as usize + usize::from(kind == 10);
                let may = match (last[of], a) {
                    (_, 0 | 65..) => return Some(Broken::Rights { at }),
                    (None, _) => true,
                    (Some([low, _]), 1..=32) => low & 1 << (a - 1) != 0,
                    (Some([_, high]), _) => high & 1 << (a - 33) != 0,
                };
                may == (code != 35)
            }
            23 => {
                if code == 0 && a < 32 {
                    last[a as usize] = Some([b, c]);
                }
                let expected = match (party, a) {
                    (1.., _) => 35,
                    (0, 32..) => 22,
                    (0, _) => 0,
                };
                code == expected
            }
            _ => code != 35,
        };
        if !good {
            return Some(Broken::Rights { at });
        }
    }
    None
}

/// The first rule found broken, if any: sender rule, commit rule, nobody else
/// at work.
pub fn check(history: &[Entry]) -> Option<Broken> {
    check_from(history, 0)
}

/// As `check`, but only for later sends and commits from place `first` on.
pub fn check_from(history: &[Entry], first: usize) -> Option<Broken> {
    sender_rule(history, first)
        .or_else(|| (first..history.len()).find_map(|at| commit_rules(history, at)))
}

#[cfg(test)]
mod tests {
    use super::*;
    use crate::monitor::{step, Monitor};

    fn history(calls: &[[u32; 6]]) -> Vec<Entry> {
        let mut m = Monitor::fresh();
        calls
            .iter()
            .map(|&call| (call, step(&mut m, call)))
            .collect()
    }

    /// A conversation in T, with one turn, returned, told and committed.
    fn good() -> Vec<Entry> {
        history(&[
            [0, 0, 1, 0, 0, 0],
            [0, 1, 1, 0, 0, 0],
            [0, 1, 10, 5, 0, 0],
            [1, 0, 9, 10, 0, 0],
            [5, 0, 3, 0, 0, 0],
            [5, 0, 13, 5, 4, 7],
            [5, 0, 17, 1, 1, 9],
            [5, 1, 14, 0, 0, 0],
            [5, 1, 18, 1, 0, 0],
            [5, 1, 17, 1, 0, 5],
            [5, 1, 20, 1, 0, 6],
            [5, 0, 18, 1, 0, 0],
            [5, 0, 18, 1, 0, 0],
            [14, 0, 4, 0, 0, 0],
        ])
    }

    #[test]
    fn good_history() {
        let h = good();
        assert_eq!(committing(&h, 13), Some(1));
        assert_eq!(links_of(&h, 1), [(1, 0)]);
        assert_eq!(check(&h), None);
        assert_eq!(check_refusals(&h), None);
    }

    /// Wrong answers are found.
    #[test]
    fn broken_histories() {
        let mut h = good();
        h[13].1[0] = -2;
        assert_eq!(check(&h), Some(Broken::WronglyRolledBack { commit: 13 }));

        let mut h = good();
        h[8].1 = [0, 0, 0, 9, 0, 1];
        assert_eq!(
            check(&h),
            Some(Broken::Sender {
                earlier: 6,
                later: 9
            })
        );

        // Expiring only past the deadline.
        let mut h = good();
        h[13].0[0] = 15;
        assert_eq!(check(&h), Some(Broken::WronglyCommitted { commit: 13 }));
        h[13].1[0] = -102;
        assert_eq!(check(&h), None);

        // A failed end, unspoiling.
        let mut h = good();
        h[10].1[1] = 4;
        assert_eq!(check(&h), Some(Broken::WronglyCommitted { commit: 13 }));

        // Unfinished.
        let mut h = good();
        h.remove(12);
        assert_eq!(check(&h), Some(Broken::WronglyCommitted { commit: 12 }));

        // Another party still at work.
        let mut h = good();
        h.remove(10);
        assert_eq!(
            check(&h),
            Some(Broken::AtWork {
                commit: 12,
                party: 1
            })
        );

        // A disconnect.
        let mut h = good();
        h.insert(12, ([5, 0, 19, 1, 0, 0], [0, 0, 0, 0, 0, 1]));
        assert_eq!(check(&h), Some(Broken::WronglyCommitted { commit: 14 }));

        let mut h = history(&[[0, 0, 3, 0, 0, 0], [0, 16, 3, 0, 0, 0]]);
        assert_eq!(check_refusals(&h), None);
        h[1].1[5] = 1;
        assert_eq!(check_refusals(&h), Some(Broken::Refusal { at: 1 }));
    }

    /// Two requests in T, each fetched where any reply will do, and committed.
    fn any_replies() -> Vec<Entry> {
        history(&[
            [0, 0, 1, 0, 0, 0],
            [0, 1, 1, 0, 0, 0],
            [0, 1, 10, 5, 0, 0],
            [0, 0, 3, 0, 0, 0],
            [0, 0, 12, 5, 0, 7],
            [0, 0, 12, 5, 0, 7],
            [0, 1, 14, 0, 0, 0],
            [0, 1, 20, 1, 0, 6],
            [0, 0, 15, 9, 1, 0],
            [0, 0, 15, 2, 1, 0],
            [0, 1, 14, 0, 0, 0],
            [0, 1, 20, 1, 0, 6],
            [0, 0, 15, 1, 1, 0],
            [0, 0, 4, 0, 0, 0],
        ])
    }

    /// A fetch with b = 1 is on the link that its value names, if it gave a
    /// reply; any other is on a.
    #[test]
    fn link_of_a_fetch() {
        let h = any_replies();
        let on: Vec<_> = [8, 9, 12].map(|at| link(&h[at])).into();
        assert_eq!(on, [Some(1), Some(2), Some(2)]);
        assert_eq!(code(&h[9]), 36);
        assert_eq!(link(&([0, 0, 15, 7, 1, 0], [30, 4, 0, 0, 0, 0])), Some(4));
        assert_eq!(link(&([0, 0, 15, 7, 1, 0], [31, 4, 0, 0, 0, 0])), Some(4));
        assert_eq!(link(&([0, 0, 15, 7, 1, 0], [24, 0, 0, 0, 0, 0])), Some(7));
        assert_eq!(link(&([0, 0, 15, 7, 0, 0], [0, 0, 0, 0, 0, 0])), Some(7));
        assert_eq!(link(&([0, 0, 17, 7, 1, 0], [0, 0, 0, 0, 0, 0])), Some(7));
        assert_eq!(check(&h), None);
        // By a alone request 2, or request 1, would be unfinished.
        for at in [8, 12] {
            let mut h = h.clone();
            h[at].0[4] = 0;
            h[at].0[3] = 9;
            assert_eq!(check(&h), Some(Broken::WronglyCommitted { commit: 13 }));
            h[at].0[4] = 1;
            h[at].1[1] = 0;
            assert_eq!(check(&h), Some(Broken::WronglyCommitted { commit: 13 }));
        }
    }

    /// The bought monitor's mistake: the commit after disconnect and fall.
    #[test]
    fn stocktaking() {
        let mut h = history(&[
            [0, 0, 1, 0, 0, 0],
            [0, 1, 1, 0, 0, 0],
            [0, 1, 10, 5, 0, 0],
            [0, 0, 3, 0, 0, 0],
            [0, 0, 13, 5, 4, 7],
            [0, 1, 14, 0, 0, 0],
            [0, 0, 19, 1, 0, 0],
            [0, 1, 21, 0, 0, 0],
            [0, 0, 4, 0, 0, 0],
        ]);
        assert_eq!(check(&h), None);
        h[8].1[0] = 0;
        assert_eq!(check(&h), Some(Broken::WronglyCommitted { commit: 8 }));
    }

    /// Party 0 begins and reports b of manager 1, then commits.
    fn reported(reports: &[[u32; 3]]) -> Vec<Entry> {
        let mut calls = vec![[0, 0, 1, 0, 0, 0], [0, 0, 3, 0, 0, 0]];
        calls.extend(reports.iter().map(|&[a, b, c]| [0, 0, 22, a, b, c]));
        calls.push([0, 0, 4, 0, 0, 0]);
        history(&calls)
    }

    /// A veto, rolled back, mixed or hazard speaks against a commit; what is
    /// prepared, read-only or committed does not.
    #[test]
    fn reports_against() {
        for (b, code) in [(0, 0), (1, 0), (2, -2), (3, 0), (4, -2), (5, -3), (6, -4)] {
            for c in [0, 1] {
                let mut h = reported(&[[1, b, c]]);
                assert_eq!(standing_reports(&h, 1), [(1, b)]);
                assert_eq!(h[3].1[0], code);
                // Without the reason a code other than 0 would be wrong here.
                assert_eq!(check(&h), None, "{b}");
                let against = matches!(b, 2 | 4 | 5 | 6);
                assert_eq!(commit(&h, 3).unwrap().report_against, against);
                for code in [0, -100, -2, -3, -4, -9, -102, -103, -104, -109] {
                    h[3].1[0] = code;
                    let found = match (matches!(code, 0 | -100), against) {
                        (true, true) => Some(Broken::WronglyCommitted { commit: 3 }),
                        (false, false) => Some(Broken::WronglyRolledBack { commit: 3 }),
                        _ => None,
                    };
                    assert_eq!(check(&h), found, "{b} {code}");
                }
            }
        }
    }

    /// A manager's last report is the one that stands.
    #[test]
    fn last_report_stands() {
        for bad in [2, 4, 5, 6] {
            for good in [0, 1, 3] {
                // Any report, or the first one, would speak against this.
                let mut h = reported(&[[1, bad, 0], [1, good, 0]]);
                assert_eq!((h[4].1[0], check(&h)), (0, None));
                h[4].1[0] = -2;
                assert_eq!(check(&h), Some(Broken::WronglyRolledBack { commit: 4 }));

                let mut h = reported(&[[1, good, 0], [1, bad, 0]]);
                assert_eq!(check(&h), None);
                h[4].1[0] = 0;
                assert_eq!(check(&h), Some(Broken::WronglyCommitted { commit: 4 }));

                // Another manager's report replaces none.
                let mut h = reported(&[[1, bad, 0], [2, good, 0]]);
                assert_eq!(standing_reports(&h, 1), [(2, good), (1, bad)]);
                assert_eq!(check(&h), None);
                h[4].1[0] = 0;
                assert_eq!(check(&h), Some(Broken::WronglyCommitted { commit: 4 }));
            }
        }
    }

    /// A refused report is none: neither against nor in place of another.
    #[test]
    fn refused_reports_do_not_stand() {
        let mut h = reported(&[[1, 2, 2], [4, 2, 0], [1, 0, 0]]);
        assert_eq!([code(&h[2]), code(&h[3]), code(&h[4])], [34, 34, 0]);
        assert_eq!((h[5].1[0], check(&h)), (0, None));
        // Nor would one of a manager that there is not, if it were accepted.
        h[3].1[0] = 0;
        assert_eq!((standing_reports(&h, 1), check(&h)), (vec![(1, 0)], None));
        h[2].1[0] = 0;
        h.swap(2, 4);
        assert_eq!(check(&h), Some(Broken::WronglyCommitted { commit: 5 }));

        let mut h = reported(&[[1, 2, 0], [1, 0, 2]]);
        assert_eq!((code(&h[3]), h[4].1[0], check(&h)), (34, -2, None));
        h[4].1[0] = 0;
        assert_eq!(check(&h), Some(Broken::WronglyCommitted { commit: 4 }));

        // A server's, though its answer ends in T.
        let h = history(&[
            [0, 0, 1, 0, 0, 0],
            [0, 1, 1, 0, 0, 0],
            [0, 1, 10, 5, 0, 0],
            [0, 0, 3, 0, 0, 0],
            [0, 0, 12, 5, 0, 7],
            [0, 1, 14, 0, 0, 0],
            [0, 1, 22, 0, 2, 0],
            [0, 1, 20, 1, 0, 6],
            [0, 0, 15, 1, 0, 0],
            [0, 0, 4, 0, 0, 0],
        ]);
        assert_eq!(h[6].1, [23, 0, 0, 0, 0, 1]);
        assert_eq!((h[9].1[0], check(&h)), (0, None));
    }

    /// Only reports that end in T count: not one of an earlier transaction, nor
    /// another party's on its own, nor one after the commit.
    #[test]
    fn reports_of_other_transactions() {
        let mut h = history(&[
            [0, 0, 1, 0, 0, 0],
            [0, 0, 8, 1, 0, 0],
            [0, 1, 1, 0, 0, 0],
            [0, 0, 3, 0, 0, 0],
            [0, 1, 3, 0, 0, 0],
            [0, 1, 22, 0, 2, 0],
            [0, 0, 4, 0, 0, 0],
            [0, 0, 22, 0, 2, 0],
            [0, 0, 4, 0, 0, 0],
            [0, 0, 4, 0, 0, 0],
            [0, 1, 4, 0, 0, 0],
        ]);
        let codes: Vec<i64> = [6, 8, 9, 10].map(|at| code(&h[at])).into();
        assert_eq!(codes, [0, -2, 0, -2]);
        assert_eq!(standing_reports(&h, 1), []);
        assert_eq!(standing_reports(&h, 2), [(0, 2)]);
        assert_eq!(standing_reports(&h, 3), [(0, 2)]);
        assert_eq!(check(&h), None);
        for (at, other) in [(6, -2), (9, -2)] {
            let mut h = h.clone();
            h[at].1[0] = other;
            assert_eq!(check(&h), Some(Broken::WronglyRolledBack { commit: at }));
        }
        for at in [8, 10] {
            h[at].1[0] = 0;
            assert_eq!(check(&h), Some(Broken::WronglyCommitted { commit: at }));
            h[at].1[0] = -2;
        }
        let mut h = reported(&[[1, 0, 0]]);
        h.push(([0, 0, 22, 1, 2, 0], [0, 0, 0, 0, 0, 1]));
        assert_eq!((h[3].1[0], check(&h)), (0, None));
    }

    /// Another reason is one beside the managers': all committed is not
    /// "committed" after the other decision, and -100 is, where one can't start.
    #[test]
    fn reports_and_other_reasons() {
        let calls = [
            [0, 0, 1, 0, 0, 0],
            [0, 0, 9, 10, 0, 0],
            [0, 0, 8, 1, 0, 0],
            [0, 0, 3, 0, 0, 0],
            [0, 0, 22, 0, 3, 1],
            [9, 0, 4, 0, 0, 0],
        ];
        let mut h = history(&calls);
        assert_eq!((h[5].1[0], check(&h)), (-100, None));
        h[5].1[0] = -109;
        assert_eq!(check(&h), Some(Broken::WronglyRolledBack { commit: 5 }));

        let mut calls = calls;
        calls[5][0] = 10;
        let mut h = history(&calls);
        assert_eq!((h[5].1[0], check(&h)), (-109, None));
        h[5].1[0] = -100;
        assert_eq!(check(&h), Some(Broken::WronglyCommitted { commit: 5 }));
    }
    /// Rights are what the last accepted 23 said, whoever fell since; what they
    /// forbid is 35, and only that.
    #[test]
    fn rights() {
        let h = history(&[
            [0, 1, 10, 5, 0, 0],
            [0, 1, 10, 40, 0, 0],
            [0, 1, 23, 99, 0, 0],
            [0, 0, 23, 32, 0, 0],
            [0, 0, 23, 3, 0, 0],
            [0, 1, 10, 5, 0, 0],
            [0, 2, 12, 5, 0, 0],
            [0, 0, 23, 4, 0x10, 0],
            [0, 2, 12, 40, 0, 0],
            [0, 2, 12, 5, 2, 0],
            [0, 2, 12, 5, 9, 0],
            [0, 2, 21, 0, 0, 0],
            [0, 2, 13, 40, 4, 0],
            [0, 0, 23, 4, 0, 0x80],
            [0, 2, 13, 40, 4, 0],
            [0, 2, 13, 41, 4, 0],
            [0, 2, 13, 5, 4, 0],
            [0, 16, 12, 5, 0, 0],
            [0, 2, 99, 0, 0, 0],
        ]);
        let codes: Vec<i64> = h.iter().map(code).collect();
        assert_eq!(
            codes,
            [0, 0, 35, 22, 0, 35, 0, 0, 35, 0, 22, 0, 35, 0, 0, 35, 35, 21, 20]
        );
        assert_eq!((check_rights(&h), check_refusals(&h)), (None, None));
        assert_eq!(check(&h), None);
        for (at, other) in [
            (2, 22),
            (2, 0),
            (3, 0),
            (3, 35),
            (4, 35),
            (4, 22),
            (5, 0),
            (5, 26),
            (6, 35),
            (8, 25),
            (9, 35),
            (11, 35),
            (12, 0),
            (14, 35),
            (15, 25),
            (16, 0),
        ] {
            let mut h = h.clone();
            h[at].1[0] = other;
            assert_eq!(check_rights(&h), Some(Broken::Rights { at }), "{at}");
        }
        // 22 tells nothing of a right; a service that there is not is 22.
        let mut h = h;
        h[10].0[3] = 77;
        assert_eq!(check_rights(&h), None);
        h[10].1[0] = 35;
        assert_eq!(check_rights(&h), Some(Broken::Rights { at: 10 }));
    }

    /// Kind 23 in a list: the sender rule and the commit rule read as before.
    #[test]
    fn rights_among_the_rest() {
        let h = good();
        for at in 0..h.len() {
            // Rights that are taken from both ends, and a 23 that is refused.
            let mut calls: Vec<[u32; 6]> = h.iter().map(|entry| entry.0).collect();
            let clock = calls[at][0];
            calls.insert(at, [clock, 1, 23, 0, 0, 0]);
            let refused = history(&calls);
            assert_eq!((code(&refused[at]), check(&refused)), (35, None));
            assert_eq!(code(refused.last().unwrap()), 0);
            calls[at] = [clock, 0, 23, 0, 0, 0];
            calls.insert(at, [clock, 0, 23, 3, 0, 0]);
            let taken = history(&calls);
            assert_eq!((code(&taken[at]), code(&taken[at + 1])), (0, 0));
            assert_eq!((check(&taken), check_rights(&taken)), (None, None));
            let before_connect = at <= 5;
            assert_eq!(taken.iter().any(|entry| code(entry) == 35), before_connect);
            // Without the conversation there is nothing unfinished.
            assert_eq!(code(taken.last().unwrap()), 0);
        }
    }
}
