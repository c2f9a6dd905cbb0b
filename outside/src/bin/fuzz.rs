//! fuzz SEED COUNT: about COUNT random calls in many histories from fresh
//! monitors, through `step` and through the history statement.
//!
//! Also asked: a step keeps a record sound; a refusal changes nothing but the
//! clock (and up to question 21 nothing at all) and has zeros beside its number
//! and T; a fetch of any reply is told by fetches by number; a commit's code is
//! the most severe of what its managers' reports give two by two; what a right
//! forbids is 35 and the rest is as with all rights; a success in a lost
//! transaction is told by a fall, and any other by a transaction that is not lost;
//! a list does what its calls do; a drill file is read as written; and the same on
//! records no list reaches, made by changing fields at random. Of a history, its rights, whether something
//! was there to take, fetch, receive or have room for, and how its services end
//! are also read off the calls and answers alone.

use outside::drill;
use outside::generator::{self, Generator, Rng};
use outside::history::{self, Entry};
use outside::lost;
use outside::monitor::{
    equal, equal_with_tokens, run_list, step, Cut, End, Kind, Link, Monitor, Party, State,
    ALL_SERVICES, LAST_NUMBER, LINKS, MANAGERS, PARTIES,
};
use outside::nothing;
use std::process::ExitCode;

/// What came, to see that deep states did.
#[derive(Default, Debug)]
struct Tally {
    histories: u64,
    calls: u64,
    commits: u64,
    committed: u64,
    committed_with_links: u64,
    committed_with_others_links: u64,
    /// A fetch of any reply finished a link of the transaction.
    committed_with_any_fetch: u64,
    rolled_back: u64,
    only_failed_end: u64,
    /// A disconnected link is unfinished for good, so both come together.
    disconnect_and_unfinished: u64,
    only_deadline: u64,
    only_unfinished: u64,
    only_report: u64,
    /// Committed with a report that was replaced and spoke against it.
    committed_with_replaced_report: u64,
    committed_with_report: u64,
    most_links_of_one_commit: usize,
    most_turns_on_a_link: u64,
    deepest_nesting: u64,
    full_links: u64,
    rights_set: u64,
    /// Kinds 10, 12 and 13 answered 35; of these, of services above 32.
    not_permitted: [u64; 3],
    not_permitted_above_32: [u64; 3],
    /// Accepted while some service was lacking.
    permitted_by_part: [u64; 3],
    /// A party took a link of a service that it may no longer advertise.
    taken_without_right: u64,
    /// Falls of parties that lack a right.
    fell_lacking: u64,
    empty_takes: u64,
    /// By number, and of any reply.
    fetches_of_nothing: [u64; 2],
    receives_of_nothing: u64,
    sends_on_full_links: u64,
    /// Successes answered 2 for nothing but their transaction: of requests
    /// and of conversations; in doomed ones that are not expired, in expired ones
    /// that are not doomed, and in those that are both.
    lost_requests: [u64; 3],
    lost_conversations: [u64; 3],
    /// Of these, with unread data by the free holder, which 8 would have kept.
    lost_unread: u64,
    sound_changed_records: u64,
    unsound_records: u64,
}

/// Soundness once more, word for word from the document.
fn literally_sound(m: &Monitor) -> bool {
    if m.link_count > 32 {
        return false;
    }
    let links = &m.links[..m.link_count];
    let rising = links.windows(2).all(|pair| pair[0].number < pair[1].number);
    let in_range = links
        .iter()
        .all(|l| l.number >= 1 && l.number <= m.last_link);
    let last_numbers = m.last_link <= 60_000 && m.last_transaction <= 60_000;
    let parties = links.iter().all(|l| l.originator <= 15 && l.server <= 15);
    let unread = links.iter().all(|l| l.unread_count <= 4);
    let choices = links.iter().all(|l| [0, 2, 4, 8].contains(&l.outcome))
        && m.parties.iter().all(|p| [0, 1].contains(&p.control));
    // None, or one of seven for a manager that can start or can't.
    let reports = m
        .parties
        .iter()
        .flat_map(|p| p.reports)
        .all(|r| r == 0 || (0..7).any(|b| r == 1 + b || r == 8 + b));
    let returned = links
        .iter()
        .all(|l| l.state != State::Returned || l.outcome != 0);
    let served = m.parties.iter().enumerate().all(|(p, party)| {
        let names = |l: &Link| {
            l.number == party.served && l.state == State::Working && usize::from(l.server) == p
        };
        party.served == 0 || links.iter().any(names)
    });
    rising
        && in_range
        && last_numbers
        && parties
        && unread
        && choices
        && reports
        && returned
        && served
}

/// A record compared bit by bit, sound or not.
fn same(one: &Monitor, two: &Monitor) -> bool {
    format!("{one:?}") == format!("{two:?}")
}

/// Asks what must hold of one step, whatever the record.
fn check_step(
    before: &Monitor,
    after: &Monitor,
    call: [u32; 6],
    answer: [i64; 6],
) -> Result<(), String> {
    let fail = |what: &str| {
        Err(format!(
            "{what}: call {call:?} answer {answer:?} before {before:?} after {after:?}"
        ))
    };
    for m in [before, after] {
        if m.is_sound() != literally_sound(m) {
            return fail("soundness misjudged");
        }
    }
    if !before.is_sound() {
        return if answer == [19, 0, 0, 0, 0, 0] && same(before, after) {
            Ok(())
        } else {
            fail("unsound")
        };
    }
    if !after.is_sound() {
        return fail("soundness lost");
    }
    let [code, value, event, token, service, t] = answer;
    let malformed = matches!(code, 19..=21);
    let clock = if malformed {
        before.clock
    } else {
        before.clock.max(call[0])
    };
    if after.clock != clock {
        return fail("clock");
    }
    if history::is_refusal(code) {
        let mut expected = before.clone();
        expected.clock = clock;
        if !equal_with_tokens(&expected, after) {
            return fail("a refusal changed something");
        }
        if [value, event, token, service] != [0; 4] {
            return fail("a refusal with something beside");
        }
    }
    let own = if malformed {
        0
    } else {
        i64::from(after.transaction(call[1] as usize))
    };
    if t != own {
        return fail("last field");
    }
    if malformed {
        return Ok(());
    }
    match (call[2], call[4]) {
        (15, 1) => check_any_fetch(before, after, call, answer),
        (4 | 5, _) => check_end(before, after, call, answer),
        (10 | 12 | 13, _) => check_permitted(before, after, call, answer),
        (21, _) => {
            let Party {
                may_request,
                may_advertise,
                ..
            } = before.parties[call[1] as usize];
            let expected = Party {
                may_request,
                may_advertise,
                ..Party::fresh()
            };
            match after.parties[call[1] as usize] == expected {
                true => Ok(()),
                false => fail("a fall"),
            }
        }
        (20, _) => check_success(before, after, call, answer),
        (23, _) => check_rights_set(before, after, call, answer),
        _ => Ok(()),
    }
}

/// A success in a live transaction, and what the same call gives where that is
/// neither doomed nor expired.
struct FoundAgain {
    link: Link,
    owner: usize,
    doomed: bool,
    expired: bool,
    monitor: Monitor,
    answer: [i64; 6],
}

fn found_again(before: &Monitor, call: [u32; 6]) -> Option<FoundAgain> {
    let [clock, party, 20, 1, _, _] = call else {
        return None;
    };
    let served = before.parties.get(party as usize)?.served;
    let link = *before.links().iter().find(|l| l.number == served)?;
    let owner = before.owner(link.transaction)?;
    let mut monitor = before.clone();
    let of = &mut monitor.parties[owner];
    let expired = of.deadline != 0 && u64::from(clock.max(before.clock)) >= of.deadline;
    (of.doomed, of.deadline) = (false, 0);
    let answer = step(&mut monitor, call);
    Some(FoundAgain {
        link,
        owner,
        doomed: before.parties[owner].doomed,
        expired,
        monitor,
        answer,
    })
}

/// A success: in a lost transaction, where it would be 8 otherwise, the
/// party serves none and all else is as if it fell; elsewhere all is as it would
/// be otherwise.
fn check_success(
    before: &Monitor,
    after: &Monitor,
    call: [u32; 6],
    answer: [i64; 6],
) -> Result<(), String> {
    let Some(found) = found_again(before, call) else {
        return Ok(());
    };
    let mut expected = found.monitor;
    let mut told = found.answer;
    let p = call[1] as usize;
    if told[1] == 8 && (found.doomed || found.expired) {
        told[1] = 2;
        expected = before.clone();
        step(&mut expected, [call[0], call[1], 21, 0, 0, 0]);
        expected.parties[p] = before.parties[p];
        expected.parties[p].served = 0;
    } else if expected.parties[found.owner].owned == found.link.transaction {
        let of = &mut expected.parties[found.owner];
        of.doomed |= found.doomed;
        of.deadline = before.parties[found.owner].deadline;
    }
    if answer == told && equal_with_tokens(&expected, after) {
        return Ok(());
    }
    Err(format!(
        "a success: call {call:?} answer {answer:?}, expected {told:?}, before {before:?}"
    ))
}

/// What needs a right, from the same call with all rights.
fn check_permitted(
    before: &Monitor,
    after: &Monitor,
    call: [u32; 6],
    answer: [i64; 6],
) -> Result<(), String> {
    let [_, party, kind, a, ..] = call;
    let p = party as usize;
    let mut free = before.clone();
    free.parties[p].may_request = ALL_SERVICES;
    free.parties[p].may_advertise = ALL_SERVICES;
    let mut expected = step(&mut free, call);
    let own = before.parties[p];
    let set = match kind {
        10 => own.may_advertise,
        _ => own.may_request,
    };
    // The set as a list, service 1 first.
    let may: Vec<bool> = (0..64).map(|n| (set / 2u64.pow(n)) % 2 == 1).collect();
    if expected[0] != 22 && !may[a as usize - 1] {
        free = before.clone();
        free.clock = free.clock.max(call[0]);
        expected = [35, 0, 0, 0, 0, i64::from(before.transaction(p))];
    }
    free.parties[p].may_request = own.may_request;
    free.parties[p].may_advertise = own.may_advertise;
    if answer == expected && equal_with_tokens(&free, after) {
        return Ok(());
    }
    Err(format!(
        "a right: call {call:?} answer {answer:?}, expected {expected:?}, before {before:?}"
    ))
}

/// Kind 23, from its words.
fn check_rights_set(
    before: &Monitor,
    after: &Monitor,
    call: [u32; 6],
    answer: [i64; 6],
) -> Result<(), String> {
    let [clock, party, _, a, b, c] = call;
    let mut expected = before.clone();
    expected.clock = expected.clock.max(clock);
    let code = match (party, a) {
        (1.., _) => 35,
        (0, 32..) => 22,
        (0, _) => 0,
    };
    if code == 0 {
        let of = &mut expected.parties[a as usize >> 1];
        let set = [&mut of.may_request, &mut of.may_advertise].into_iter();
        for set in set.skip(a as usize & 1).take(1) {
            *set = (1..=64)
                .filter(|&service| match service {
                    1..=32 => b >> (service - 1) & 1 == 1,
                    _ => c >> (service - 33) & 1 == 1,
                })
                .fold(0, |set, service| set + 2u64.pow(service - 1));
        }
    }
    let t = i64::from(before.transaction(party as usize));
    if answer == [code, 0, 0, 0, 0, t] && equal_with_tokens(&expected, after) {
        return Ok(());
    }
    Err(format!(
        "rights: call {call:?} answer {answer:?} before {before:?} after {after:?}"
    ))
}

/// The end of a transaction by its owner, from the same end without reports.
fn check_end(
    before: &Monitor,
    after: &Monitor,
    call: [u32; 6],
    answer: [i64; 6],
) -> Result<(), String> {
    let p = call[1] as usize;
    let mut plain = before.clone();
    plain.parties[p].reports = [0; MANAGERS];
    let unreported = step(&mut plain, call);
    if unreported[0] == -5 {
        return if answer == unreported {
            Ok(())
        } else {
            Err(format!(
                "an end by another: call {call:?} before {before:?}"
            ))
        };
    }
    let said: Vec<(u32, bool)> = before.parties[p]
        .reports
        .into_iter()
        .filter(|&report| report != 0)
        .map(|report| ((report - 1) % 7, report > 7))
        .collect();
    let mut code = if unreported[0] <= -100 {
        unreported[0] + 100
    } else {
        unreported[0]
    };
    if call[2] == 4 {
        code = combined(code == 0, said.iter().map(|&(b, _)| b));
    }
    let stops = before.parties[p].control == 1 && said.iter().any(|&(_, cant_start)| cant_start);
    // As it would be without reports, but for a transaction that can't start.
    if stops && unreported[0] > -100 {
        plain.parties[p].owned = 0;
        plain.parties[p].deadline = 0;
        plain.last_transaction -= 1;
    }
    if stops || unreported[0] <= -100 {
        code -= 100;
    }
    if answer[0] != code || !equal_with_tokens(&plain, after) {
        return Err(format!(
            "an end: call {call:?} answer {answer:?}, expected {code}, before {before:?}"
        ));
    }
    Ok(())
}

/// The code of a commit by document 002's appendix B: what two managers give
/// together, and of all that the most severe. `sound` is the decision but for
/// vetoes.
fn combined(sound: bool, reports: impl Iterator<Item = u32>) -> i64 {
    let counted: Vec<u32> = reports.filter(|&b| b != 1).collect();
    let commits = sound && !counted.contains(&2);
    // Each manager's own end: 'c' committed, 'r' rolled back, 'm', 'h'.
    let ends: Vec<char> = counted
        .iter()
        .map(|&b| match b {
            0 if commits => 'c',
            0 | 2 | 4 => 'r',
            3 => 'c',
            5 => 'm',
            _ => 'h',
        })
        .collect();
    let pair = |one: char, two: char| match (one, two) {
        ('m', _) | (_, 'm') | ('c', 'r') | ('r', 'c') => -3,
        ('h', _) | (_, 'h') => -4,
        ('c', _) if commits => 0,
        ('c', _) => -9,
        _ => -2,
    };
    let severity = |code: &i64| match code {
        -3 => 3,
        -4 => 2,
        0 => 0,
        _ => 1,
    };
    ends.iter()
        .flat_map(|&one| ends.iter().map(move |&two| pair(one, two)))
        .max_by_key(severity)
        .unwrap_or(if commits { 0 } else { -2 })
}

/// A fetch of any reply, from fetches by number: the answer and record of the
/// first that gives a reply, with its number as value, unless one is 28.
fn check_any_fetch(
    before: &Monitor,
    after: &Monitor,
    call: [u32; 6],
    answer: [i64; 6],
) -> Result<(), String> {
    let [clock, party, _, _, _, c] = call;
    let by_number: Vec<(u32, [i64; 6], Monitor)> = before
        .links()
        .iter()
        .map(|link| {
            let mut m = before.clone();
            let answer = step(&mut m, [clock, party, 15, link.number, 0, c]);
            (link.number, answer, m)
        })
        .filter(|(_, answer, _)| answer[0] != 24)
        .collect();
    let came = |code| by_number.iter().any(|(_, answer, _)| answer[0] == code);
    let reply = by_number.iter().find(|(_, answer, _)| answer[0] != 36);
    let good = match (answer[0], reply) {
        (24, _) => by_number.is_empty(),
        (28, _) => came(28),
        (36, None) => !by_number.is_empty(),
        (_, Some((number, same, m))) => {
            let [code, _, event, token, service, t] = *same;
            !came(28)
                && answer == [code, i64::from(*number), event, token, service, t]
                && equal_with_tokens(m, after)
        }
        (_, None) => false,
    };
    if good {
        Ok(())
    } else {
        Err(format!(
            "a fetch of any reply: call {call:?} answer {answer:?} before {before:?}"
        ))
    }
}

/// Adds to the tally from a history's commits and turns.
fn tally_history(entries: &[Entry], from: usize, tally: &mut Tally) {
    let mut turns = std::collections::HashMap::new();
    for at in from..entries.len() {
        let (call, answer) = entries[at];
        if call[2] == 18 && answer[0] == 29 && answer[2] == 32 {
            let turns = turns.entry(call[3]).or_insert(0);
            *turns += 1;
            tally.most_turns_on_a_link = tally.most_turns_on_a_link.max(*turns);
        }
        let Some(commit) = history::commit(entries, at) else {
            continue;
        };
        tally.commits += 1;
        tally.most_links_of_one_commit = tally.most_links_of_one_commit.max(commit.links.len());
        if commit.committed {
            tally.committed += 1;
            tally.committed_with_links += u64::from(!commit.links.is_empty());
            let others = commit
                .links
                .iter()
                .any(|&(_, originator)| originator != call[1]);
            tally.committed_with_others_links += u64::from(others);
            let any_fetch = entries[..at].iter().any(|(call, answer)| {
                (call[2], call[4], answer[0]) == (15, 1, 0)
                    && commit.links.iter().any(|&(d, _)| d == answer[1])
            });
            tally.committed_with_any_fetch += u64::from(any_fetch);
            let t = last_answer(&entries[..at], call[1]);
            let reports = || {
                entries[..at]
                    .iter()
                    .filter(|(call, answer)| (call[2], answer[0], answer[5]) == (22, 0, t))
            };
            tally.committed_with_report += u64::from(reports().next().is_some());
            let against = reports().any(|(call, _)| matches!(call[4], 2 | 4 | 5 | 6));
            tally.committed_with_replaced_report += u64::from(against);
            continue;
        }
        tally.rolled_back += 1;
        match (
            commit.failed_end,
            commit.disconnect,
            commit.passed_deadline,
            commit.unfinished,
            commit.report_against,
        ) {
            (true, false, false, false, false) => tally.only_failed_end += 1,
            (false, true, false, true, false) => tally.disconnect_and_unfinished += 1,
            (false, false, true, false, false) => tally.only_deadline += 1,
            (false, false, false, true, false) => tally.only_unfinished += 1,
            (false, false, false, false, true) => tally.only_report += 1,
            _ => {}
        }
    }
}

/// Adds to the tally what has to do with rights.
fn tally_rights(before: &Monitor, call: [u32; 6], answer: [i64; 6], tally: &mut Tally) {
    let [_, party, kind, a, ..] = call;
    let Some(of) = before.parties.get(party as usize) else {
        return;
    };
    let place = match kind {
        10 => 0,
        12 => 1,
        13 => 2,
        14 if answer[0] == 0 => {
            let right = of.may_advertise >> (answer[4] - 1) & 1 == 1;
            tally.taken_without_right += u64::from(!right);
            return;
        }
        21 => {
            let all = of.may_request & of.may_advertise == ALL_SERVICES;
            tally.fell_lacking += u64::from(!all);
            return;
        }
        23 => {
            tally.rights_set += u64::from(answer[0] == 0);
            return;
        }
        _ => return,
    };
    let set = match kind {
        10 => of.may_advertise,
        _ => of.may_request,
    };
    match answer[0] {
        35 => {
            tally.not_permitted[place] += 1;
            tally.not_permitted_above_32[place] += u64::from(a > 32);
        }
        0 => tally.permitted_by_part[place] += u64::from(set != ALL_SERVICES),
        _ => {}
    }
}

/// Adds to the tally what came with nothing there.
fn tally_nothing(call: [u32; 6], answer: [i64; 6], tally: &mut Tally) {
    match (call[2], answer[0]) {
        (14, 32) => tally.empty_takes += 1,
        (15, 36) => tally.fetches_of_nothing[usize::from(call[4] == 1)] += 1,
        (18, 36) => tally.receives_of_nothing += 1,
        (17, 37) => tally.sends_on_full_links += 1,
        _ => {}
    }
}

/// Adds to the tally a success that only its lost transaction makes an error.
fn tally_lost(before: &Monitor, call: [u32; 6], answer: [i64; 6], tally: &mut Tally) {
    let Some(found) = found_again(before, call).filter(|found| found.answer[1] == 8) else {
        return;
    };
    let how = match (found.doomed, found.expired) {
        (false, false) => return,
        (true, false) => 0,
        (false, true) => 1,
        (true, true) => 2,
    };
    assert_eq!(answer[1], 2);
    match found.link.kind {
        Kind::Request => tally.lost_requests[how] += 1,
        Kind::Conversation => tally.lost_conversations[how] += 1,
    }
    tally.lost_unread += u64::from(found.link.unread_count > 0);
}

/// The transaction that the party's latest answer past question 21 ends in.
fn last_answer(entries: &[Entry], party: u32) -> i64 {
    let mut own = entries.iter().rev();
    let latest = own.find(|(call, answer)| call[1] == party && !matches!(answer[0], 19..=21));
    latest.map_or(0, |(_, answer)| answer[5])
}

/// How deep services are nested: a served link whose originator serves, too.
fn nesting(m: &Monitor) -> u64 {
    (0..PARTIES)
        .map(|mut p| {
            let mut depth = 0;
            // Links whose originator's end is closed do not count.
            while let Some(l) = m
                .links()
                .iter()
                .find(|l| l.open && l.number == m.parties[p].served)
            {
                depth += 1;
                p = usize::from(l.originator);
            }
            depth
        })
        .max()
        .unwrap_or(0)
}

/// Checks a whole history: the statement from place `from` on, list, file.
fn check_history(
    entries: &[Entry],
    from: usize,
    last: &Monitor,
    rng: &mut Rng,
) -> Result<(), String> {
    if let Some(broken) = history::check_from(entries, from) {
        return Err(format!("history: {broken:?} in {entries:?}"));
    }
    if let Some(broken) = history::check_refusals(entries) {
        return Err(format!("history: {broken:?} in {entries:?}"));
    }
    if let Some(broken) = history::check_rights(entries) {
        return Err(format!("history: {broken:?} in {entries:?}"));
    }
    if let Some(broken) = nothing::check_nothing(entries) {
        return Err(format!("history: {broken:?} in {entries:?}"));
    }
    if let Some(broken) = lost::check_lost(entries) {
        return Err(format!("history: {broken:?} in {entries:?}"));
    }
    // The same calls as lent lists, cut anywhere, and as a drill file.
    let mut m = Monitor::fresh();
    let mut rest = entries;
    while !rest.is_empty() {
        let (part, later) = rest.split_at(1 + rng.below(rest.len() as u32) as usize);
        rest = later;
        let calls: Vec<u32> = part.iter().flat_map(|entry| entry.0).collect();
        let mut answers = vec![77i64; calls.len() + 3];
        let expected: Vec<i64> = part
            .iter()
            .flat_map(|entry| entry.1)
            .chain([77; 3])
            .collect();
        if run_list(&mut m, &calls, &mut answers) != 0 || answers != expected {
            return Err("a list is not its calls".into());
        }
    }
    if !equal_with_tokens(&m, last) || !equal(&m, last) {
        return Err("a list leaves another monitor".into());
    }
    let mut file = Vec::new();
    let mut lines = Vec::new();
    let mut expected = Vec::new();
    for (call, answer) in entries {
        drill::push_call(call, &mut file);
        drill::push_answer(answer, &mut expected);
    }
    drill::run(&file[..], &mut lines).map_err(|e| e.to_string())?;
    if lines != expected {
        return Err("a drill file is not its calls".into());
    }
    Ok(())
}

/// Changes a field at random, mostly so that the record may stay sound.
fn change(m: &mut Monitor, rng: &mut Rng) {
    let wild = rng.once_in(12);
    let number = |rng: &mut Rng, near: u32| {
        if wild {
            rng.next_u32()
        } else {
            rng.below(near.saturating_add(2))
        }
    };
    let (last_link, last_transaction) = (m.last_link, m.last_transaction);
    match rng.below(24) {
        0 => m.clock = number(rng, 100),
        1 => {
            m.last_link = if wild {
                LAST_NUMBER + rng.below(2)
            } else {
                m.last_link.min(LAST_NUMBER - 1) + 1
            }
        }
        2 => {
            m.last_transaction = if wild {
                LAST_NUMBER + rng.below(2)
            } else {
                m.last_transaction
            }
        }
        3 => {
            m.link_count = if wild {
                LINKS + 1
            } else {
                m.link_count.saturating_sub(1)
            }
        }
        4..=11 => {
            let p = rng.below(PARTIES as u32) as usize;
            let link = if m.link_count > 0 && m.link_count <= LINKS {
                m.links()[rng.below(m.link_count as u32) as usize].number
            } else {
                1
            };
            let party = &mut m.parties[p];
            match rng.below(12) {
                0 => party.opened = !party.opened,
                1 => party.control = rng.below(if wild { 4 } else { 2 }) as u8,
                2 => party.timeout = number(rng, 5),
                3 => party.services = u64::from(rng.next_u32()) << 32 | u64::from(rng.next_u32()),
                4 => party.owned = number(rng, last_transaction),
                5 => party.deadline = u64::from(number(rng, 100)),
                6 => party.doomed = !party.doomed,
                7 | 8 => {
                    let manager = rng.below(MANAGERS as u32) as usize;
                    party.reports[manager] = match wild {
                        true => rng.pick(&[14, 15, 16, 255, 256, u32::MAX]),
                        false => rng.below(15),
                    };
                }
                9 | 10 => {
                    // Without one service, or any set.
                    let set = match rng.once_in(2) {
                        true => !(1 << rng.below(64)),
                        false => u64::from(rng.next_u32()) << 32 | u64::from(rng.next_u32()),
                    };
                    match rng.once_in(2) {
                        true => party.may_request = set,
                        false => party.may_advertise = set,
                    }
                }
                _ => party.served = if rng.once_in(2) { 0 } else { link },
            }
        }
        _ if m.link_count == 0 || m.link_count > LINKS => {
            m.link_count = 1;
            m.links[0] = Link {
                number: last_link,
                ..Link::fresh()
            };
        }
        _ => {
            let i = rng.below(m.link_count as u32) as usize;
            let link = &mut m.links[i];
            match rng.below(16) {
                0 => link.number = number(rng, last_link),
                1 => link.kind = rng.pick(&[Kind::Request, Kind::Conversation]),
                2 => link.originator = rng.below(if wild { 20 } else { 16 }) as u8,
                3 => link.open = !link.open,
                4 => link.service = number(rng, 64),
                5 => link.transaction = number(rng, last_transaction),
                6 => link.state = rng.pick(&[State::Waiting, State::Working, State::Returned]),
                7 => link.server = rng.below(if wild { 20 } else { 16 }) as u8,
                8 => link.first_token = rng.next_u32(),
                9 | 10 => {
                    link.outcome = if wild {
                        rng.below(10) as u8
                    } else {
                        rng.pick(&[0, 2, 4, 8])
                    }
                }
                11 => link.ending_token = rng.next_u32(),
                12 => link.holder = rng.pick(&[End::Originator, End::Server]),
                13 => link.handing_over = !link.handing_over,
                14 => link.cut = rng.pick(&[Cut::No, Cut::Cut, Cut::Told]),
                _ => link.unread_count = rng.below(if wild { 7 } else { 5 }) as u8,
            }
        }
    }
}

/// Changes a record and asks what must hold of steps from it.
fn check_changed(
    from: &Monitor,
    generator: &mut Generator,
    rng: &mut Rng,
    tally: &mut Tally,
) -> Result<(), String> {
    let mut m = from.clone();
    for _ in 0..1 + rng.below(4) {
        // Mostly only changes that keep it sound.
        let kept = m.clone();
        change(&mut m, rng);
        if !m.is_sound() && !rng.once_in(6) {
            m = kept;
        }
    }
    let sound = m.is_sound();
    if sound {
        tally.sound_changed_records += 1;
    } else {
        tally.unsound_records += 1;
        let before = m.clone();
        let mut answers = [77; 12];
        let code = run_list(&mut m, &[0; 12], &mut answers);
        let empty = run_list(&mut m, &[], &mut answers);
        let unequal = !equal(&m, &before) && !equal(&before, from);
        if (code, empty, answers) != (19, 19, [77; 12]) || !same(&before, &m) || !unequal {
            return Err(format!("a list on an unsound record: {before:?}"));
        }
    }
    for _ in 0..6 {
        let before = m.clone();
        let call = generator.next_call(if sound { &m } else { from });
        let answer = step(&mut m, call);
        check_step(&before, &m, call, answer)?;
    }
    Ok(())
}

fn fuzz(seed: u64, count: u64, tally: &mut Tally) -> Result<(), String> {
    let mut rng = Rng::new(seed ^ 0x5EED);
    // One history that spends the numbers; the statement is asked at its end.
    let mut entries = Vec::new();
    let mut last = Monitor::fresh();
    generator::spent(seed, &mut |m, call, answer| {
        entries.push((call, answer));
        last = m.clone();
    });
    let from = entries.len() - 2500;
    check_history(&entries, from, &last, &mut rng)?;
    tally_history(&entries, from, tally);
    tally.histories += 1;
    tally.calls += entries.len() as u64;

    while tally.calls < count {
        let mut generator =
            Generator::new(seed.wrapping_mul(1 << 32).wrapping_add(tally.histories));
        let length = rng.pick(&[30, 100, 300, 300, 600, 1200]);
        let mut m = Monitor::fresh();
        let mut entries = Vec::with_capacity(length);
        for _ in 0..length {
            let call = generator.next_call(&m);
            let before = m.clone();
            let answer = step(&mut m, call);
            check_step(&before, &m, call, answer)?;
            tally_rights(&before, call, answer, tally);
            tally_nothing(call, answer, tally);
            tally_lost(&before, call, answer, tally);
            entries.push((call, answer));
            tally.deepest_nesting = tally.deepest_nesting.max(nesting(&m));
            tally.full_links += u64::from(m.link_count == LINKS);
            if rng.once_in(20) {
                check_changed(&m, &mut generator, &mut rng, tally)?;
            }
        }
        check_history(&entries, 0, &m, &mut rng)?;
        tally_history(&entries, 0, tally);
        tally.histories += 1;
        tally.calls += length as u64;
    }
    Ok(())
}

fn main() -> ExitCode {
    let words: Vec<u64> = std::env::args()
        .skip(1)
        .filter_map(|word| word.parse().ok())
        .collect();
    let [seed, count] = words[..] else {
        eprintln!("fuzz SEED COUNT");
        return ExitCode::FAILURE;
    };
    let mut tally = Tally::default();
    let result = fuzz(seed, count, &mut tally);
    println!("{tally:#?}");
    match result {
        Ok(()) => {
            println!("no violation");
            ExitCode::SUCCESS
        }
        Err(what) => {
            println!("VIOLATION {what}");
            ExitCode::FAILURE
        }
    }
}
