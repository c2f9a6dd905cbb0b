//! The monitor's record, its soundness, and the step of one call.

use crate::faults::{is_on, Fault};

/// How many parties share a monitor.
pub const PARTIES: usize = 16;
/// How many links there are at once.
pub const LINKS: usize = 32;
/// How many tokens wait unread on a link.
pub const UNREAD: usize = 4;
/// The last link or transaction number ever given.
pub const LAST_NUMBER: u32 = 60_000;
/// How many services a party offers at once.
pub const OFFERED: u32 = 8;
/// The longest timeout.
pub const LONGEST_TIMEOUT: u32 = 2_147_483_647;
/// How many resource managers report on a transaction (R-4).
pub const MANAGERS: usize = 4;
/// The greatest number of a report.
pub const LAST_REPORT: u32 = 14;
/// The set of all services, 1 to 64.
pub const ALL_SERVICES: u64 = u64::MAX;

/// Outcomes of a service.
pub const SUCCESS: u8 = 8;
pub const FAIL: u8 = 4;
pub const ERROR: u8 = 2;

/// What a manager reports: b of kind 22, up to the last one.
pub const PREPARED: u32 = 0;
pub const READ_ONLY: u32 = 1;
pub const VETO: u32 = 2;
pub const HEURISTIC_COMMITTED: u32 = 3;
pub const HEURISTIC_ROLLED_BACK: u32 = 4;
pub const HEURISTIC_MIXED: u32 = 5;
pub const HEURISTIC_HAZARD: u32 = 6;

#[derive(Clone, Copy, Debug, PartialEq, Eq)]
pub enum Kind {
    Request,
    Conversation,
}

#[derive(Clone, Copy, Debug, PartialEq, Eq)]
pub enum State {
    Waiting,
    Working,
    Returned,
}

#[derive(Clone, Copy, Debug, PartialEq, Eq)]
pub enum End {
    Originator,
    Server,
}

#[derive(Clone, Copy, Debug, PartialEq, Eq)]
pub enum Cut {
    No,
    Cut,
    Told,
}

#[derive(Clone, Copy, Debug, PartialEq, Eq)]
pub struct Party {
    /// Services 1 to 64, service s at bit s - 1.
    pub services: u64,
    /// Deadline of the owned transaction, 0 none.
    pub deadline: u64,
    /// Seconds, 0 none.
    pub timeout: u32,
    /// Owned transaction, 0 none.
    pub owned: u32,
    /// Served link, 0 none.
    pub served: u32,
    pub opened: bool,
    /// 0 unchained, 1 chained.
    pub control: u8,
    pub doomed: bool,
    /// Each manager's report on the owned transaction: 0 none, 1 + b where the
    /// manager can start a new transaction, 8 + b where it can't.
    pub reports: [u32; MANAGERS],
    /// The services that it may request (R-5), as `services`.
    pub may_request: u64,
    /// The services that it may advertise.
    pub may_advertise: u64,
}

/// Whether a service, any number, is in a set.
pub const fn has(set: u64, service: u32) -> bool {
    1 <= service && service <= 64 && set >> (service - 1) & 1 == 1
}

impl Party {
    pub const fn fresh() -> Self {
        Party {
            services: 0,
            deadline: 0,
            timeout: 0,
            owned: 0,
            served: 0,
            opened: false,
            control: 0,
            doomed: false,
            reports: [0; MANAGERS],
            may_request: ALL_SERVICES,
            may_advertise: ALL_SERVICES,
        }
    }

    /// The number of a report.
    pub const fn report(b: u32, cant_start: bool) -> u32 {
        if cant_start {
            8 + b
        } else {
            1 + b
        }
    }

    /// Whether some manager's report is b, whether it can start or not.
    fn has_report(&self, b: u32) -> bool {
        let found = [Party::report(b, false), Party::report(b, true)];
        self.reports.iter().any(|report| found.contains(report))
    }

    fn has_veto(&self) -> bool {
        self.has_report(VETO) && !is_on(Fault::VetoCountsForNothing)
    }

    /// Whether some manager's report says that it can't start.
    fn cant_start(&self) -> bool {
        let first = Party::report(PREPARED, true);
        let last = match is_on(Fault::SomeCantStart) {
            true => Party::report(HEURISTIC_COMMITTED, true),
            false => Party::report(HEURISTIC_HAZARD, true),
        };
        self.reports
            .iter()
            .any(|report| (first..=last).contains(report))
    }

    /// The code of a commit, by the decision and the reports.
    fn commit_code(&self, commits: bool) -> i64 {
        // Prepared counts as the decision, a veto as rolled back.
        let prepared = self.has_report(PREPARED);
        let committed = self.has_report(HEURISTIC_COMMITTED) || prepared && commits;
        let rolled_back =
            self.has_report(HEURISTIC_ROLLED_BACK) || self.has_veto() || prepared && !commits;
        if self.has_report(HEURISTIC_MIXED) || committed && rolled_back {
            -3
        } else if self.has_report(HEURISTIC_HAZARD) {
            if is_on(Fault::HazardIsGood) {
                0
            } else {
                -4
            }
        } else if committed {
            if !commits {
                -9
            } else if is_on(Fault::AlwaysRollsBack) {
                -2
            } else {
                0
            }
        } else if rolled_back && !is_on(Fault::RolledBackCommits)
            || !commits
            || is_on(Fault::AlwaysRollsBack)
        {
            -2
        } else {
            0
        }
    }

    fn offers(&self, service: u32) -> bool {
        has(self.services, service)
    }
}

#[derive(Clone, Copy, Debug)]
pub struct Link {
    pub number: u32,
    pub service: u32,
    /// Its transaction, 0 none.
    pub transaction: u32,
    pub first_token: u32,
    pub ending_token: u32,
    /// The first `unread_count` places hold the unread tokens, oldest first.
    pub unread: [u32; UNREAD],
    pub unread_count: u8,
    pub kind: Kind,
    pub originator: u8,
    /// Whether the originator's end is open.
    pub open: bool,
    pub state: State,
    pub server: u8,
    /// 8, 4 or 2; 0 before a return.
    pub outcome: u8,
    pub holder: End,
    pub handing_over: bool,
    pub cut: Cut,
}

impl Link {
    pub const fn fresh() -> Self {
        Link {
            number: 0,
            service: 0,
            transaction: 0,
            first_token: 0,
            ending_token: 0,
            unread: [0; UNREAD],
            unread_count: 0,
            kind: Kind::Request,
            originator: 0,
            open: false,
            state: State::Waiting,
            server: 0,
            outcome: 0,
            holder: End::Originator,
            handing_over: false,
            cut: Cut::No,
        }
    }

    /// The open originator's end of `party`.
    fn is_open_end_of(&self, party: usize) -> bool {
        self.open && usize::from(self.originator) == party
    }

    /// The server holds the conversation and is not handing it over.
    fn server_is_free_holder(&self) -> bool {
        self.holder == End::Server && !self.handing_over
    }

    /// Dropping unread clears the handing-over mark too.
    fn drop_unread(&mut self) {
        self.unread_count = 0;
        self.handing_over = false;
    }

    /// Cut: the originator's end closed, unread dropped.
    fn cut_off(&mut self) {
        self.cut = Cut::Cut;
        self.open = false;
        self.drop_unread();
    }

    fn push_unread(&mut self, token: u32) {
        self.unread[usize::from(self.unread_count)] = token;
        self.unread_count += 1;
    }

    fn pop_unread(&mut self) -> u32 {
        let token = self.unread[0];
        self.unread.copy_within(1.., 0);
        self.unread_count -= 1;
        token
    }

    /// All fields but unread, which is left out.
    fn same_but_unread(&self, other: &Link) -> bool {
        self.number == other.number
            && self.service == other.service
            && self.transaction == other.transaction
            && self.first_token == other.first_token
            && self.ending_token == other.ending_token
            && self.kind == other.kind
            && self.originator == other.originator
            && self.open == other.open
            && self.state == other.state
            && self.server == other.server
            && self.outcome == other.outcome
            && self.holder == other.holder
            && self.handing_over == other.handing_over
            && self.cut == other.cut
    }
}

#[derive(Clone, Debug)]
pub struct Monitor {
    pub clock: u32,
    pub last_link: u32,
    pub last_transaction: u32,
    pub parties: [Party; PARTIES],
    /// The first `link_count` places hold the links, in rising number.
    pub links: [Link; LINKS],
    pub link_count: usize,
}

/// The first five fields of the answer to an accepted call.
#[derive(Default)]
struct Reply {
    code: i64,
    value: u32,
    event: u32,
    token: u32,
    service: u32,
}

impl Reply {
    fn code(code: i64) -> Self {
        Reply {
            code,
            ..Reply::default()
        }
    }

    fn value(value: u32) -> Self {
        Reply {
            value,
            ..Reply::default()
        }
    }
}

/// What a kind decides: a reply, or a refusal by number.
type Decision = Result<Reply, i64>;

/// Asks a question: "no" gives the number.
fn ask(yes: bool, number: i64) -> Result<(), i64> {
    if yes {
        Ok(())
    } else {
        Err(number)
    }
}

/// The number of a fetch of either form with no return yet (R-6).
fn no_return_yet() -> i64 {
    match is_on(Fault::FetchSaysEmptyTake) {
        true => 32,
        false => 36,
    }
}

/// A blank of the state table.
const NONE: u8 = u8::MAX;

/// Next states of the TX kinds 1 to 9 (rows) in S0 to S4. The row of kind 8
/// is the one for an unchanged control.
const NEXT_STATE: [[u8; 5]; 9] = [
    [1, 1, 2, 3, 4],
    [0, 0, 0, NONE, NONE],
    [NONE, 3, 4, NONE, NONE],
    [NONE, NONE, NONE, 1, 4],
    [NONE, NONE, NONE, 1, 4],
    [NONE, 1, 2, 3, 4],
    [NONE, 1, 2, 3, 4],
    [NONE, 1, 2, 3, 4],
    [NONE, 1, 2, 3, 4],
];

impl Default for Monitor {
    fn default() -> Self {
        Monitor::fresh()
    }
}

impl Monitor {
    pub const fn fresh() -> Self {
        Monitor {
            clock: 0,
            last_link: 0,
            last_transaction: 0,
            parties: [Party::fresh(); PARTIES],
            links: [Link::fresh(); LINKS],
            link_count: 0,
        }
    }

    /// The links there are. For records whose count is in range.
    pub fn links(&self) -> &[Link] {
        &self.links[..self.link_count]
    }

    pub fn is_sound(&self) -> bool {
        if self.link_count > LINKS
            || self.last_link > LAST_NUMBER
            || self.last_transaction > LAST_NUMBER
        {
            return false;
        }
        // Each party with a served number needs its working link; numbers differ,
        // so it is enough to count both.
        let mut served_links = 0;
        let mut before = 0;
        for link in self.links() {
            let Some(server) = self.parties.get(usize::from(link.server)) else {
                return false;
            };
            if link.number <= before
                || usize::from(link.originator) >= PARTIES
                || usize::from(link.unread_count) > UNREAD
                || !matches!(link.outcome, 0 | ERROR | FAIL | SUCCESS)
                || (link.state == State::Returned && link.outcome == 0)
            {
                return false;
            }
            before = link.number;
            served_links +=
                usize::from((link.state == State::Working) & (server.served == link.number));
        }
        before <= self.last_link
            && self.parties.iter().all(|party| {
                party.control <= 1 && party.reports.into_iter().fold(0, u32::max) <= LAST_REPORT
            })
            && self
                .parties
                .iter()
                .filter(|party| party.served != 0)
                .count()
                == served_links
    }

    /// The place of a link.
    fn find(&self, number: u32) -> Option<usize> {
        self.links()
            .binary_search_by_key(&number, |link| link.number)
            .ok()
    }

    /// A party's transaction: the owned one, else its served link's; 0 none.
    pub fn transaction(&self, party: usize) -> u32 {
        let Party { owned, served, .. } = self.parties[party];
        if owned != 0 || served == 0 {
            return owned;
        }
        self.find(served).map_or(0, |i| self.links[i].transaction)
    }

    /// The owner of a transaction: the lowest party that owns it.
    pub fn owner(&self, transaction: u32) -> Option<usize> {
        if transaction == 0 {
            return None;
        }
        self.parties
            .iter()
            .position(|party| party.owned == transaction)
    }

    fn is_ended(&self, transaction: u32) -> bool {
        transaction != 0 && self.owner(transaction).is_none()
    }

    fn is_expired(&self, transaction: u32) -> bool {
        self.owner(transaction)
            .is_some_and(|owner| self.is_late(owner))
    }

    /// Whether the deadline of the party's transaction has come.
    fn is_late(&self, owner: usize) -> bool {
        let deadline = self.parties[owner].deadline;
        if is_on(Fault::DeadlineOnlyPast) {
            return deadline != 0 && u64::from(self.clock) > deadline;
        }
        deadline != 0 && u64::from(self.clock) >= deadline
    }

    /// Doomed or expired (R-7); an ended one is neither, nor is none.
    fn is_lost(&self, transaction: u32) -> bool {
        let Some(owner) = self.owner(transaction) else {
            return transaction != 0 && is_on(Fault::EndedSuccessIsLost);
        };
        self.parties[owner].doomed && !is_on(Fault::RollbackOnlySuccessStays)
            || self.is_late(owner) && !is_on(Fault::ExpiredSuccessStays)
    }

    /// S0 to S4.
    fn tx_state(&self, party: usize) -> usize {
        let Party {
            opened, control, ..
        } = self.parties[party];
        match (opened, self.transaction(party) != 0) {
            (false, _) => 0,
            (true, false) => 1 + usize::from(control),
            (true, true) => 3 + usize::from(control),
        }
    }

    fn has_open_end(&self, party: usize) -> bool {
        self.links().iter().any(|link| link.is_open_end_of(party))
    }

    fn remove_link(&mut self, place: usize) {
        self.links.copy_within(place + 1..self.link_count, place);
        self.link_count -= 1;
    }

    /// Keeps the links for which `keep` says so; it may change them.
    fn retain_links(&mut self, mut keep: impl FnMut(&mut Link) -> bool) {
        let mut kept = 0;
        for i in 0..self.link_count {
            if keep(&mut self.links[i]) {
                if kept != i {
                    self.links[kept] = self.links[i];
                }
                kept += 1;
            }
        }
        self.link_count = kept;
    }

    /// Dooms a transaction if it is live.
    fn doom(&mut self, transaction: u32) {
        if let Some(owner) = self.owner(transaction) {
            self.parties[owner].doomed = !is_on(Fault::RollbackOnlyLeavesNoMark);
        }
    }

    /// Begins a transaction; false if the numbers are spent.
    fn begin_transaction(&mut self, party: usize) -> bool {
        if self.last_transaction >= LAST_NUMBER {
            return false;
        }
        self.last_transaction += 1;
        let party = &mut self.parties[party];
        party.owned = self.last_transaction;
        if is_on(Fault::TransactionNumbersReused) {
            self.last_transaction -= 1;
        }
        party.deadline = match party.timeout {
            0 => 0,
            timeout => u64::from(self.clock) + u64::from(timeout),
        };
        true
    }

    /// Ends the party's owned transaction, if it has one.
    fn end_transaction(&mut self, party: usize) {
        let party = &mut self.parties[party];
        let ending = party.owned;
        if ending == 0 {
            return;
        }
        party.owned = 0;
        party.deadline = 0;
        party.doomed = false;
        if !is_on(Fault::ReportsStay) {
            party.reports = [0; MANAGERS];
        }
        self.end_links(ending);
    }

    /// What a transaction's end makes of its links.
    fn end_links(&mut self, ending: u32) {
        self.retain_links(|link| {
            if link.transaction != ending {
                return true;
            }
            if link.state != State::Working {
                return false;
            }
            match link.kind {
                Kind::Request => link.open = false,
                Kind::Conversation if link.cut != Cut::Told => link.cut_off(),
                Kind::Conversation => {}
            }
            true
        });
    }

    /// Disconnects the conversation at `place`.
    fn disconnect_link(&mut self, place: usize) {
        self.doom(self.links[place].transaction);
        self.hang_up(place);
    }

    /// The conversation at `place` goes or is cut.
    fn hang_up(&mut self, place: usize) {
        if self.links[place].state == State::Working {
            self.links[place].cut_off();
        } else {
            self.remove_link(place);
        }
    }

    /// Cancels the request at `place`; the service runs on.
    fn cancel_link(&mut self, place: usize) {
        if self.links[place].state == State::Returned {
            self.remove_link(place);
        } else {
            self.links[place].open = false;
        }
    }

    /// Closes the party's own links, whatever their transaction.
    fn close_own_links(&mut self, party: usize) {
        let mut i = 0;
        while i < self.link_count {
            if !self.links[i].is_open_end_of(party) {
                i += 1;
                continue;
            }
            // Either the link goes, or its end is closed and it is passed by.
            match self.links[i].kind {
                Kind::Request => self.cancel_link(i),
                Kind::Conversation => self.disconnect_link(i),
            }
        }
    }

    /// Ends the party's service with an outcome.
    fn end_service(&mut self, party: usize, outcome: u8, token: u32) {
        let served = self.parties[party].served;
        let i = self
            .find(served)
            .expect("a sound record has the served link");
        let link = &mut self.links[i];
        if outcome == ERROR || !link.server_is_free_holder() {
            link.drop_unread();
        }
        self.close_own_links(party);
        self.end_transaction(party);
        // The served link is working, so it is still there, but may have moved.
        let i = self.find(served).expect("a working link stays");
        let marks_nothing = is_on(Fault::FailedReturnMarksNothing)
            || is_on(Fault::MarkedAtFetch)
            || (outcome == FAIL && is_on(Fault::FailMarksNothing));
        if outcome != SUCCESS && !marks_nothing {
            self.doom(self.links[i].transaction);
        }
        self.parties[party].served = 0;
        let link = &mut self.links[i];
        if link.open {
            link.state = State::Returned;
            link.outcome = outcome;
            link.ending_token = if outcome == ERROR { 0 } else { token };
        } else {
            self.remove_link(i);
        }
    }

    /// With that fault: a failed outcome dooms as it is heard.
    fn mark_at_fetch(&mut self, i: usize) {
        let link = &self.links[i];
        if is_on(Fault::MarkedAtFetch) && link.outcome != SUCCESS {
            self.doom(link.transaction);
        }
    }

    // The TX kinds.

    fn open(&mut self, p: usize) -> Decision {
        self.parties[p].opened = true;
        Ok(Reply::code(0))
    }

    fn close(&mut self, p: usize) -> Decision {
        let party = &mut self.parties[p];
        party.opened = false;
        party.control = 0;
        party.timeout = 0;
        Ok(Reply::code(0))
    }

    fn begin(&mut self, p: usize) -> Decision {
        ask(self.begin_transaction(p), -6)?;
        Ok(Reply::code(0))
    }

    /// Commit and rollback.
    fn complete(&mut self, p: usize, commit: bool) -> Decision {
        let mut t = self.transaction(p);
        if is_on(Fault::NonOwnerCommits) {
            // The transaction that the caller owns, 0 for a server.
            t = self.parties[p].owned;
        } else {
            ask(self.owner(t) == Some(p), -5)?;
        }
        let mut code = 0;
        if commit {
            let party = &self.parties[p];
            let commits = !(party.doomed && !is_on(Fault::CommitIgnoresRollbackOnly)
                || self.is_expired(t) && !is_on(Fault::CommitIgnoresDeadline)
                || self
                    .links()
                    .iter()
                    .any(|link| link.transaction == t && link.open)
                    && !is_on(Fault::CommitIgnoresOpenEnds)
                || party.has_veto() && !is_on(Fault::VetoDecidesNothing));
            code = party.commit_code(commits);
        }
        let cant_start = self.parties[p].cant_start() && !is_on(Fault::CantStartStarts);
        self.end_transaction(p);
        if is_on(Fault::NonOwnerCommits) && t == 0 {
            self.end_links(0);
        }
        if self.parties[p].control == 1 && (cant_start || !self.begin_transaction(p)) {
            code -= 100;
        }
        Ok(Reply::code(code))
    }

    fn info(&self, p: usize) -> Decision {
        Ok(Reply::code(i64::from(self.transaction(p) != 0)))
    }

    fn set_commit_return(&self, a: u32) -> Decision {
        ask(a <= 1, -8)?;
        Ok(Reply::code(i64::from(a)))
    }

    fn set_control(&mut self, p: usize, a: u32) -> Decision {
        ask(a <= 1, -8)?;
        self.parties[p].control = a as u8;
        Ok(Reply::code(0))
    }

    fn set_timeout(&mut self, p: usize, a: u32) -> Decision {
        ask(a <= LONGEST_TIMEOUT, -8)?;
        self.parties[p].timeout = a;
        Ok(Reply::code(0))
    }

    // The XATMI kinds.

    fn advertise(&mut self, p: usize, a: u32) -> Decision {
        ask((1..=64).contains(&a), 22)?;
        let party = &mut self.parties[p];
        ask(has(party.may_advertise, a), 35)?;
        ask(party.offers(a) || party.services.count_ones() < OFFERED, 26)?;
        party.services |= 1 << (a - 1);
        Ok(Reply::value(party.services.count_ones()))
    }

    fn unadvertise(&mut self, p: usize, a: u32) -> Decision {
        ask((1..=64).contains(&a), 22)?;
        let party = &mut self.parties[p];
        ask(party.offers(a), 25)?;
        party.services &= !(1 << (a - 1));
        Ok(Reply::value(party.services.count_ones()))
    }

    /// Request and connect.
    fn originate(&mut self, p: usize, kind: Kind, a: u32, b: u32, c: u32) -> Decision {
        let t = self.transaction(p);
        let good_flags = match kind {
            Kind::Request => b <= 3 && !(b == 1 && t != 0),
            Kind::Conversation => matches!(b, 4 | 6 | 8 | 10),
        };
        ask((1..=64).contains(&a) && good_flags, 22)?;
        let right = has(self.parties[p].may_request, a);
        ask(right || is_on(Fault::RightAfterOffered), 35)?;
        let transaction = if b & 2 == 0 { t } else { 0 };
        ask(!self.is_ended(transaction), 23)?;
        ask(!self.is_expired(transaction), 28)?;
        ask(self.parties.iter().any(|party| party.offers(a)), 25)?;
        ask(right, 35)?;
        ask(self.link_count < LINKS && self.last_link < LAST_NUMBER, 26)?;
        self.last_link += 1;
        let no_reply = b & 1 != 0;
        self.links[self.link_count] = Link {
            number: self.last_link,
            kind,
            originator: p as u8,
            open: !no_reply,
            service: a,
            transaction,
            first_token: c,
            holder: if b & 8 != 0 {
                End::Server
            } else {
                End::Originator
            },
            ..Link::fresh()
        };
        self.link_count += 1;
        let value = if no_reply { 0 } else { self.last_link };
        if is_on(Fault::LinkNumbersReused) {
            self.last_link -= 1;
        }
        Ok(Reply::value(value))
    }

    fn take(&mut self, p: usize) -> Decision {
        let party = &self.parties[p];
        ask(
            party.opened && party.served == 0 && self.transaction(p) == 0 && !self.has_open_end(p),
            23,
        )?;
        let takes = |service| {
            let right = has(party.may_advertise, service) || !is_on(Fault::TakeAsksRight);
            party.offers(service) && right
        };
        let link = self.links[..self.link_count]
            .iter_mut()
            .find(|link| link.state == State::Waiting && takes(link.service))
            .ok_or(32)?;
        link.state = State::Working;
        link.server = p as u8;
        self.parties[p].served = link.number;
        Ok(Reply {
            code: 0,
            value: link.number,
            event: match (link.kind, link.holder) {
                (Kind::Request, _) => 64,
                (Kind::Conversation, End::Originator) => 65,
                (Kind::Conversation, End::Server) => 66,
            },
            token: link.first_token,
            service: link.service,
        })
    }

    /// The place of the caller's open originator's end of that kind; else 24.
    fn open_end(&self, p: usize, kind: Kind, a: u32) -> Result<usize, i64> {
        self.find(a)
            .filter(|&i| self.links[i].kind == kind && self.links[i].is_open_end_of(p))
            .ok_or(24)
    }

    /// The place of the reply to request a.
    fn reply_to(&mut self, p: usize, a: u32) -> Result<usize, i64> {
        let i = self.open_end(p, Kind::Request, a)?;
        let link = self.links[i];
        ask(!self.is_expired(link.transaction), 28)?;
        if is_on(Fault::EarlyFetchRemovesLink) && link.state != State::Returned {
            self.remove_link(i);
        }
        ask(link.state == State::Returned, no_return_yet())?;
        Ok(i)
    }

    /// The place of the reply to the lowest-numbered returned request.
    fn any_reply(&self, p: usize) -> Result<usize, i64> {
        let is_own = |link: &Link| link.kind == Kind::Request && link.is_open_end_of(p);
        let own = || self.links().iter().filter(|link| is_own(link));
        ask(own().next().is_some(), 24)?;
        ask(own().all(|link| !self.is_expired(link.transaction)), 28)?;
        self.links()
            .iter()
            .position(|link| is_own(link) && link.state == State::Returned)
            .ok_or(no_return_yet())
    }

    fn fetch(&mut self, p: usize, a: u32, b: u32) -> Decision {
        ask(b <= 1, 22)?;
        let any = b == 1;
        let i = if any {
            self.any_reply(p)?
        } else {
            self.reply_to(p, a)?
        };
        let link = self.links[i];
        self.mark_at_fetch(i);
        let stays = is_on(Fault::FetchLeavesLink) || (any && is_on(Fault::AnyFetchLeavesLink));
        if !stays {
            self.remove_link(i);
        }
        let code = match link.outcome {
            SUCCESS => 0,
            FAIL => 30,
            _ => 31,
        };
        let named = any && !is_on(Fault::AnyFetchNamesNoLink);
        Ok(Reply {
            code,
            value: if named { link.number } else { 0 },
            token: link.ending_token,
            ..Reply::default()
        })
    }

    fn cancel(&mut self, p: usize, a: u32) -> Decision {
        let i = self.open_end(p, Kind::Request, a)?;
        ask(self.links[i].transaction == 0, 27)?;
        self.cancel_link(i);
        Ok(Reply::code(0))
    }

    /// The place of the conversation and the caller's end of it; else 24.
    fn conversation_end(&self, p: usize, a: u32) -> Result<(usize, End), i64> {
        let i = self.find(a).ok_or(24)?;
        let link = &self.links[i];
        if link.kind != Kind::Conversation {
            Err(24)
        } else if link.is_open_end_of(p) {
            Ok((i, End::Originator))
        } else if usize::from(link.server) == p
            && link.state == State::Working
            && link.cut != Cut::Told
        {
            Ok((i, End::Server))
        } else {
            Err(24)
        }
    }

    /// What an end is told before it sends or receives: a cut, or the return.
    fn conversation_news(&mut self, i: usize, end: End, sending: bool) -> Option<Reply> {
        let link = &mut self.links[i];
        match end {
            End::Server if link.cut == Cut::Cut => {
                link.cut = Cut::Told;
                Some(Reply {
                    code: 29,
                    event: 1,
                    ..Reply::default()
                })
            }
            End::Originator
                if link.state == State::Returned
                    && link.unread_count == 0
                    && !(sending && link.outcome == SUCCESS) =>
            {
                let event = u32::from(link.outcome);
                let token = link.ending_token;
                self.mark_at_fetch(i);
                self.remove_link(i);
                Some(Reply {
                    code: 29,
                    event,
                    token,
                    ..Reply::default()
                })
            }
            _ => None,
        }
    }

    fn send(&mut self, p: usize, a: u32, b: u32, c: u32) -> Decision {
        let (i, end) = self.conversation_end(p, a)?;
        ask(b <= 1, 22)?;
        ask(!self.is_expired(self.links[i].transaction), 28)?;
        if let Some(news) = self.conversation_news(i, end, true) {
            return Ok(news);
        }
        let link = &mut self.links[i];
        let early = is_on(Fault::NewEndSendsEarly) && (link.holder == end || link.handing_over);
        ask(early || (link.holder == end && !link.handing_over), 23)?;
        let four_unread = match is_on(Fault::SendSaysNothingThere) {
            true => 36,
            false => 37,
        };
        ask(usize::from(link.unread_count) < UNREAD, four_unread)?;
        link.push_unread(c);
        if b == 1 || early {
            link.handing_over = b == 1;
        }
        Ok(Reply::code(0))
    }

    fn receive(&mut self, p: usize, a: u32) -> Decision {
        let (i, end) = self.conversation_end(p, a)?;
        ask(!self.is_expired(self.links[i].transaction), 28)?;
        if let Some(news) = self.conversation_news(i, end, false) {
            return Ok(news);
        }
        let link = &mut self.links[i];
        ask(link.holder != end, 23)?;
        ask(link.unread_count > 0, 36)?;
        let token = link.pop_unread();
        if link.unread_count == 0 && link.handing_over {
            link.holder = end;
            link.handing_over = false;
            if is_on(Fault::TurnWithoutEvent) {
                return Ok(Reply {
                    token,
                    ..Reply::default()
                });
            }
            return Ok(Reply {
                code: 29,
                event: 32,
                token,
                ..Reply::default()
            });
        }
        Ok(Reply {
            token,
            ..Reply::default()
        })
    }

    fn disconnect(&mut self, p: usize, a: u32) -> Decision {
        let i = self.open_end(p, Kind::Conversation, a)?;
        if is_on(Fault::DisconnectMarksNothing) {
            self.hang_up(i);
        } else {
            self.disconnect_link(i);
        }
        Ok(Reply::code(0))
    }

    /// A success in a lost transaction (R-7): asked of a return with a = 1 alone.
    fn is_lost_success(&self, p: usize, a: u32, link: &Link) -> bool {
        let stays = is_on(Fault::LostSuccessStays)
            || is_on(match link.kind {
                Kind::Request => Fault::LostRequestStays,
                Kind::Conversation => Fault::LostConversationStays,
            });
        let asked = a == 1 || is_on(Fault::LostFailIsError);
        let transaction = if is_on(Fault::LostByOwnTx) {
            self.parties[p].owned
        } else {
            link.transaction
        };
        asked && !stays && self.is_lost(transaction)
    }

    fn return_service(&mut self, p: usize, a: u32, c: u32) -> Decision {
        let party = &self.parties[p];
        ask(party.served != 0, 23)?;
        ask(a == 1 || a == 2, 22)?;
        let i = self
            .find(party.served)
            .expect("a sound record has the served link");
        let link = &self.links[i];
        let talking = link.kind == Kind::Conversation;
        let plain = if a == 1 { SUCCESS } else { FAIL };
        let leaves_open = party.owned != 0 || self.has_open_end(p);
        let outcome = if leaves_open && is_on(Fault::SuccessWithOpenEnds) {
            plain
        } else if leaves_open
            || (talking && link.cut != Cut::No)
            || self.is_lost_success(p, a, link)
        {
            ERROR
        } else if talking && !link.server_is_free_holder() {
            if a == 2 && c == 0 {
                FAIL
            } else {
                ERROR
            }
        } else {
            plain
        };
        self.end_service(p, outcome, c);
        Ok(Reply::value(u32::from(outcome)))
    }

    fn fall(&mut self, p: usize) -> Decision {
        let serving = self.parties[p].served != 0;
        if serving {
            let left_with = if is_on(Fault::DeathMarksNothing) {
                SUCCESS
            } else {
                ERROR
            };
            self.end_service(p, left_with, 0);
        } else {
            self.close_own_links(p);
            self.end_transaction(p);
        }
        let fell = self.parties[p];
        self.parties[p] = Party::fresh();
        if !is_on(Fault::FallResetsRights) {
            self.parties[p].may_request = fell.may_request;
            self.parties[p].may_advertise = fell.may_advertise;
        }
        Ok(Reply::value(if serving { u32::from(ERROR) } else { 0 }))
    }

    // The resource managers' kind.

    fn report(&mut self, p: usize, a: u32, b: u32, c: u32) -> Decision {
        let owner = self.owner(self.transaction(p)) == Some(p);
        let anyone = is_on(Fault::AnyoneReports) && a < MANAGERS as u32;
        ask(owner || anyone, 23)?;
        ask(a < MANAGERS as u32 && b <= HEURISTIC_HAZARD && c <= 1, 34)?;
        let report = &mut self.parties[p].reports[a as usize];
        if *report == 0 || !is_on(Fault::FirstReportStands) {
            *report = Party::report(b, c == 1);
        }
        Ok(Reply::code(0))
    }

    // The rights' kind.

    fn set_rights(&mut self, p: usize, a: u32, b: u32, c: u32) -> Decision {
        ask(p == 0 || is_on(Fault::AnyoneSetsRights), 35)?;
        ask(a < 2 * PARTIES as u32, 22)?;
        let [low, high] = if is_on(Fault::HalvesExchanged) {
            [c, b]
        } else {
            [b, c]
        };
        let of = if is_on(Fault::PartyByRemainder) {
            a % PARTIES as u32
        } else {
            a / 2
        };
        let party = &mut self.parties[of as usize];
        let set = if a % 2 == 0 {
            &mut party.may_request
        } else {
            &mut party.may_advertise
        };
        *set = u64::from(low) | u64::from(high) << 32;
        Ok(Reply::code(0))
    }

    /// A call that is well-formed, on a sound record.
    fn decide(&mut self, p: usize, kind: u32, a: u32, b: u32, c: u32) -> Decision {
        if kind <= 9 {
            let next = NEXT_STATE[kind as usize - 1][self.tx_state(p)];
            ask(next != NONE, -5)?;
        }
        match kind {
            1 => self.open(p),
            2 => self.close(p),
            3 => self.begin(p),
            4 => self.complete(p, true),
            5 => self.complete(p, false),
            6 => self.info(p),
            7 => self.set_commit_return(a),
            8 => self.set_control(p, a),
            9 => self.set_timeout(p, a),
            10 => self.advertise(p, a),
            11 => self.unadvertise(p, a),
            12 => self.originate(p, Kind::Request, a, b, c),
            13 => self.originate(p, Kind::Conversation, a, b, c),
            14 => self.take(p),
            15 => self.fetch(p, a, b),
            16 => self.cancel(p, a),
            17 => self.send(p, a, b, c),
            18 => self.receive(p, a),
            19 => self.disconnect(p, a),
            20 => self.return_service(p, a, c),
            21 => self.fall(p),
            22 => self.report(p, a, b, c),
            _ => self.set_rights(p, a, b, c),
        }
    }

    /// A call on a sound record: everything after question 19.
    pub(crate) fn step_sound(&mut self, call: [u32; 6]) -> [i64; 6] {
        let [clock, party, kind, a, b, c] = call;
        if !(1..=23).contains(&kind) {
            if is_on(Fault::ClockMovedByUnknownKind) {
                self.clock = self.clock.max(clock);
            }
            return [20, 0, 0, 0, 0, 0];
        }
        let p = party as usize;
        if p >= PARTIES {
            if is_on(Fault::ClockMovedByUnknownParty) {
                self.clock = self.clock.max(clock);
            }
            return [21, 0, 0, 0, 0, 0];
        }
        self.clock = if is_on(Fault::ClockGoesBack) {
            clock
        } else {
            self.clock.max(clock)
        };
        let reply = self.decide(p, kind, a, b, c).unwrap_or_else(Reply::code);
        [
            reply.code,
            i64::from(reply.value),
            i64::from(reply.event),
            i64::from(reply.token),
            i64::from(reply.service),
            i64::from(self.transaction(p)),
        ]
    }
}

/// One call: clock, party, kind, a, b, c. The answer: code, value, event,
/// token, service, the caller's transaction afterwards.
pub fn step(monitor: &mut Monitor, call: [u32; 6]) -> [i64; 6] {
    if !monitor.is_sound() {
        return [19, 0, 0, 0, 0, 0];
    }
    monitor.step_sound(call)
}

/// A lent list of calls, six numbers each: 0, or 17, 16 or 19.
pub fn run_list(monitor: &mut Monitor, calls: &[u32], answers: &mut [i64]) -> i64 {
    if !calls.len().is_multiple_of(6) {
        return 17;
    }
    if answers.len() < calls.len() {
        return 16;
    }
    if !monitor.is_sound() {
        return 19;
    }
    // A step keeps a sound record sound, so this was asked once for all.
    for (call, answer) in calls.chunks_exact(6).zip(answers.chunks_exact_mut(6)) {
        let call = call.try_into().expect("six numbers");
        answer.copy_from_slice(&monitor.step_sound(call));
    }
    0
}

/// Whether two records agree, links compared by `same`.
fn alike(one: &Monitor, two: &Monitor, same: impl Fn(&Link, &Link) -> bool) -> bool {
    one.clock == two.clock
        && one.last_link == two.last_link
        && one.last_transaction == two.last_transaction
        && one.parties == two.parties
        && one.link_count == two.link_count
        && one.links().iter().zip(two.links()).all(|(a, b)| same(a, b))
}

/// Whether two monitors are both sound and equal: all fields alike, unread
/// compared by how many.
pub fn equal(one: &Monitor, two: &Monitor) -> bool {
    one.is_sound()
        && two.is_sound()
        && alike(one, two, |a, b| {
            a.same_but_unread(b) && a.unread_count == b.unread_count
        })
}

/// As `equal`, but the unread tokens are compared as well.
pub fn equal_with_tokens(one: &Monitor, two: &Monitor) -> bool {
    let unread = |link: &Link| link.unread.into_iter().take(usize::from(link.unread_count));
    equal(one, two) && alike(one, two, |a, b| unread(a).eq(unread(b)))
}

#[cfg(test)]
mod tests {
    use super::*;

    /// Runs calls and compares their answers.
    fn drill(script: &[([u32; 6], [i64; 6])]) -> Monitor {
        let mut m = Monitor::fresh();
        for (n, (call, answer)) in script.iter().enumerate() {
            assert_eq!(step(&mut m, *call), *answer, "call {n}: {call:?}");
            assert!(m.is_sound());
        }
        m
    }

    /// Runs calls on a monitor and gives the codes.
    fn codes(m: &mut Monitor, calls: &[[u32; 6]]) -> Vec<i64> {
        calls.iter().map(|&call| step(m, call)[0]).collect()
    }

    #[test]
    fn document_example() {
        drill(&[
            ([0, 0, 1, 0, 0, 0], [0, 0, 0, 0, 0, 0]),
            ([0, 0, 3, 0, 0, 0], [0, 0, 0, 0, 0, 1]),
            ([0, 0, 12, 5, 0, 7], [25, 0, 0, 0, 0, 1]),
            ([128, 0, 4, 0, 0, 0], [0, 0, 0, 0, 0, 0]),
        ]);
    }

    #[test]
    fn marked_tx() {
        let mut m = Monitor::fresh();
        assert_eq!(
            codes(&mut m, &[[0, 0, 3, 0, 0, 0], [0, 0, 2, 0, 0, 0]]),
            [-5, 0]
        );
        let timeouts = [
            [0, 0, 1, 0, 0, 0],
            [0, 0, 9, 2147483648, 0, 0],
            [0, 0, 9, 2147483647, 0, 0],
        ];
        assert_eq!(codes(&mut m, &timeouts), [0, -8, 0]);
        for (clock, code) in [(14, 0), (15, -2)] {
            let mut m = Monitor::fresh();
            let calls = [
                [0, 0, 1, 0, 0, 0],
                [0, 0, 9, 10, 0, 0],
                [5, 0, 3, 0, 0, 0],
                [clock, 0, 4, 0, 0, 0],
            ];
            assert_eq!(codes(&mut m, &calls), [0, 0, 0, code]);
        }
        let mut m = Monitor::fresh();
        codes(&mut m, &[[20, 0, 1, 0, 0, 0], [3, 0, 1, 0, 0, 0]]);
        assert_eq!(m.clock, 20);
    }

    #[test]
    fn marked_xatmi() {
        // Cancel in T.
        drill(&[
            ([0, 0, 1, 0, 0, 0], [0, 0, 0, 0, 0, 0]),
            ([0, 1, 10, 5, 0, 0], [0, 1, 0, 0, 0, 0]),
            ([0, 0, 3, 0, 0, 0], [0, 0, 0, 0, 0, 1]),
            ([0, 0, 12, 5, 0, 7], [0, 1, 0, 0, 0, 1]),
            ([0, 0, 16, 1, 0, 0], [27, 0, 0, 0, 0, 1]),
        ]);
        // Fifth unread.
        let mut m = Monitor::fresh();
        let send = [0, 0, 17, 1, 0, 3];
        let calls = [
            [0, 1, 10, 5, 0, 0],
            [0, 0, 13, 5, 4, 0],
            send,
            send,
            send,
            send,
            send,
        ];
        assert_eq!(codes(&mut m, &calls), [0, 0, 0, 0, 0, 0, 37]);
        // Ninth service.
        let mut m = Monitor::fresh();
        let calls: Vec<_> = (1..=9).map(|s| [0, 0, 10, s * 7, 0, 0]).collect();
        assert_eq!(codes(&mut m, &calls), [0, 0, 0, 0, 0, 0, 0, 0, 26]);
        assert_eq!(step(&mut m, [0, 0, 10, 56, 0, 0]), [0, 8, 0, 0, 0, 0]);
        assert_eq!(step(&mut m, [0, 0, 11, 7, 0, 0]), [0, 7, 0, 0, 0, 0]);
        assert_eq!(step(&mut m, [0, 0, 11, 7, 0, 0]), [25, 0, 0, 0, 0, 0]);
    }

    /// The service dies after its caller disconnected: the commit is bad.
    #[test]
    fn stocktaking() {
        drill(&[
            ([0, 0, 1, 0, 0, 0], [0, 0, 0, 0, 0, 0]),
            ([0, 1, 1, 0, 0, 0], [0, 0, 0, 0, 0, 0]),
            ([0, 1, 10, 5, 0, 0], [0, 1, 0, 0, 0, 0]),
            ([0, 0, 3, 0, 0, 0], [0, 0, 0, 0, 0, 1]),
            ([0, 0, 13, 5, 4, 7], [0, 1, 0, 0, 0, 1]),
            ([0, 1, 14, 0, 0, 0], [0, 1, 65, 7, 5, 1]),
            ([0, 0, 19, 1, 0, 0], [0, 0, 0, 0, 0, 1]),
            ([0, 1, 21, 0, 0, 0], [0, 2, 0, 0, 0, 0]),
            ([0, 0, 4, 0, 0, 0], [-2, 0, 0, 0, 0, 0]),
        ]);
    }

    #[test]
    fn conversation_turns() {
        let m = drill(&[
            ([0, 0, 1, 0, 0, 0], [0, 0, 0, 0, 0, 0]),
            ([0, 1, 1, 0, 0, 0], [0, 0, 0, 0, 0, 0]),
            ([0, 1, 10, 5, 0, 0], [0, 1, 0, 0, 0, 0]),
            ([0, 0, 3, 0, 0, 0], [0, 0, 0, 0, 0, 1]),
            ([0, 0, 13, 5, 4, 7], [0, 1, 0, 0, 0, 1]),
            ([0, 0, 17, 1, 0, 8], [0, 0, 0, 0, 0, 1]),
            ([0, 0, 17, 1, 1, 9], [0, 0, 0, 0, 0, 1]),
            ([0, 0, 17, 1, 0, 9], [23, 0, 0, 0, 0, 1]),
            ([0, 1, 14, 0, 0, 0], [0, 1, 65, 7, 5, 1]),
            ([0, 1, 17, 1, 0, 5], [23, 0, 0, 0, 0, 1]),
            ([0, 1, 18, 1, 0, 0], [0, 0, 0, 8, 0, 1]),
            ([0, 1, 17, 1, 0, 5], [23, 0, 0, 0, 0, 1]),
            ([0, 1, 18, 1, 0, 0], [29, 0, 32, 9, 0, 1]),
            ([0, 1, 18, 1, 0, 0], [23, 0, 0, 0, 0, 1]),
            ([0, 1, 17, 1, 0, 5], [0, 0, 0, 0, 0, 1]),
            ([0, 1, 20, 1, 0, 6], [0, 8, 0, 0, 0, 0]),
            ([0, 0, 17, 1, 0, 6], [23, 0, 0, 0, 0, 1]),
            ([0, 0, 18, 1, 0, 0], [0, 0, 0, 5, 0, 1]),
            ([0, 0, 17, 1, 0, 6], [23, 0, 0, 0, 0, 1]),
            ([0, 0, 18, 1, 0, 0], [29, 0, 8, 6, 0, 1]),
            ([0, 0, 18, 1, 0, 0], [24, 0, 0, 0, 0, 1]),
            ([0, 0, 4, 0, 0, 0], [0, 0, 0, 0, 0, 0]),
        ]);
        assert_eq!(m.link_count, 0);
    }

    /// A return after handing over is not orderly.
    #[test]
    fn return_after_handing_over() {
        for (a, c, outcome, token) in [(1, 6, 2, 0), (2, 6, 2, 0), (2, 0, 4, 0), (1, 0, 2, 0)] {
            drill(&[
                ([0, 1, 1, 0, 0, 0], [0, 0, 0, 0, 0, 0]),
                ([0, 1, 10, 5, 0, 0], [0, 1, 0, 0, 0, 0]),
                ([0, 0, 13, 5, 8, 7], [0, 1, 0, 0, 0, 0]),
                ([0, 1, 14, 0, 0, 0], [0, 1, 66, 7, 5, 0]),
                ([0, 1, 17, 1, 1, 5], [0, 0, 0, 0, 0, 0]),
                ([0, 1, 20, a, 0, c], [0, outcome, 0, 0, 0, 0]),
                ([0, 0, 17, 1, 0, 6], [29, 0, outcome, token, 0, 0]),
            ]);
        }
    }

    /// A failed service spoils the transaction when it returns.
    #[test]
    fn failed_service() {
        drill(&[
            ([0, 0, 1, 0, 0, 0], [0, 0, 0, 0, 0, 0]),
            ([0, 0, 8, 1, 0, 0], [0, 0, 0, 0, 0, 0]),
            ([0, 1, 1, 0, 0, 0], [0, 0, 0, 0, 0, 0]),
            ([0, 1, 10, 5, 0, 0], [0, 1, 0, 0, 0, 0]),
            ([0, 0, 3, 0, 0, 0], [0, 0, 0, 0, 0, 1]),
            ([0, 0, 12, 5, 1, 7], [22, 0, 0, 0, 0, 1]),
            ([0, 0, 12, 5, 0, 7], [0, 1, 0, 0, 0, 1]),
            ([0, 0, 15, 1, 0, 0], [36, 0, 0, 0, 0, 1]),
            ([0, 1, 14, 0, 0, 0], [0, 1, 64, 7, 5, 1]),
            ([0, 1, 4, 0, 0, 0], [-5, 0, 0, 0, 0, 1]),
            ([0, 1, 20, 3, 0, 9], [22, 0, 0, 0, 0, 1]),
            ([0, 1, 20, 2, 0, 9], [0, 4, 0, 0, 0, 0]),
            ([0, 0, 15, 1, 0, 0], [30, 0, 0, 9, 0, 1]),
            ([0, 0, 4, 0, 0, 0], [-2, 0, 0, 0, 0, 2]),
            ([0, 0, 6, 0, 0, 0], [1, 0, 0, 0, 0, 2]),
            ([0, 0, 4, 0, 0, 0], [0, 0, 0, 0, 0, 3]),
        ]);
    }

    /// Nothing there, three ways (R-6): no link to take is 32, no reply and
    /// nothing unread 36, four unread 37. Each has zeros beside it and the
    /// caller's T, and changes nothing but the clock.
    #[test]
    fn nothing_there() {
        let mut m = Monitor::fresh();
        let calls = [
            [0, 0, 1, 0, 0, 0],
            [0, 1, 1, 0, 0, 0],
            [0, 2, 1, 0, 0, 0],
            [0, 1, 10, 5, 0, 0],
            [0, 0, 9, 10, 0, 0],
            [5, 0, 3, 0, 0, 0],
            [5, 0, 12, 5, 0, 7],
            [5, 0, 13, 5, 8, 7],
            [5, 0, 13, 5, 4, 7],
            [5, 0, 17, 3, 0, 1],
            [5, 0, 17, 3, 0, 0],
            [5, 0, 17, 3, 0, 3],
            [5, 0, 17, 3, 0, 4],
        ];
        assert_eq!(codes(&mut m, &calls), [0; 13]);
        let ways = [
            ([2, 14, 0, 0, 0], 32, 0),
            ([0, 15, 1, 0, 0], 36, 1),
            ([0, 15, 0, 1, 0], 36, 1),
            ([0, 18, 2, 0, 0], 36, 1),
            ([0, 17, 3, 0, 5], 37, 1),
            ([0, 17, 3, 1, 5], 37, 1),
        ];
        for ([p, kind, a, b, c], code, t) in ways {
            let mut after = m.clone();
            assert_eq!(
                step(&mut after, [9, p, kind, a, b, c]),
                [code, 0, 0, 0, 0, t]
            );
            let mut expected = m.clone();
            expected.clock = 9;
            assert!(equal_with_tokens(&after, &expected));
            // At the deadline 28 is asked first; a take asks of no transaction.
            let late = if kind == 14 { 32 } else { 28 };
            assert_eq!(step(&mut m.clone(), [15, p, kind, a, b, c])[0], late);
        }
        // The other questions that come before.
        for ([p, kind, a, b], code) in [
            ([0, 14, 0, 0], 23),
            ([3, 14, 0, 0], 23),
            ([0, 15, 1, 2], 22),
            ([1, 15, 1, 0], 24),
            ([1, 15, 1, 1], 24),
            ([0, 18, 3, 0], 23),
            ([1, 18, 3, 0], 24),
            ([1, 17, 3, 0], 24),
            ([0, 17, 3, 2], 22),
            ([0, 17, 2, 0], 23),
        ] {
            let found = step(&mut m.clone(), [9, p, kind, a, b, 0])[0];
            assert_eq!(found, code, "{p} {kind} {a} {b}");
        }
    }

    /// 36 and 37 at each end, until a token comes or is read.
    #[test]
    fn nothing_at_each_end() {
        let mut calls = vec![
            ([0, 1, 1, 0, 0, 0], [0, 0, 0, 0, 0, 0]),
            ([0, 1, 10, 5, 0, 0], [0, 1, 0, 0, 0, 0]),
            ([0, 0, 13, 5, 8, 7], [0, 1, 0, 0, 0, 0]),
            ([0, 0, 18, 1, 0, 0], [36, 0, 0, 0, 0, 0]),
            ([0, 1, 14, 0, 0, 0], [0, 1, 66, 7, 5, 0]),
        ];
        for (sender, receiver) in [(1, 0), (0, 1), (1, 0)] {
            let send = |b, c, code| ([0, sender, 17, 1, b, c], [code, 0, 0, 0, 0, 0]);
            let receive = |c| ([0, receiver, 18, 1, 0, 0], [0, 0, 0, c, 0, 0]);
            let nothing = ([0, receiver, 18, 1, 0, 0], [36, 0, 0, 0, 0, 0]);
            calls.push(nothing);
            calls.extend([4, 0, 5, 6].map(|c| send(0, c, 0)));
            calls.extend([send(0, 8, 37), send(1, 8, 37), receive(4)]);
            calls.extend([send(0, 9, 0), send(0, 8, 37)]);
            calls.extend([0, 5, 6, 9].map(|c| receive(i64::from(c))));
            calls.extend([nothing, send(1, 3, 0)]);
            calls.push(([0, receiver, 18, 1, 0, 0], [29, 0, 32, 3, 0, 0]));
        }
        drill(&calls);
    }

    /// Four unread beside a cut or a return, which no list leaves: a cut is told
    /// first; a return is told only where nothing is unread.
    #[test]
    fn four_unread_beside_news() {
        let mut m = Monitor::fresh();
        let calls = [
            [0, 1, 1, 0, 0, 0],
            [0, 1, 10, 5, 0, 0],
            [0, 0, 13, 5, 8, 7],
            [0, 1, 14, 0, 0, 0],
        ];
        assert_eq!(codes(&mut m, &calls), [0; 4]);
        m.links[0].unread_count = 4;
        let mut cut = m.clone();
        cut.links[0].cut = Cut::Cut;
        assert_eq!(step(&mut m.clone(), [0, 1, 17, 1, 0, 9])[0], 37);
        assert_eq!(step(&mut cut, [0, 1, 17, 1, 0, 9]), [29, 0, 1, 0, 0, 0]);
        m.parties[1].served = 0;
        m.links[0].state = State::Returned;
        m.links[0].holder = End::Originator;
        for outcome in [SUCCESS, FAIL, ERROR] {
            m.links[0].outcome = outcome;
            assert_eq!(step(&mut m.clone(), [0, 0, 17, 1, 0, 9])[0], 37);
            let mut read = m.clone();
            read.links[0].unread_count = 0;
            let code = if outcome == SUCCESS { 0 } else { 29 };
            assert_eq!(step(&mut read, [0, 0, 17, 1, 0, 9])[0], code);
        }
    }

    /// Requests 1 to 3 of party 0 for service 5, no transaction; parties 1 and 2
    /// offer it and serve requests 1 and 2.
    fn two_served() -> Monitor {
        let mut m = Monitor::fresh();
        let calls = [
            [0, 1, 1, 0, 0, 0],
            [0, 2, 1, 0, 0, 0],
            [0, 1, 10, 5, 0, 0],
            [0, 2, 10, 5, 0, 0],
            [0, 0, 12, 5, 0, 7],
            [0, 0, 12, 5, 0, 7],
            [0, 0, 12, 5, 0, 7],
            [0, 1, 14, 0, 0, 0],
            [0, 2, 14, 0, 0, 0],
        ];
        assert_eq!(codes(&mut m, &calls), [0; 9]);
        m
    }

    /// Any reply, as they come: a is ignored, the value names the request.
    #[test]
    fn any_reply() {
        let mut m = two_served();
        let script = [
            ([0, 0, 15, 2, 1, 0], [36, 0, 0, 0, 0, 0]),
            ([0, 2, 20, 1, 0, 9], [0, 8, 0, 0, 0, 0]),
            ([0, 0, 15, 1, 1, 0], [0, 2, 0, 9, 0, 0]),
            ([0, 0, 15, 2, 1, 0], [36, 0, 0, 0, 0, 0]),
            ([0, 2, 14, 0, 0, 0], [0, 3, 64, 7, 5, 0]),
            ([0, 2, 21, 0, 0, 0], [0, 2, 0, 0, 0, 0]),
            ([0, 1, 20, 2, 0, 8], [0, 4, 0, 0, 0, 0]),
            ([0, 3, 15, 1, 1, 0], [24, 0, 0, 0, 0, 0]),
            ([0, 0, 15, 3, 1, 0], [30, 1, 0, 8, 0, 0]),
            ([0, 0, 15, 0, 1, 0], [31, 3, 0, 0, 0, 0]),
            ([0, 0, 15, 3, 1, 0], [24, 0, 0, 0, 0, 0]),
        ];
        for (call, answer) in script {
            assert_eq!(step(&mut m, call), answer, "{call:?}");
        }
        assert_eq!(m.link_count, 0);
    }

    /// A b above 1 is refused before anything else of a fetch is asked.
    #[test]
    fn fetch_with_another_b() {
        let mut m = two_served();
        step(&mut m, [0, 1, 20, 1, 0, 9]);
        for b in [2, 3, u32::MAX] {
            for (party, a) in [(0, 1), (0, 2), (0, 99), (7, 1)] {
                assert_eq!(step(&mut m, [0, party, 15, a, b, 0])[0], 22);
            }
            assert_eq!(step(&mut m, [0, 16, 15, 1, b, 0])[0], 21);
        }
        assert_eq!(step(&mut m, [0, 0, 15, 1, 0, 0]), [0, 0, 0, 9, 0, 0]);
    }

    /// Conversations, closed ends and other parties' requests are none to ask.
    #[test]
    fn no_end_for_any_reply() {
        let mut m = two_served();
        let calls = [
            [0, 0, 16, 1, 0, 0],
            [0, 0, 16, 2, 0, 0],
            [0, 0, 16, 3, 0, 0],
            [0, 0, 12, 5, 1, 7],
            [0, 0, 13, 5, 4, 7],
            [0, 3, 12, 5, 0, 7],
            [0, 1, 20, 1, 0, 9],
        ];
        assert_eq!(codes(&mut m, &calls), [0; 7]);
        assert_eq!(step(&mut m, [0, 0, 15, 1, 1, 0])[0], 24);
        assert_eq!(step(&mut m, [0, 3, 15, 1, 1, 0])[0], 36);
    }

    /// An expired transaction of one request stands in the way of all; an ended
    /// one, of which a record may hold a request, does not.
    #[test]
    fn any_reply_and_deadlines() {
        let mut m = two_served();
        let calls = [
            [0, 1, 20, 1, 0, 9],
            [0, 0, 1, 0, 0, 0],
            [0, 0, 9, 10, 0, 0],
            [5, 0, 3, 0, 0, 0],
            [5, 0, 12, 5, 0, 7],
        ];
        assert_eq!(codes(&mut m, &calls[..4]), [0; 4]);
        // The caller's transaction alone is not asked about.
        assert_eq!(step(&mut m.clone(), [15, 0, 15, 4, 1, 0])[0], 0);
        assert_eq!(codes(&mut m, &calls[4..]), [0]);
        let mut ended = m.clone();
        ended.parties[0].owned = 0;
        for (mut m, clock, code) in [(m.clone(), 14, 0), (m.clone(), 15, 28), (ended, 15, 0)] {
            assert_eq!(step(&mut m, [clock, 0, 15, 4, 1, 0])[0], code);
        }
        assert_eq!(step(&mut m, [15, 0, 15, 1, 0, 0])[0], 0);
        // Nothing is returned any more, but 28 is asked first.
        assert_eq!(step(&mut m, [15, 0, 15, 2, 1, 0])[0], 28);
        assert_eq!(step(&mut m, [15, 0, 15, 2, 0, 0])[0], 36);
    }

    /// An expired conversation of the caller's does not stand in the way.
    #[test]
    fn any_reply_beside_expired_conversation() {
        let mut m = Monitor::fresh();
        let calls = [
            [0, 0, 1, 0, 0, 0],
            [0, 1, 1, 0, 0, 0],
            [0, 1, 10, 5, 0, 0],
            [0, 0, 9, 10, 0, 0],
            [5, 0, 3, 0, 0, 0],
            [5, 0, 13, 5, 4, 0],
            [5, 0, 12, 5, 2, 17],
            [5, 1, 14, 0, 0, 0],
            [5, 2, 1, 0, 0, 0],
            [5, 2, 10, 5, 0, 0],
            [5, 2, 14, 0, 0, 0],
            [6, 2, 20, 1, 0, 18],
        ];
        assert_eq!(codes(&mut m, &calls), [0; 12]);
        assert_eq!(step(&mut m, [15, 0, 18, 1, 0, 0])[0], 28);
        assert_eq!(step(&mut m, [15, 0, 15, 1, 1, 0]), [0, 2, 0, 18, 0, 1]);
    }

    /// Nor does an expired request whose end the caller's return closed.
    #[test]
    fn any_reply_beside_expired_closed_end() {
        let mut m = Monitor::fresh();
        let calls = [
            [0, 0, 1, 0, 0, 0],
            [0, 1, 1, 0, 0, 0],
            [0, 2, 1, 0, 0, 0],
            [0, 3, 1, 0, 0, 0],
            [0, 1, 10, 5, 0, 0],
            [0, 2, 10, 6, 0, 0],
            [0, 3, 10, 7, 0, 0],
            [0, 0, 9, 10, 0, 0],
            [5, 0, 3, 0, 0, 0],
            [5, 0, 12, 5, 0, 1],
            [5, 1, 14, 0, 0, 0],
            [5, 1, 12, 6, 0, 2],
            [5, 2, 14, 0, 0, 0],
            [5, 1, 20, 1, 0, 0],
            [5, 1, 12, 7, 0, 3],
            [5, 3, 14, 0, 0, 0],
            [5, 3, 20, 1, 0, 9],
        ];
        assert_eq!(codes(&mut m, &calls), [0; 17]);
        assert_eq!(step(&mut m, [15, 0, 15, 1, 1, 0])[0], 28);
        assert_eq!(step(&mut m, [15, 1, 15, 2, 1, 0]), [0, 3, 0, 9, 0, 0]);
    }

    #[test]
    fn lists() {
        let mut m = Monitor::fresh();
        let mut answers = [77i64; 15];
        assert_eq!(run_list(&mut m, &[0; 7], &mut answers), 17);
        assert_eq!(run_list(&mut m, &[0; 7], &mut answers[..1]), 17);
        assert_eq!(run_list(&mut m, &[0; 18], &mut answers), 16);
        assert_eq!(answers, [77; 15]);
        assert!(equal(&m, &Monitor::fresh()));
        assert_eq!(run_list(&mut m, &[], &mut answers), 0);
        let calls = [9, 0, 99, 0, 0, 0, 4, 0, 1, 0, 0, 0];
        assert_eq!(run_list(&mut m, &calls, &mut answers), 0);
        assert_eq!(answers, [20, 0, 0, 0, 0, 0, 0, 0, 0, 0, 0, 0, 77, 77, 77]);
        assert_eq!(m.clock, 4);
        m.last_link = LAST_NUMBER + 1;
        assert_eq!(run_list(&mut m, &[], &mut answers), 19);
        assert_eq!(run_list(&mut m, &calls, &mut answers), 19);
        assert_eq!(step(&mut m, [50, 90, 99, 0, 0, 0]), [19, 0, 0, 0, 0, 0]);
        assert_eq!(m.clock, 4);
        assert!(!equal(&m, &m.clone()));
    }

    #[test]
    fn order_of_first_questions() {
        let mut m = Monitor::fresh();
        assert_eq!(step(&mut m, [5, 16, 0, 0, 0, 0])[0], 20);
        assert_eq!(step(&mut m, [5, 16, 24, 0, 0, 0])[0], 20);
        assert_eq!(step(&mut m, [5, 16, 99, 0, 0, 0])[0], 20);
        assert_eq!(step(&mut m, [5, 16, 23, 0, 0, 0])[0], 21);
        assert_eq!(m.clock, 0);
    }

    #[test]
    fn equality_counts_unread() {
        let mut one = Monitor::fresh();
        codes(&mut one, &[[0, 1, 10, 5, 0, 0], [0, 0, 13, 5, 4, 0]]);
        let mut two = one.clone();
        step(&mut one, [0, 0, 17, 1, 0, 3]);
        step(&mut two, [0, 0, 17, 1, 0, 4]);
        assert!(equal(&one, &two));
        assert!(!equal_with_tokens(&one, &two));
        step(&mut two, [0, 0, 17, 1, 0, 4]);
        assert!(!equal(&one, &two));
    }

    /// The states after accepted TX calls are those of the table.
    #[test]
    fn state_table() {
        for kind in 1..=9u32 {
            for state in 0..5usize {
                let mut m = Monitor::fresh();
                m.parties[3].opened = state > 0;
                m.parties[3].control = u8::from(state == 2 || state == 4);
                m.last_transaction = 9;
                m.parties[3].owned = if state > 2 { 9 } else { 0 };
                assert_eq!(m.tx_state(3), state);
                // For kind 8, the control it has already.
                let a = if kind == 8 {
                    u32::from(m.parties[3].control)
                } else {
                    0
                };
                let code = step(&mut m, [0, 3, kind, a, 0, 0])[0];
                match NEXT_STATE[kind as usize - 1][state] {
                    NONE => assert_eq!((code, m.tx_state(3)), (-5, state)),
                    next => assert_eq!((code >= 0, m.tx_state(3)), (true, usize::from(next))),
                }
            }
        }
    }

    #[test]
    fn spent_numbers() {
        let mut m = Monitor::fresh();
        m.last_transaction = LAST_NUMBER - 2;
        m.last_link = LAST_NUMBER - 1;
        let answers: Vec<_> = [
            [0, 0, 1, 0, 0, 0],
            [0, 0, 8, 1, 0, 0],
            [0, 1, 1, 0, 0, 0],
            [0, 1, 8, 1, 0, 0],
            [0, 1, 10, 5, 0, 0],
            [0, 0, 3, 0, 0, 0],
            [0, 1, 3, 0, 0, 0],
            [0, 0, 12, 5, 0, 0],
            [0, 0, 12, 5, 0, 0],
            [0, 0, 4, 0, 0, 0],
            [0, 1, 4, 0, 0, 0],
            [0, 1, 3, 0, 0, 0],
        ]
        .iter()
        .map(|&call| step(&mut m, call))
        .map(|answer| (answer[0], answer[1], answer[5]))
        .collect();
        assert_eq!(
            answers[5..8],
            [(0, 0, 59_999), (0, 0, 60_000), (0, 60_000, 59_999)]
        );
        assert_eq!(
            answers[8..],
            [(26, 0, 59_999), (-102, 0, 0), (-100, 0, 0), (-6, 0, 0)]
        );
    }

    /// Party 0 in transaction 1, opened and unchained.
    const BEGUN: [[u32; 6]; 2] = [[0, 0, 1, 0, 0, 0], [0, 0, 3, 0, 0, 0]];

    /// Party 0 in transaction 1; its control, and whether the transaction is
    /// doomed, by a conversation that it disconnects.
    fn begun(control: u32, doomed: bool) -> Monitor {
        let mut m = Monitor::fresh();
        assert_eq!(codes(&mut m, &BEGUN), [0, 0]);
        assert_eq!(step(&mut m, [0, 0, 8, control, 0, 0])[0], 0);
        if doomed {
            let calls = [
                [0, 9, 10, 64, 0, 0],
                [0, 0, 13, 64, 4, 0],
                [0, 0, 19, 1, 0, 0],
            ];
            assert_eq!(codes(&mut m, &calls), [0, 0, 0]);
        }
        m
    }

    /// Party 0's report of manager a.
    fn report(m: &mut Monitor, a: u32, b: u32, c: u32) {
        assert_eq!(step(m, [0, 0, 22, a, b, c])[0], 0, "{a} {b} {c}");
    }

    /// A report is answered with zeros and T and stands in the caller's record;
    /// a later one of the same manager replaces it.
    #[test]
    fn reports() {
        let mut m = drill(&[
            ([0, 2, 1, 0, 0, 0], [0, 0, 0, 0, 0, 0]),
            ([0, 2, 3, 0, 0, 0], [0, 0, 0, 0, 0, 1]),
            ([0, 5, 1, 0, 0, 0], [0, 0, 0, 0, 0, 0]),
            ([0, 5, 3, 0, 0, 0], [0, 0, 0, 0, 0, 2]),
            ([0, 5, 22, 0, 0, 0], [0, 0, 0, 0, 0, 2]),
            ([0, 5, 22, 1, 6, 0], [0, 0, 0, 0, 0, 2]),
            ([0, 5, 22, 2, 0, 1], [0, 0, 0, 0, 0, 2]),
            ([0, 5, 22, 3, 6, 1], [0, 0, 0, 0, 0, 2]),
            ([0, 2, 22, 3, 2, 0], [0, 0, 0, 0, 0, 1]),
        ]);
        assert_eq!(m.parties[5].reports, [1, 7, 8, 14]);
        assert_eq!(m.parties[2].reports, [0, 0, 0, 3]);
        for (b, c, number) in [(2, 1, 10), (2, 0, 3), (0, 0, 1)] {
            assert_eq!(step(&mut m, [0, 5, 22, 1, b, c]), [0, 0, 0, 0, 0, 2]);
            assert_eq!(m.parties[5].reports, [1, number, 8, 14]);
        }
        // Nothing else is changed.
        let mut before = m.clone();
        step(&mut m, [7, 5, 22, 0, 4, 1]);
        before.clock = 7;
        before.parties[5].reports[0] = 12;
        assert!(equal_with_tokens(&m, &before));
    }

    /// Each b, manager and c is kept by its number.
    #[test]
    fn numbers_of_reports() {
        for a in 0..4 {
            for b in 0..7 {
                let mut m = begun(0, false);
                report(&mut m, a, b, 0);
                assert_eq!(m.parties[0].reports[a as usize], 1 + b);
                report(&mut m, a, b, 1);
                assert_eq!(m.parties[0].reports[a as usize], 8 + b);
                assert_eq!(m.parties[0].reports.iter().filter(|&&r| r != 0).count(), 1);
            }
        }
    }

    /// 34 by manager, b and c; the earlier report stays, and so does none.
    #[test]
    fn unknown_reports() {
        let mut m = begun(0, false);
        report(&mut m, 1, 2, 1);
        let bad = [
            [4, 0, 0],
            [5, 0, 0],
            [u32::MAX, 0, 0],
            [1, 7, 0],
            [1, 8, 1],
            [1, 256, 0],
            [1, u32::MAX, 0],
            [1, 0, 2],
            [1, 0, 256],
            [1, 0, u32::MAX],
            [4, 7, 2],
            [0, 7, 0],
            [0, 0, 2],
        ];
        for [a, b, c] in bad {
            let before = m.clone();
            assert_eq!(step(&mut m, [0, 0, 22, a, b, c]), [34, 0, 0, 0, 0, 1]);
            assert!(equal(&m, &before));
        }
        assert_eq!(m.parties[0].reports, [0, 10, 0, 0]);
        // The clock goes on.
        assert_eq!(step(&mut m, [9, 0, 22, 4, 0, 0])[0], 34);
        assert_eq!(m.clock, 9);
        assert_eq!(step(&mut m, [9, 0, 4, 0, 0, 0])[0], -2);
    }

    /// Only the owner reports on its transaction, else 23, which is asked first:
    /// not without one, not a server in it, not once it ended, not another party.
    #[test]
    fn who_reports() {
        let refused = |t| [23, 0, 0, 0, 0, t];
        let m = drill(&[
            ([0, 0, 22, 0, 0, 0], refused(0)),
            ([0, 0, 1, 0, 0, 0], [0, 0, 0, 0, 0, 0]),
            ([0, 0, 22, 0, 0, 0], refused(0)),
            ([0, 0, 22, 4, 7, 2], refused(0)),
            ([0, 0, 8, 1, 0, 0], [0, 0, 0, 0, 0, 0]),
            ([0, 0, 22, 0, 0, 0], refused(0)),
            ([0, 1, 1, 0, 0, 0], [0, 0, 0, 0, 0, 0]),
            ([0, 1, 10, 5, 0, 0], [0, 1, 0, 0, 0, 0]),
            ([0, 0, 3, 0, 0, 0], [0, 0, 0, 0, 0, 1]),
            ([0, 1, 22, 0, 2, 0], refused(0)),
            ([0, 0, 12, 5, 0, 7], [0, 1, 0, 0, 0, 1]),
            ([0, 1, 14, 0, 0, 0], [0, 1, 64, 7, 5, 1]),
            ([0, 1, 22, 0, 2, 0], refused(1)),
            ([0, 1, 22, 4, 0, 0], refused(1)),
            ([0, 1, 22, 0, 7, 0], refused(1)),
            ([0, 1, 22, 0, 0, 2], refused(1)),
            ([0, 0, 22, 0, 0, 0], [0, 0, 0, 0, 0, 1]),
            ([0, 0, 22, 0, 0, 2], [34, 0, 0, 0, 0, 1]),
            ([0, 0, 5, 0, 0, 0], [0, 0, 0, 0, 0, 2]),
            // The served link's transaction is ended.
            ([0, 1, 22, 0, 0, 0], refused(1)),
            ([0, 16, 22, 0, 0, 0], [21, 0, 0, 0, 0, 0]),
            ([0, 0, 99, 0, 0, 0], [20, 0, 0, 0, 0, 0]),
        ]);
        assert!(m.parties.iter().all(|party| party.reports == [0; 4]));
    }

    /// The owner is the lowest party that owns the transaction, as for a commit;
    /// whether it is opened is not asked.
    #[test]
    fn owner_of_a_report() {
        let mut m = begun(0, false);
        m.parties[3].owned = 1;
        m.parties[3].opened = true;
        assert_eq!(
            step(&mut m, [0, 3, 22, 0, 0, 0]),
            [23, 0, 0, 0, 0, 1],
            "a second owner"
        );
        assert_eq!(step(&mut m, [0, 3, 4, 0, 0, 0])[0], -5);
        m.parties[0].opened = false;
        assert_eq!(step(&mut m, [0, 0, 22, 0, 0, 0]), [0, 0, 0, 0, 0, 1]);
        assert_eq!(step(&mut m, [0, 0, 4, 0, 0, 0])[0], -5);
    }

    /// What one manager, or two, give a commit: rows and columns are no report
    /// and b 0 to 6; for each decision.
    const TWO_MANAGERS: [[[i64; 8]; 8]; 2] = [
        [
            [-2, -2, -2, -2, -9, -2, -3, -4],
            [-2, -2, -2, -2, -3, -2, -3, -4],
            [-2, -2, -2, -2, -9, -2, -3, -4],
            [-2, -2, -2, -2, -3, -2, -3, -4],
            [-9, -3, -9, -3, -9, -3, -3, -4],
            [-2, -2, -2, -2, -3, -2, -3, -4],
            [-3, -3, -3, -3, -3, -3, -3, -3],
            [-4, -4, -4, -4, -4, -4, -3, -4],
        ],
        // A veto makes the decision another, so its row and column are above.
        [
            [0, 0, 0, -2, 0, -2, -3, -4],
            [0, 0, 0, -2, 0, -3, -3, -4],
            [0, 0, 0, -2, 0, -2, -3, -4],
            [-2, -2, -2, -2, -3, -2, -3, -4],
            [0, 0, 0, -3, 0, -3, -3, -4],
            [-2, -3, -2, -2, -3, -2, -3, -4],
            [-3, -3, -3, -3, -3, -3, -3, -3],
            [-4, -4, -4, -4, -4, -4, -3, -4],
        ],
    ];

    /// The code of a commit with four managers' reports, 0 none and else 1 + b:
    /// the most severe of what each two of them give under the decision.
    fn most_severe(conditions: bool, four: [u32; 4]) -> i64 {
        let decision = conditions && !four.contains(&3);
        let two = &TWO_MANAGERS[usize::from(decision)];
        let unreported = two[0][0];
        let severity = |code: &i64| match *code {
            -3 => 3,
            -4 => 2,
            code => u8::from(code != unreported),
        };
        four.iter()
            .flat_map(|&x| four.iter().map(move |&y| two[x as usize][y as usize]))
            .max_by_key(severity)
            .unwrap_or(unreported)
    }

    /// All reports of up to four managers, under both decisions; a rollback is 0
    /// with each of them.
    #[test]
    fn every_set_of_reports() {
        let [good, bad] = [begun(0, false), begun(0, true)];
        let mut seen = std::collections::BTreeMap::new();
        for n in 0..8u32.pow(4) {
            let four = [n % 8, n / 8 % 8, n / 64 % 8, n / 512];
            for (conditions, start) in [(true, &good), (false, &bad)] {
                let mut m = start.clone();
                for (a, said) in (0..).zip(four) {
                    if said != 0 {
                        report(&mut m, a, said - 1, 0);
                    }
                }
                assert_eq!(m.parties[0].reports, four);
                let mut rolled_back = m.clone();
                let code = step(&mut m, [0, 0, 4, 0, 0, 0])[0];
                assert_eq!(code, most_severe(conditions, four), "{four:?}");
                *seen.entry((conditions, code)).or_insert(0) += 1;
                assert_eq!(step(&mut rolled_back, [0, 0, 5, 0, 0, 0])[0], 0);
                assert_eq!(m.tx_state(0), 1);
                assert!(equal(&m, &rolled_back));
            }
        }
        let codes: Vec<(bool, i64)> = seen.into_keys().collect();
        assert_eq!(
            codes,
            [
                (false, -9),
                (false, -4),
                (false, -3),
                (false, -2),
                (true, -4),
                (true, -3),
                (true, -2),
                (true, 0)
            ]
        );
    }

    /// The codes by which the rules are told apart, each written out.
    #[test]
    fn codes_of_reports() {
        for (doomed, reports, code) in [
            (false, &[][..], 0),
            (true, &[], -2),
            // A veto decides, and counts as rolled back.
            (false, &[2], -2),
            (false, &[2, 0, 0, 0], -2),
            (false, &[2, 1], -2),
            (false, &[2, 3], -3),
            (true, &[2, 3], -3),
            // Prepared counts as the decision.
            (false, &[0, 0], 0),
            (false, &[0, 3], 0),
            (false, &[0, 4], -3),
            (true, &[0, 0], -2),
            (true, &[0, 3], -3),
            (true, &[0, 4], -2),
            // Read-only does not count.
            (false, &[1, 4], -2),
            (true, &[1, 3], -9),
            (false, &[1, 1, 1, 1], 0),
            (true, &[1, 1, 1, 1], -2),
            // All rolled back, after a commit decision; all committed, after
            // the other.
            (false, &[4], -2),
            (false, &[4, 4, 1], -2),
            (true, &[3], -9),
            (true, &[3, 3, 3, 3], -9),
            (false, &[3, 3], 0),
            // Mixed before hazard, and hazard before what is left.
            (false, &[5, 6], -3),
            (false, &[6, 3, 4], -3),
            (false, &[6, 0, 4], -3),
            (false, &[6], -4),
            (false, &[6, 0, 3, 1], -4),
            (false, &[6, 4], -4),
            (false, &[6, 2], -4),
            (true, &[6, 3], -4),
            (true, &[6, 0], -4),
            (true, &[5], -3),
        ] {
            for first in 0..4 {
                let mut m = begun(0, doomed);
                for (n, &b) in (first..).zip(reports) {
                    report(&mut m, n % 4, b, 0);
                }
                assert_eq!(
                    step(&mut m, [0, 0, 4, 0, 0, 0]),
                    [code, 0, 0, 0, 0, 0],
                    "{reports:?}"
                );
            }
        }
    }

    /// A veto that is replaced does not count, and no more does what it replaced.
    #[test]
    fn replaced_reports() {
        for (earlier, later, code) in [
            (2, 0, 0),
            (0, 2, -2),
            (5, 6, -4),
            (6, 3, 0),
            (4, 1, 0),
            (3, 4, -2),
        ] {
            let mut m = begun(0, false);
            report(&mut m, 2, earlier, 0);
            report(&mut m, 2, later, 0);
            assert_eq!(step(&mut m, [0, 0, 4, 0, 0, 0])[0], code);
        }
        // Another manager's report replaces none.
        let mut m = begun(0, false);
        report(&mut m, 2, 2, 0);
        report(&mut m, 1, 0, 0);
        assert_eq!(step(&mut m, [0, 0, 4, 0, 0, 0])[0], -2);
        // Nor can't start stands where a later report says that it can.
        for (earlier, later, code) in [(1, 0, 0), (0, 1, -100)] {
            let mut m = begun(1, false);
            report(&mut m, 3, 0, earlier);
            report(&mut m, 3, 0, later);
            assert_eq!(step(&mut m, [0, 0, 4, 0, 0, 0])[0], code);
        }
    }

    /// A manager that can't start, whatever it reports: chained, no new
    /// transaction begins, no number is used and 100 is subtracted; unchained, it
    /// makes no difference.
    #[test]
    fn cant_start() {
        for doomed in [false, true] {
            for b in 0..7u32 {
                let commit = TWO_MANAGERS[usize::from(!doomed)][b as usize + 1][0];
                for (kind, code) in [(4, commit), (5, 0)] {
                    let mut m = begun(0, doomed);
                    report(&mut m, 0, b, 1);
                    assert_eq!(step(&mut m, [0, 0, kind, 0, 0, 0]), [code, 0, 0, 0, 0, 0]);
                    assert_eq!(m.tx_state(0), 1);

                    let mut m = begun(1, doomed);
                    report(&mut m, 3, b, 1);
                    let answer = step(&mut m, [0, 0, kind, 0, 0, 0]);
                    assert_eq!(answer, [code - 100, 0, 0, 0, 0, 0], "{b}");
                    assert_eq!((m.tx_state(0), m.parties[0].control), (2, 1));
                    assert_eq!((m.last_transaction, m.parties[0].deadline), (1, 0));
                    assert_eq!(m.parties[0].reports, [0; 4]);
                    // The next one begins, and nothing is left of the reports.
                    assert_eq!(step(&mut m, [0, 0, 3, 0, 0, 0]), [0, 0, 0, 0, 0, 2]);
                    assert_eq!(step(&mut m, [0, 0, 4, 0, 0, 0]), [0, 0, 0, 0, 0, 3]);

                    let mut m = begun(1, doomed);
                    report(&mut m, 3, b, 0);
                    let answer = step(&mut m, [0, 0, kind, 0, 0, 0]);
                    assert_eq!(answer, [code, 0, 0, 0, 0, 2]);
                }
            }
        }
        // It is enough that one can't, and of two 100 is subtracted once.
        for second in [0, 1] {
            let mut m = begun(1, false);
            report(&mut m, 0, 0, second);
            report(&mut m, 1, 1, 1);
            assert_eq!(step(&mut m, [0, 0, 4, 0, 0, 0]), [-100, 0, 0, 0, 0, 0]);
        }
        // The control that counts is the one at the commit.
        let mut m = begun(0, false);
        report(&mut m, 0, 0, 1);
        step(&mut m, [0, 0, 8, 1, 0, 0]);
        assert_eq!(step(&mut m, [0, 0, 4, 0, 0, 0])[0], -100);
        // The deadline goes too; the timeout is for the next one.
        for end in [4, 5] {
            let mut m = Monitor::fresh();
            let calls = [
                [0, 0, 1, 0, 0, 0],
                [0, 0, 8, 1, 0, 0],
                [0, 0, 9, 10, 0, 0],
                [5, 0, 3, 0, 0, 0],
                [5, 0, 22, 0, 1, 1],
                [6, 0, end, 0, 0, 0],
            ];
            assert_eq!(codes(&mut m, &calls), [0, 0, 0, 0, 0, -100]);
            assert_eq!((m.parties[0].deadline, m.parties[0].timeout), (0, 10));
            assert_eq!(step(&mut m, [7, 0, 3, 0, 0, 0])[0], 0);
            assert_eq!(m.parties[0].deadline, 17);
        }
    }

    /// With the numbers spent as well 100 is subtracted once.
    #[test]
    fn cant_start_and_spent_numbers() {
        for (doomed, b, code) in [
            (false, 0, -100),
            (false, 1, -100),
            (false, 2, -102),
            (false, 5, -103),
            (false, 6, -104),
            (true, 3, -109),
        ] {
            for c in [0, 1] {
                let mut m = begun(1, doomed);
                m.last_transaction = LAST_NUMBER;
                report(&mut m, 0, b, c);
                let mut rolled_back = m.clone();
                assert_eq!(step(&mut m, [0, 0, 4, 0, 0, 0]), [code, 0, 0, 0, 0, 0]);
                assert_eq!(m.tx_state(0), 2);
                let answer = step(&mut rolled_back, [0, 0, 5, 0, 0, 0]);
                assert_eq!(answer, [-100, 0, 0, 0, 0, 0]);
                assert!(equal(&m, &rolled_back));
            }
        }
    }

    /// Reports on a doomed transaction, an expired one and one with an open link
    /// are taken, and count.
    #[test]
    fn reports_on_a_spoiled_transaction() {
        let doomed = begun(0, true);
        let mut open = begun(0, false);
        let calls = [[0, 9, 10, 64, 0, 0], [0, 0, 12, 64, 0, 0]];
        assert_eq!(codes(&mut open, &calls), [0, 0]);
        let mut expired = Monitor::fresh();
        let calls = [BEGUN[0], [0, 0, 9, 10, 0, 0], [5, 0, 3, 0, 0, 0]];
        assert_eq!(codes(&mut expired, &calls), [0, 0, 0]);
        for mut m in [doomed, open, expired] {
            for (b, code) in [(3, -9), (0, -2), (1, -2), (6, -4), (5, -3)] {
                let mut m = m.clone();
                assert_eq!(step(&mut m, [15, 0, 22, 0, b, 0]), [0, 0, 0, 0, 0, 1]);
                assert_eq!(step(&mut m, [15, 0, 4, 0, 0, 0]), [code, 0, 0, 0, 0, 0]);
            }
            assert_eq!(step(&mut m, [15, 0, 4, 0, 0, 0])[0], -2);
        }
    }

    /// Reports go with the transaction: at a commit and a rollback, chained or
    /// not, at a return and at a fall.
    #[test]
    fn reports_go() {
        for kind in [4, 5] {
            for control in [0, 1] {
                let mut m = begun(control, false);
                for a in 0..4 {
                    report(&mut m, a, 2, 0);
                }
                step(&mut m, [0, 0, kind, 0, 0, 0]);
                assert_eq!(m.parties[0].reports, [0; 4]);
                if control == 0 {
                    step(&mut m, [0, 0, 3, 0, 0, 0]);
                }
                assert_eq!(step(&mut m, [0, 0, 4, 0, 0, 0])[0], 0);
            }
        }
        for end in [[0, 0, 20, 1, 0, 0], [0, 0, 21, 0, 0, 0]] {
            // Party 0 serves a request of no transaction and begins its own.
            let mut m = Monitor::fresh();
            let calls = [
                [0, 0, 1, 0, 0, 0],
                [0, 0, 10, 5, 0, 0],
                [0, 1, 12, 5, 0, 7],
                [0, 0, 14, 0, 0, 0],
                [0, 0, 3, 0, 0, 0],
                [0, 0, 22, 1, 2, 1],
            ];
            assert_eq!(codes(&mut m, &calls), [0; 6]);
            assert_eq!(step(&mut m, end), [0, 2, 0, 0, 0, 0]);
            assert_eq!(m.parties[0].reports, [0; 4]);
            assert_eq!(codes(&mut m, &BEGUN), [0, 0]);
            assert_eq!(step(&mut m, [0, 0, 4, 0, 0, 0])[0], 0);
        }
        // A fall without service.
        let mut m = begun(1, false);
        report(&mut m, 0, 2, 1);
        assert_eq!(step(&mut m, [0, 0, 21, 0, 0, 0])[0], 0);
        assert_eq!(codes(&mut m, &BEGUN), [0, 0]);
        assert_eq!(step(&mut m, [0, 0, 4, 0, 0, 0])[0], 0);
    }

    /// Reports that a record holds without a transaction, which no list reaches:
    /// a begin leaves them, and so does a return that ends no transaction.
    #[test]
    fn stray_reports() {
        let mut m = Monitor::fresh();
        m.parties[0].reports = [0, 3, 0, 8];
        let calls = [
            [0, 0, 1, 0, 0, 0],
            [0, 0, 10, 5, 0, 0],
            [0, 1, 12, 5, 0, 7],
            [0, 0, 14, 0, 0, 0],
            [0, 0, 20, 1, 0, 0],
            [0, 0, 8, 1, 0, 0],
            [0, 0, 3, 0, 0, 0],
        ];
        assert_eq!(codes(&mut m, &calls), [0; 7]);
        assert_eq!(m.parties[0].reports, [0, 3, 0, 8]);
        assert_eq!(step(&mut m, [0, 0, 4, 0, 0, 0])[0], -102);
        assert_eq!(m.parties[0].reports, [0; 4]);
    }

    /// A record is sound only if every report is at most 14.
    #[test]
    fn soundness_of_reports() {
        for p in [0, 7, 15] {
            for a in 0..4 {
                let mut m = begun(0, false);
                for report in 0..=14 {
                    m.parties[p].reports[a] = report;
                    assert!(m.is_sound());
                }
                for report in [15, 16, 255, 256, u32::MAX] {
                    m.parties[p].reports[a] = report;
                    assert!(!m.is_sound());
                    assert_eq!(step(&mut m, [9, 0, 22, 0, 0, 0]), [19, 0, 0, 0, 0, 0]);
                    assert_eq!(run_list(&mut m, &[], &mut []), 19);
                    assert_eq!(m.clock, 0);
                    assert!(!equal(&m, &m.clone()));
                }
            }
        }
    }

    /// Equality compares each report, b and whether the manager can start.
    #[test]
    fn equality_compares_reports() {
        let m = begun(0, false);
        let mut kept: Vec<Monitor> = vec![m.clone()];
        for a in 0..4 {
            for b in 0..7 {
                for c in [0, 1] {
                    let mut m = m.clone();
                    report(&mut m, a, b, c);
                    assert!(equal(&m, &m.clone()));
                    assert!(kept.iter().all(|other| !equal(&m, other)));
                    kept.push(m);
                }
            }
        }
    }
    /// The place of a service in a set's halves: b and c without it.
    fn all_but(service: u32) -> [u32; 2] {
        match service {
            1..=32 => [!(1 << (service - 1)), u32::MAX],
            _ => [u32::MAX, !(1 << (service - 33))],
        }
    }

    /// The halves of a set that has only this service.
    fn only(service: u32) -> [u32; 2] {
        all_but(service).map(|half| !half)
    }

    const ALL: [u32; 2] = [u32::MAX; 2];
    const NONE_AT_ALL: [u32; 2] = [0; 2];

    /// Party 0 sets what a party may request (0) or advertise (1).
    fn set_rights(m: &mut Monitor, party: u32, which: u32, [b, c]: [u32; 2]) {
        let t = i64::from(m.transaction(0));
        let call = [0, 0, 23, 2 * party + which, b, c];
        assert_eq!(step(m, call), [0, 0, 0, 0, 0, t], "{call:?}");
    }

    /// A fresh party may do all, the one exception to all zero.
    #[test]
    fn fresh_rights() {
        let m = Monitor::fresh();
        for party in m.parties {
            assert_eq!(
                (party.may_request, party.may_advertise),
                (u64::MAX, u64::MAX)
            );
        }
        for service in 1..=64 {
            let mut m = Monitor::fresh();
            let calls = [[0, 9, 10, service, 0, 0], [0, 9, 12, service, 0, 0]];
            assert_eq!(codes(&mut m, &calls), [0, 0]);
        }
    }

    /// Each of the 32 sets, each service of it: b has 1 to 32, lowest bit first,
    /// c the rest; nothing else is changed.
    #[test]
    fn rights_are_set() {
        for a in 0..32 {
            for service in 1..=64 {
                let mut m = Monitor::fresh();
                let [b, c] = only(service);
                assert_eq!(step(&mut m, [7, 0, 23, a, b, c]), [0; 6]);
                let mut expected = Monitor::fresh();
                expected.clock = 7;
                let party = &mut expected.parties[a as usize / 2];
                if a % 2 == 0 {
                    party.may_request = 1 << (service - 1);
                } else {
                    party.may_advertise = 1 << (service - 1);
                }
                assert!(equal(&m, &expected));
            }
        }
        let mut m = Monitor::fresh();
        assert_eq!(step(&mut m, [0, 0, 23, 13, 0x8000_0001, 6]), [0; 6]);
        assert_eq!(m.parties[6].may_advertise, 0x6_8000_0001);
        // It is replaced whole.
        assert_eq!(step(&mut m, [0, 0, 23, 13, 2, 0]), [0; 6]);
        assert_eq!(m.parties[6].may_advertise, 2);
        assert_eq!(m.parties[6].may_request, u64::MAX);
    }

    /// Only party 0: 35, asked first, also with a bad a; then a: 22. Both move
    /// the clock, and change nothing else.
    #[test]
    fn who_sets_rights() {
        let mut m = Monitor::fresh();
        for party in 1..16 {
            for a in [0, 2 * party, 2 * party + 1, 31, 32, 33, u32::MAX] {
                assert_eq!(step(&mut m, [party, party, 23, a, 0, 0])[0], 35);
            }
        }
        for a in [32, 33, 34, 63, 64, 256, 1 << 31, u32::MAX] {
            assert_eq!(step(&mut m, [20, 0, 23, a, 0, 0]), [22, 0, 0, 0, 0, 0]);
        }
        assert_eq!(step(&mut m, [30, 16, 23, 32, 0, 0])[0], 21);
        assert_eq!(m.clock, 20);
        m.clock = 0;
        assert!(equal(&m, &Monitor::fresh()));
        assert_eq!(step(&mut m, [30, 1, 23, 32, 0, 0]), [35, 0, 0, 0, 0, 0]);
        assert_eq!(m.clock, 30);
        assert_eq!(step(&mut m, [40, 0, 23, 31, 0, 0]), [0; 6]);
        assert_eq!(m.clock, 40);
    }

    /// Party 0 sets rights wherever it is: not opened, in a transaction, which is
    /// the last field, expired or doomed, and while it serves.
    #[test]
    fn rights_are_set_from_any_state() {
        let mut m = begun(1, true);
        assert_eq!(step(&mut m, [0, 0, 23, 9, 1, 2]), [0, 0, 0, 0, 0, 1]);
        assert_eq!(step(&mut m, [0, 0, 23, 32, 1, 2]), [22, 0, 0, 0, 0, 1]);
        drill(&[
            ([0, 1, 10, 9, 0, 0], [0, 1, 0, 0, 0, 0]),
            ([0, 0, 10, 5, 0, 0], [0, 1, 0, 0, 0, 0]),
            ([0, 0, 1, 0, 0, 0], [0, 0, 0, 0, 0, 0]),
            ([0, 2, 1, 0, 0, 0], [0, 0, 0, 0, 0, 0]),
            ([0, 2, 9, 10, 0, 0], [0, 0, 0, 0, 0, 0]),
            ([5, 2, 3, 0, 0, 0], [0, 0, 0, 0, 0, 1]),
            ([5, 2, 12, 5, 0, 7], [0, 1, 0, 0, 0, 1]),
            ([5, 0, 14, 0, 0, 0], [0, 1, 64, 7, 5, 1]),
            ([15, 0, 23, 4, 0, 0], [0, 0, 0, 0, 0, 1]),
            ([15, 2, 12, 9, 0, 7], [35, 0, 0, 0, 0, 1]),
            ([15, 2, 23, 4, 0, 0], [35, 0, 0, 0, 0, 1]),
            ([15, 0, 12, 9, 0, 7], [28, 0, 0, 0, 0, 1]),
            ([15, 0, 23, 0, 0, 0], [0, 0, 0, 0, 0, 1]),
            ([15, 0, 12, 9, 0, 7], [35, 0, 0, 0, 0, 1]),
            ([15, 0, 23, 0, u32::MAX, 0], [0, 0, 0, 0, 0, 1]),
            ([15, 0, 12, 9, 0, 7], [28, 0, 0, 0, 0, 1]),
            ([15, 0, 20, 1, 0, 8], [0, 2, 0, 0, 0, 0]),
        ]);
    }

    /// Advertising asks the advertising set after 22 and before 26, of a service
    /// that is offered already too; requests ask the requesting one.
    #[test]
    fn advertising_asks() {
        for service in [1, 31, 32, 33, 34, 63, 64] {
            let mut m = Monitor::fresh();
            set_rights(&mut m, 3, 1, all_but(service));
            set_rights(&mut m, 4, 0, NONE_AT_ALL);
            for other in 1..=64 {
                let mut m = m.clone();
                let code = if other == service { 35 } else { 0 };
                assert_eq!(step(&mut m, [0, 3, 10, other, 0, 0])[0], code);
                assert_eq!(step(&mut m, [0, 4, 10, other, 0, 0])[0], 0);
                // Kind 11 asks no right.
                let code = if other == service { 25 } else { 0 };
                assert_eq!(step(&mut m, [0, 3, 11, other, 0, 0])[0], code);
            }
            set_rights(&mut m, 3, 1, only(service));
            for other in 1..=64 {
                let mut m = m.clone();
                let code = if other == service { 0 } else { 35 };
                assert_eq!(step(&mut m, [0, 3, 10, other, 0, 0])[0], code);
            }
        }
        let mut m = Monitor::fresh();
        set_rights(&mut m, 3, 1, NONE_AT_ALL);
        for bad in [0, 65, 256, u32::MAX] {
            assert_eq!(step(&mut m, [0, 3, 10, bad, 0, 0])[0], 22);
        }
        // Before 26, and of an offered one.
        let mut m = Monitor::fresh();
        for service in 1..=8 {
            assert_eq!(step(&mut m, [0, 3, 10, service, 0, 0])[0], 0);
        }
        assert_eq!(step(&mut m, [0, 3, 10, 9, 0, 0])[0], 26);
        set_rights(&mut m, 3, 1, [0xF0, 0]);
        assert_eq!(step(&mut m, [0, 3, 10, 9, 0, 0])[0], 35);
        assert_eq!(step(&mut m, [0, 3, 10, 1, 0, 0]), [35, 0, 0, 0, 0, 0]);
        assert_eq!(step(&mut m, [0, 3, 10, 5, 0, 0]), [0, 8, 0, 0, 0, 0]);
        assert_eq!(step(&mut m, [0, 3, 11, 1, 0, 0]), [0, 7, 0, 0, 0, 0]);
        assert_eq!(step(&mut m, [0, 3, 10, 1, 0, 0])[0], 35);
    }

    /// Requests and conversations ask the requesting set, with every flag.
    #[test]
    fn requesting_asks() {
        for service in [1, 31, 32, 33, 34, 63, 64] {
            for (kind, flags) in [(12, &[0, 1, 2, 3][..]), (13, &[4, 6, 8, 10])] {
                for &b in flags {
                    let mut m = Monitor::fresh();
                    set_rights(&mut m, 3, 0, all_but(service));
                    set_rights(&mut m, 3, 1, only(service));
                    set_rights(&mut m, 5, 0, only(service));
                    for other in 1..=64 {
                        let mut m = m.clone();
                        step(&mut m, [0, 9, 10, other, 0, 0]);
                        let found = codes(
                            &mut m,
                            &[[0, 3, kind, other, b, 7], [0, 5, kind, other, b, 7]],
                        );
                        let expected = if other == service { [35, 0] } else { [0, 35] };
                        assert_eq!(found, expected, "{other}");
                    }
                }
            }
        }
    }

    /// 35 stands after 22 and before 23, 28, 25 and 26.
    #[test]
    fn place_of_35_in_requests() {
        let refused = |m: &Monitor, party: u32, b: u32, service: u32, code: i64| {
            for (kind, b) in [(12, b), (13, 4 | b)] {
                let mut m = m.clone();
                let call = [m.clock, party, kind, service, b, 7];
                assert_eq!(step(&mut m, call)[0], code, "{call:?}");
                set_rights(&mut m, party, 0, all_but(service));
                assert_eq!(step(&mut m, call)[0], 35, "{call:?}");
                set_rights(&mut m, party, 0, ALL);
                assert_eq!(step(&mut m, call)[0], code, "{call:?}");
            }
        };
        // 25: nobody offers it.
        let mut m = Monitor::fresh();
        refused(&m, 3, 0, 5, 25);
        refused(&m, 3, 2, 40, 25);
        // 22: a bad service, and bad flags.
        set_rights(&mut m, 3, 0, NONE_AT_ALL);
        for [kind, a, b] in [
            [12, 0, 0],
            [12, 65, 0],
            [12, 5, 4],
            [13, 0, 4],
            [13, 65, 4],
            [13, 5, 0],
            [13, 5, 12],
        ] {
            assert_eq!(step(&mut m, [0, 3, kind, a, b, 0])[0], 22);
        }
        // A bare 1 in T.
        let mut m = begun(0, false);
        set_rights(&mut m, 0, 0, NONE_AT_ALL);
        assert_eq!(step(&mut m, [0, 0, 12, 5, 1, 0])[0], 22);
        assert_eq!(step(&mut m, [0, 0, 12, 5, 0, 0])[0], 35);
        // 26: 32 links, or no number left.
        let mut full = Monitor::fresh();
        step(&mut full, [0, 9, 10, 5, 0, 0]);
        for _ in 0..32 {
            assert_eq!(step(&mut full, [0, 8, 12, 5, 0, 0])[0], 0);
        }
        refused(&full, 3, 0, 5, 26);
        let mut spent = Monitor::fresh();
        step(&mut spent, [0, 9, 10, 5, 0, 0]);
        spent.last_link = LAST_NUMBER;
        refused(&spent, 3, 2, 5, 26);
        // 23 and 28: a server in a transaction that has expired, and has ended.
        let mut m = Monitor::fresh();
        let calls = [
            [0, 2, 1, 0, 0, 0],
            [0, 3, 1, 0, 0, 0],
            [0, 3, 10, 5, 0, 0],
            [0, 2, 9, 10, 0, 0],
            [5, 2, 3, 0, 0, 0],
            [5, 2, 12, 5, 0, 7],
            [5, 3, 14, 0, 0, 0],
        ];
        assert_eq!(codes(&mut m, &calls), [0; 7]);
        let mut late = m.clone();
        step(&mut late, [15, 2, 6, 0, 0, 0]);
        refused(&late, 3, 0, 5, 28);
        refused(&late, 2, 0, 5, 28);
        step(&mut m, [5, 2, 5, 0, 0, 0]);
        refused(&m, 3, 0, 5, 23);
    }

    /// An offer and a link live on when rights shrink: others request the
    /// service, it is taken and answered, and can be withdrawn; only offering it
    /// again, and asking for it again, is 35.
    #[test]
    fn rights_shrink() {
        let m = drill(&[
            ([0, 1, 1, 0, 0, 0], [0, 0, 0, 0, 0, 0]),
            ([0, 1, 10, 40, 0, 0], [0, 1, 0, 0, 0, 0]),
            ([0, 2, 12, 40, 0, 7], [0, 1, 0, 0, 0, 0]),
            ([0, 0, 23, 3, 0, 0], [0, 0, 0, 0, 0, 0]),
            ([0, 0, 23, 4, 0, 0], [0, 0, 0, 0, 0, 0]),
            ([0, 1, 10, 40, 0, 0], [35, 0, 0, 0, 0, 0]),
            ([0, 2, 12, 40, 0, 8], [35, 0, 0, 0, 0, 0]),
            ([0, 3, 13, 40, 4, 9], [0, 2, 0, 0, 0, 0]),
            ([0, 1, 14, 0, 0, 0], [0, 1, 64, 7, 40, 0]),
            ([0, 1, 20, 1, 0, 11], [0, 8, 0, 0, 0, 0]),
            ([0, 2, 15, 1, 0, 0], [0, 0, 0, 11, 0, 0]),
            ([0, 3, 17, 2, 1, 12], [0, 0, 0, 0, 0, 0]),
            ([0, 0, 23, 6, 0, 0], [0, 0, 0, 0, 0, 0]),
            ([0, 1, 14, 0, 0, 0], [0, 2, 65, 9, 40, 0]),
            ([0, 1, 18, 2, 0, 0], [29, 0, 32, 12, 0, 0]),
            ([0, 1, 17, 2, 0, 13], [0, 0, 0, 0, 0, 0]),
            ([0, 3, 18, 2, 0, 0], [0, 0, 0, 13, 0, 0]),
            ([0, 1, 20, 1, 0, 14], [0, 8, 0, 0, 0, 0]),
            ([0, 3, 18, 2, 0, 0], [29, 0, 8, 14, 0, 0]),
            ([0, 1, 11, 40, 0, 0], [0, 0, 0, 0, 0, 0]),
            ([0, 1, 10, 40, 0, 0], [35, 0, 0, 0, 0, 0]),
            ([0, 1, 11, 40, 0, 0], [25, 0, 0, 0, 0, 0]),
            ([0, 0, 23, 3, 0, 128], [0, 0, 0, 0, 0, 0]),
            ([0, 1, 10, 40, 0, 0], [0, 1, 0, 0, 0, 0]),
        ]);
        assert_eq!(m.link_count, 0);
    }

    /// A fall keeps both sets, of party 0 as of any other, whether it serves or
    /// not; all else of the party is fresh.
    #[test]
    fn falls_keep_rights() {
        for p in [0, 1, 15] {
            for serving in [false, true] {
                let mut m = Monitor::fresh();
                let other = 7;
                let calls = [
                    [0, p, 1, 0, 0, 0],
                    [0, p, 8, 1, 0, 0],
                    [0, p, 9, 10, 0, 0],
                    [0, p, 10, 5, 0, 0],
                    [0, other, 12, 5, 0, 7],
                    [0, p, 14, 0, 0, 0],
                    [0, p, 3, 0, 0, 0],
                    [0, p, 22, 0, 2, 1],
                ];
                for call in calls {
                    let skipped = !serving && matches!(call[2], 12 | 14);
                    assert!(skipped || step(&mut m, call)[0] == 0);
                }
                set_rights(&mut m, p, 0, [1, 2]);
                set_rights(&mut m, p, 1, [3, 4]);
                set_rights(&mut m, other, 0, [5, 6]);
                let value = if serving { 2 } else { 0 };
                assert_eq!(step(&mut m, [0, p, 21, 0, 0, 0]), [0, value, 0, 0, 0, 0]);
                let expected = Party {
                    may_request: 1 | 2 << 32,
                    may_advertise: 3 | 4 << 32,
                    ..Party::fresh()
                };
                assert_eq!(m.parties[p as usize], expected);
                assert_eq!(m.parties[other as usize].may_request, 5 | 6 << 32);
                assert_eq!(step(&mut m, [0, p, 10, 5, 0, 0])[0], 35);
                assert_eq!(step(&mut m, [0, p, 12, 5, 0, 0])[0], 35);
            }
        }
    }

    /// The sets outlive open and close, and the end of a transaction and of a
    /// service.
    #[test]
    fn rights_outlive() {
        let mut m = Monitor::fresh();
        set_rights(&mut m, 1, 0, [1, 2]);
        set_rights(&mut m, 1, 1, [16, 4]);
        for call in [
            [0, 1, 1, 0, 0, 0],
            [0, 1, 2, 0, 0, 0],
            [0, 1, 1, 0, 0, 0],
            [0, 1, 3, 0, 0, 0],
            [0, 1, 4, 0, 0, 0],
            [0, 1, 3, 0, 0, 0],
            [0, 1, 5, 0, 0, 0],
            [0, 1, 10, 5, 0, 0],
            [0, 2, 12, 5, 0, 0],
            [0, 1, 14, 0, 0, 0],
            [0, 1, 20, 1, 0, 0],
            [0, 1, 11, 5, 0, 0],
        ] {
            assert_eq!(step(&mut m, call)[0], 0, "{call:?}");
            let of = m.parties[1];
            assert_eq!(of.may_request, 1 | 2 << 32);
            assert_eq!(of.may_advertise, 16 | 4 << 32);
        }
    }

    /// Party 0 may take rights from itself, and give them back.
    #[test]
    fn own_rights_of_party_0() {
        let mut m = Monitor::fresh();
        step(&mut m, [0, 9, 10, 5, 0, 0]);
        set_rights(&mut m, 0, 0, NONE_AT_ALL);
        set_rights(&mut m, 0, 1, NONE_AT_ALL);
        let calls = [
            [0, 0, 10, 5, 0, 0],
            [0, 0, 12, 5, 0, 0],
            [0, 0, 13, 5, 4, 0],
        ];
        assert_eq!(codes(&mut m, &calls), [35; 3]);
        set_rights(&mut m, 0, 1, ALL);
        assert_eq!(codes(&mut m, &calls), [0, 35, 35]);
        set_rights(&mut m, 0, 0, ALL);
        assert_eq!(codes(&mut m, &calls), [0; 3]);
    }

    /// Every set is sound, and equality compares both.
    #[test]
    fn soundness_and_equality_of_rights() {
        let mut kept: Vec<Monitor> = vec![Monitor::fresh()];
        for p in 0..16 {
            for set in [0, 1, 1 << 63, 1 << 32, u64::MAX - 1] {
                for which in 0..2 {
                    let mut m = Monitor::fresh();
                    if which == 0 {
                        m.parties[p].may_request = set;
                    } else {
                        m.parties[p].may_advertise = set;
                    }
                    assert!(m.is_sound() && equal(&m, &m.clone()));
                    assert!(kept.iter().all(|other| !equal(&m, other)));
                    kept.push(m);
                }
            }
        }
    }

    /// Party 1 at work for party 0, whose transaction has the deadline 15: a
    /// request, or with 4 or 8 a conversation that the originator or the server
    /// holds, with a token unread.
    fn at_work(flags: u32) -> Monitor {
        let mut m = Monitor::fresh();
        let kind = if flags == 0 { 12 } else { 13 };
        let sender = u32::from(flags == 8);
        for call in [
            [0, 0, 1, 0, 0, 0],
            [0, 1, 1, 0, 0, 0],
            [0, 1, 10, 5, 0, 0],
            [0, 0, 9, 10, 0, 0],
            [5, 0, 3, 0, 0, 0],
            [5, 0, kind, 5, flags, 7],
            [5, 1, 14, 0, 0, 0],
            [5, sender, 17, 1, 0, 41],
        ] {
            let code = if call[2] == 17 && flags == 0 { 24 } else { 0 };
            assert_eq!(step(&mut m, call)[0], code, "{call:?}");
        }
        m
    }

    /// A success in a lost transaction (R-7) is 2, by the doomed mark or at the
    /// deadline, whether a request or a conversation and whoever holds it; unread
    /// and the ending token go with it, and the transaction is doomed. A failure
    /// there is as anywhere.
    #[test]
    fn returns_in_a_lost_transaction() {
        let ways = [0, 4, 8].map(|flags| [1, 2].map(|a| [0, 9].map(|c| (flags, a, c))));
        for (flags, a, c) in ways.into_iter().flatten().flatten() {
            for (doomed, clock) in [(false, 14), (true, 14), (false, 15), (true, 15)] {
                let mut m = at_work(flags);
                m.parties[0].doomed = doomed;
                let lost = doomed || clock == 15;
                let outcome = match (flags, a, c) {
                    (4, 2, 0) => FAIL,
                    (4, _, _) => ERROR,
                    (_, 1, _) if lost => ERROR,
                    (_, 1, _) => SUCCESS,
                    _ => FAIL,
                };
                let told = [0, i64::from(outcome), 0, 0, 0, 0];
                assert_eq!(step(&mut m, [clock, 1, 20, a, 0, c]), told);
                let mut expected = at_work(flags);
                expected.clock = clock;
                expected.parties[0].doomed = doomed || outcome != SUCCESS;
                expected.parties[1].served = 0;
                let link = &mut expected.links[0];
                link.state = State::Returned;
                link.outcome = outcome;
                if outcome != ERROR {
                    link.ending_token = c;
                }
                if outcome == ERROR || flags == 4 {
                    link.unread_count = 0;
                }
                assert!(equal_with_tokens(&m, &expected), "{flags} {a} {c} {clock}");
                // What the originator hears: 28 from the deadline on.
                let token = if outcome == ERROR { 0 } else { i64::from(c) };
                let (kind, heard) = match (flags, outcome) {
                    (0, SUCCESS) => (15, [0, 0, 0, token, 0, 1]),
                    (0, FAIL) => (15, [30, 0, 0, token, 0, 1]),
                    (0, _) => (15, [31, 0, 0, token, 0, 1]),
                    (8, SUCCESS | FAIL) => (18, [0, 0, 0, 41, 0, 1]),
                    _ => (18, [29, 0, i64::from(outcome), token, 0, 1]),
                };
                let late = [28, 0, 0, 0, 0, 1];
                let heard = if clock == 15 { late } else { heard };
                assert_eq!(step(&mut m, [clock, 0, kind, 1, 0, 0]), heard);
            }
        }
    }

    /// An ended transaction is neither doomed nor expired, and none is neither,
    /// whatever its originator owns now; the server is told 2 also where nobody
    /// hears it.
    #[test]
    fn returns_in_no_lost_transaction() {
        for (transaction, owned, open, outcome) in [
            (1, 1, true, 2),
            (1, 1, false, 2),
            (1, 0, true, 8),
            (1, 0, false, 8),
            (1, 2, true, 8),
            (0, 1, true, 8),
            (0, 1, false, 8),
        ] {
            let mut m = at_work(0);
            m.last_transaction = 2;
            m.parties[0].owned = owned;
            m.parties[0].doomed = true;
            m.links[0].transaction = transaction;
            m.links[0].open = open;
            assert_eq!(step(&mut m, [15, 1, 20, 1, 0, 9])[1], outcome);
            assert_eq!(m.link_count, usize::from(open));
        }
    }

    /// The clock is the raised one, by another's refused call too; calls that
    /// raise none bring no deadline.
    #[test]
    fn clock_of_a_lost_transaction() {
        for (before, clock, outcome) in [
            ([5, 9, 6, 0, 0, 0], 15, 2),
            ([15, 9, 6, 0, 0, 0], 3, 2),
            ([14, 9, 6, 0, 0, 0], 3, 8),
            ([15, 16, 6, 0, 0, 0], 14, 8),
            ([15, 9, 99, 0, 0, 0], 14, 8),
        ] {
            let mut m = at_work(0);
            step(&mut m, before);
            assert_eq!(step(&mut m, [clock, 1, 20, 1, 0, 9])[1], outcome);
        }
    }

    /// The mark and the deadline are those of the lowest party that owns it, as no
    /// list shows; a mark of another party stands for nothing.
    #[test]
    fn owner_of_a_lost_transaction() {
        for (doomed, outcome) in [([2, 3], 2), ([3, 4], 8), ([1, 5], 8), ([5, 15], 8)] {
            let mut m = at_work(0);
            m.parties[0] = Party::fresh();
            m.parties[2].owned = 1;
            m.parties[4].owned = 1;
            m.parties[4].deadline = 1;
            for party in [doomed[0], doomed[1]] {
                m.parties[party].doomed = true;
            }
            assert!(m.is_sound());
            assert_eq!(step(&mut m, [14, 1, 20, 1, 0, 9])[1], outcome, "{doomed:?}");
        }
    }

    /// The second of two services is told of the first one's failure, fetched or
    /// not; a reply given before keeps its 0.
    #[test]
    fn told_as_soon_as_possible() {
        for (a, outcome, code) in [(1, 8, 0), (2, 4, 30)] {
            for fetches in [false, true] {
                let mut script = vec![
                    ([0, 0, 1, 0, 0, 0], [0, 0, 0, 0, 0, 0]),
                    ([0, 1, 1, 0, 0, 0], [0, 0, 0, 0, 0, 0]),
                    ([0, 2, 1, 0, 0, 0], [0, 0, 0, 0, 0, 0]),
                    ([0, 1, 10, 5, 0, 0], [0, 1, 0, 0, 0, 0]),
                    ([0, 2, 10, 5, 0, 0], [0, 1, 0, 0, 0, 0]),
                    ([0, 0, 3, 0, 0, 0], [0, 0, 0, 0, 0, 1]),
                    ([0, 0, 12, 5, 0, 21], [0, 1, 0, 0, 0, 1]),
                    ([0, 0, 12, 5, 0, 22], [0, 2, 0, 0, 0, 1]),
                    ([0, 0, 12, 5, 0, 23], [0, 3, 0, 0, 0, 1]),
                    ([0, 1, 14, 0, 0, 0], [0, 1, 64, 21, 5, 1]),
                    ([0, 1, 20, 1, 0, 31], [0, 8, 0, 0, 0, 0]),
                    ([0, 1, 14, 0, 0, 0], [0, 2, 64, 22, 5, 1]),
                    ([0, 2, 14, 0, 0, 0], [0, 3, 64, 23, 5, 1]),
                    ([0, 1, 20, a, 0, 32], [0, outcome, 0, 0, 0, 0]),
                ];
                let fetch = ([0, 0, 15, 2, 0, 0], [code, 0, 0, 32, 0, 1]);
                if fetches {
                    script.push(fetch);
                }
                let third = if a == 1 {
                    [0, 8, 33, 0]
                } else {
                    [31, 2, 0, -2]
                };
                script.extend([
                    ([0, 2, 20, 1, 0, 33], [0, third[1], 0, 0, 0, 0]),
                    ([0, 0, 15, 0, 1, 0], [0, 1, 0, 31, 0, 1]),
                ]);
                if !fetches {
                    script.push(fetch);
                }
                script.extend([
                    ([0, 0, 15, 0, 1, 0], [third[0], 3, 0, third[2], 0, 1]),
                    ([0, 0, 4, 0, 0, 0], [third[3], 0, 0, 0, 0, 0]),
                ]);
                drill(&script);
            }
        }
    }
}
