//! Seeded random calls, chosen with an eye on the monitor so that deep states
//! come, and what is counted of them.

use crate::kinds::{row, Meaning, Mood, Place, Row, Tried, KINDS, LAST_KIND};
use crate::monitor::{
    has, step, Cut, End, Kind, Link, Monitor, Party, State, ALL_SERVICES, HEURISTIC_COMMITTED,
    HEURISTIC_HAZARD, LAST_NUMBER, LINKS, LONGEST_TIMEOUT, MANAGERS, PARTIES, PREPARED, READ_ONLY,
};

/// A small generator of numbers (xorshift64*), from a seed alone.
#[derive(Clone)]
pub struct Rng(u64);

impl Rng {
    pub fn new(seed: u64) -> Self {
        // Spreads near seeds apart (splitmix64); the state must not be 0.
        let mut z = seed.wrapping_add(0x9E37_79B9_7F4A_7C15);
        z = (z ^ (z >> 30)).wrapping_mul(0xBF58_476D_1CE4_E5B9);
        z = (z ^ (z >> 27)).wrapping_mul(0x94D0_49BB_1331_11EB);
        Rng((z ^ (z >> 31)) | 1)
    }

    pub fn next_u32(&mut self) -> u32 {
        self.0 ^= self.0 >> 12;
        self.0 ^= self.0 << 25;
        self.0 ^= self.0 >> 27;
        (self.0.wrapping_mul(0x2545_F491_4F6C_DD1D) >> 32) as u32
    }

    /// Below `bound`, which is not 0.
    pub fn below(&mut self, bound: u32) -> u32 {
        ((u64::from(self.next_u32()) * u64::from(bound)) >> 32) as u32
    }

    /// True once in `n`.
    pub fn once_in(&mut self, n: u32) -> bool {
        self.below(n) == 0
    }

    pub fn pick<T: Copy>(&mut self, from: &[T]) -> T {
        from[self.below(from.len() as u32) as usize]
    }
}

/// Where the random calls come from.
pub struct Generator {
    rng: Rng,
    /// The parties that mostly call.
    active: Vec<u32>,
    /// Whether parties outside `active` call at times.
    strays: bool,
    /// A set of parties that leave the new links to others, until they serve.
    servers: u32,
    /// How many open ends a caller has before it leaves new links alone.
    enough: usize,
    /// How often, of 200 calls, the clock goes on.
    haste: u32,
    /// How much fitting calls outweigh unfitting ones.
    sense: u32,
    /// The parties that heard a service's end in their transaction.
    heard: [bool; PARTIES],
    mood: Mood,
    /// Calls left of the mood.
    left: u32,
    choices: Vec<(u32, [u32; 4])>,
}

impl Generator {
    pub fn new(seed: u64) -> Self {
        Generator {
            rng: Rng::new(seed),
            active: (0..PARTIES as u32).collect(),
            strays: true,
            servers: 0,
            enough: 2,
            haste: 4,
            sense: 1,
            heard: [false; PARTIES],
            mood: Mood::Even,
            left: 0,
            choices: Vec::new(),
        }
    }

    pub fn rng(&mut self) -> &mut Rng {
        &mut self.rng
    }

    /// Only these parties call from now on.
    fn only(&mut self, parties: std::ops::Range<u32>) {
        self.active = parties.collect();
        self.strays = false;
    }

    fn new_mood(&mut self) {
        self.mood = match self.rng.below(16) {
            0 => Mood::Services,
            1 => Mood::Flood,
            2..=3 => Mood::Transactions,
            4..=7 => Mood::Talk,
            8..=10 => Mood::Booking,
            _ => Mood::Even,
        };
        self.left = match self.mood {
            Mood::Services | Mood::Flood => 20 + self.rng.below(60),
            _ => 20 + self.rng.below(180),
        };
        self.haste = self.rng.pick(&[1, 4, 4, 30]);
        self.servers = self.rng.next_u32();
        self.enough = self.rng.pick(&[1, 1, 2, 2, 3, 5]);
        self.sense = self.rng.pick(&[1, 3, 10, 10]);
        if self.strays {
            // A few parties meet often; many meet seldom.
            let how_many = self.rng.pick(&[2, 3, 3, 4, 4, 5, 6, 8, 16]);
            let mut all: Vec<u32> = (0..PARTIES as u32).collect();
            for i in 0..how_many {
                let j = i + self.rng.below((all.len() - i) as u32) as usize;
                all.swap(i, j);
            }
            all.truncate(how_many);
            self.active = all;
        }
        if self.mood == Mood::Booking {
            self.servers = !(1 << self.active[0]);
            self.sense = 40;
            self.haste = 1;
        }
    }

    /// The next call, for a sound monitor.
    pub fn next_call(&mut self, m: &Monitor) -> [u32; 6] {
        if self.left == 0 {
            self.new_mood();
        }
        self.left -= 1;
        let clock = self.clock(m);
        if self.rng.once_in(40) {
            let [party, kind, a, b, c] = self.stray(m);
            return [clock, party, kind, a, b, c];
        }
        if let Some([a, b, c]) = self.rights(m) {
            return [clock, 0, 23, a, b, c];
        }
        // A caller that can only wait mostly leaves the call to another one.
        let mut party = self.caller(m);
        let (mut fits, mut call) = self.plausible(m, party);
        for _ in 0..8 {
            if fits || self.rng.once_in(12) {
                break;
            }
            party = self.caller(m);
            (fits, call) = self.plausible(m, party);
        }
        let [kind, a, b, c] = call;
        let hears = |l: &Link| {
            let asked = match (kind, b) {
                (15, 1) => l.kind == Kind::Request && l.open && u32::from(l.originator) == party,
                _ => l.number == a,
            };
            asked && l.state == State::Returned
        };
        match kind {
            3..=5 => self.heard[party as usize] = false,
            15 | 18 if m.links().iter().any(hears) => self.heard[party as usize] = true,
            _ => {}
        }
        [clock, party, kind, a, b, c]
    }

    /// One of the active parties, or one with an end of some link.
    fn caller(&mut self, m: &Monitor) -> u32 {
        if self.strays && m.link_count > 0 && self.rng.once_in(4) {
            let l = &m.links()[self.rng.below(m.link_count as u32) as usize];
            let end = if l.state == State::Working && self.rng.once_in(2) {
                l.server
            } else {
                l.originator
            };
            return u32::from(end);
        }
        self.rng.pick(&self.active)
    }

    fn clock(&mut self, m: &Monitor) -> u32 {
        match self.rng.below(200) {
            n if n < self.haste => m.clock.saturating_add(1),
            n if n < 2 * self.haste => m.clock.saturating_add(self.rng.below(8)),
            n if n < 180 => m.clock,
            180..=195 => self.rng.below(m.clock.saturating_add(1).max(1)),
            196 if self.rng.once_in(400) => self.rng.next_u32(),
            197..=198 if self.haste < 30 => m.clock,
            _ => {
                // At a deadline, or just before it, if it is near.
                let party = &m.parties[self.rng.below(PARTIES as u32) as usize];
                let at = party.deadline.saturating_sub(u64::from(self.rng.below(2)));
                match u32::try_from(at) {
                    Ok(at) if at < m.clock.saturating_add(1000) => at,
                    _ => m.clock,
                }
            }
        }
    }

    fn token(&mut self) -> u32 {
        match self.rng.below(8) {
            0 | 1 => 0,
            2 => self.rng.next_u32(),
            _ => 1 + self.rng.below(300),
        }
    }

    /// A service number: mostly a few low ones, so that offers and wishes meet.
    fn service(&mut self) -> u32 {
        match self.rng.below(40) {
            0 => self.rng.pick(&[0, 64, 65, 1 << 31, u32::MAX]),
            1 => self.rng.below(70),
            2..=10 => 1 + self.rng.below(12),
            _ => 1 + self.rng.below(4),
        }
    }

    /// A service that some party offers, mostly a free active one; or any.
    fn offered_service(&mut self, m: &Monitor) -> u32 {
        let union = |set: u64, p: usize| set | m.parties[p].services;
        let free =
            |&p: &usize| m.parties[p].opened && m.parties[p].served == 0 && m.transaction(p) == 0;
        let mut all = 0;
        if !self.rng.once_in(6) {
            all = self
                .active
                .iter()
                .map(|&p| p as usize)
                .filter(free)
                .fold(0, union);
        }
        if all == 0 {
            all = (0..PARTIES).fold(0, union);
        }
        if all == 0 || self.rng.once_in(20) {
            return self.service();
        }
        let mut skip = self.rng.below(all.count_ones());
        let mut set = all;
        while skip > 0 {
            set &= set - 1;
            skip -= 1;
        }
        set.trailing_zeros() + 1
    }

    /// A link number: mostly one that exists.
    fn link(&mut self, m: &Monitor) -> u32 {
        match self.rng.below(10) {
            0 => self.rng.below(m.last_link + 2),
            1 => self.rng.pick(&[0, 60_000, 60_001, u32::MAX]),
            _ if m.link_count > 0 => m.links()[self.rng.below(m.link_count as u32) as usize].number,
            _ => 1,
        }
    }

    /// Now and then party 0 sets rights that lack something. While some do, they
    /// are mostly given back soon: all else becomes 35 otherwise.
    fn rights(&mut self, m: &Monitor) -> Option<[u32; 3]> {
        let lacking: Vec<u32> = (0..)
            .zip(&m.parties)
            .flat_map(|(p, party)| {
                let sets = [(2 * p, party.may_request), (2 * p + 1, party.may_advertise)];
                sets.into_iter()
                    .filter(|&(_, set)| set != ALL_SERVICES)
                    .map(|(a, _)| a)
            })
            .collect();
        if !lacking.is_empty() && self.rng.once_in(20) {
            return Some([self.rng.pick(&lacking), u32::MAX, u32::MAX]);
        }
        let seldom = if lacking.is_empty() { 300 } else { 100 };
        if self.rng.once_in(seldom) {
            let a = 2 * self.rng.pick(&self.active) + self.rng.below(2);
            return Some([a, self.low_services(), self.high_services()]);
        }
        None
    }

    /// Services 1 to 32 of a set of rights: mostly without a few low ones.
    fn low_services(&mut self) -> u32 {
        match self.rng.below(12) {
            0 => 0,
            1 => self.rng.next_u32(),
            2 => 1 << self.rng.below(4),
            3..=8 => !(1 << self.rng.below(4) | 1 << self.rng.below(12)),
            _ => u32::MAX,
        }
    }

    /// Services 33 to 64 of it.
    fn high_services(&mut self) -> u32 {
        match self.rng.below(8) {
            0 | 1 => 0,
            2 => self.rng.next_u32(),
            3 => 1 << self.rng.below(32),
            _ => u32::MAX,
        }
    }

    /// At times a service that a set of rights lacks.
    fn lacking(&mut self, set: u64) -> Option<u32> {
        if set == ALL_SERVICES || !self.rng.once_in(4) {
            return None;
        }
        let lacks: Vec<u32> = (1..=64).filter(|&service| !has(set, service)).collect();
        Some(self.rng.pick(&lacks))
    }

    /// A call without an eye on the caller, at times malformed.
    fn stray(&mut self, m: &Monitor) -> [u32; 5] {
        let party = match self.rng.below(8) {
            0 => self.rng.pick(&[16, 17, 255, 256, u32::MAX]),
            1 | 2 if self.strays => self.rng.below(PARTIES as u32),
            _ => self.rng.pick(&self.active),
        };
        let kind = match self.rng.below(12) {
            0 => self.rng.pick(&[
                0,
                LAST_KIND + 1,
                LAST_KIND + 2,
                LAST_KIND + 3,
                32,
                256 + 3,
                1 << 31,
                u32::MAX,
            ]),
            _ => 1 + self.rng.below(LAST_KIND),
        };
        // What is heavy does not stand every time.
        let heavy = row(kind).is_some_and(|row| row.tried == Tried::SomeCaller);
        let kind = if heavy && !self.rng.once_in(4) {
            6
        } else {
            kind
        };
        let [meaning, of_b, of_c] = row(kind).map_or([Meaning::Nothing; 3], |row| row.arguments);
        let a = match (meaning, self.rng.below(6)) {
            (_, 0) => self.rng.next_u32(),
            (meaning, _) if meaning.is_service() => self.service(),
            (Meaning::Link, _) => self.link(m),
            (Meaning::Timeout, _) => self.rng.pick(&[0, 1, LONGEST_TIMEOUT, LONGEST_TIMEOUT + 1]),
            (Meaning::Manager, _) => self.rng.below(MANAGERS as u32 + 1),
            (Meaning::Rights, _) => self.rng.below(2 * PARTIES as u32 + 2),
            _ => self.rng.below(4),
        };
        let b = match (of_b, self.rng.below(8)) {
            (_, 0) => self.rng.next_u32(),
            (Meaning::AnyReply, _) => self.rng.below(3),
            (Meaning::Vote, _) => self.rng.below(HEURISTIC_HAZARD + 2),
            (Meaning::LowServices, _) => self.low_services(),
            _ => self.rng.below(16),
        };
        let c = match of_c {
            Meaning::CantStart => self.rng.below(3),
            Meaning::HighServices => self.high_services(),
            _ => self.token(),
        };
        [party, kind, a, b, c]
    }

    /// A call that suits the caller's place in the monitor, and whether any
    /// fits it well.
    fn plausible(&mut self, m: &Monitor, caller: u32) -> (bool, [u32; 4]) {
        let view = self.view(m, caller);
        let mut choices = std::mem::take(&mut self.choices);
        choices.clear();
        let sense = self.sense;
        let mut fits = false;
        let mut add = |weight: u32, call: [u32; 4]| {
            fits |= weight > 2;
            choices.push((if weight > 2 { weight * sense } else { weight }, call));
        };

        for row in KINDS.iter().filter(|row| row.tried == Tried::Caller) {
            let call = self.call(&view, row, 0);
            add(row.weight(self.mood, self.place(&view, row)), call);
        }
        let own = view.mine.iter().map(|l| (l, End::Originator));
        let served = view.serving.iter().map(|l| (l, End::Server));
        for (l, end) in own.chain(served) {
            for row in KINDS.iter().filter(|row| is_for_end(row, l, end)) {
                let call = self.call(&view, row, l.number);
                add(row.weight(self.mood, place_at(&view, row, l, end)), call);
            }
        }
        // Somebody else's link, or none.
        let number = self.link(m);
        let on_links = KINDS.iter().filter(|row| row.arguments[0] == Meaning::Link);
        let on_links: Vec<&Row> = on_links.collect();
        let row = self.rng.pick(&on_links);
        add(2, self.call(&view, row, number));

        let seldom = [Tried::SomeCaller, Tried::SeldomCaller];
        for row in KINDS.iter().filter(|row| seldom.contains(&row.tried)) {
            if self.rng.once_in(5) {
                let call = self.call(&view, row, 0);
                add(row.weight(self.mood, self.place(&view, row)), call);
            }
        }

        let total = choices.iter().map(|choice| choice.0).sum();
        let mut at = self.rng.below(total);
        let mut call = [6, 0, 0, 0];
        for &(weight, choice) in &choices {
            if at < weight {
                call = choice;
                break;
            }
            at -= weight;
        }
        self.choices = choices;
        (fits, call)
    }

    /// What a caller sees.
    fn view<'a>(&mut self, m: &'a Monitor, caller: u32) -> View<'a> {
        let p = caller as usize;
        let party = &m.parties[p];
        let server = self.servers >> caller & 1 == 1;
        View {
            m,
            party,
            t: m.transaction(p),
            mine: m
                .links()
                .iter()
                .filter(|l| l.open && u32::from(l.originator) == caller)
                .copied()
                .collect(),
            serving: m.links().iter().find(|l| l.number == party.served).copied(),
            server,
            heard: self.heard[p],
            crowded: m.link_count > 24 && self.mood != Mood::Flood
                || self.mood == Mood::Booking && server && party.served == 0,
            other: self.rng.next_u32(),
        }
    }

    /// A call of a kind, on a link if the kind is on one.
    fn call(&mut self, view: &View, row: &Row, link: u32) -> [u32; 4] {
        let [a, b, c] = row.arguments;
        // The flags come before the service.
        let any = b == Meaning::AnyReply;
        let b = self.argument(view, b, link);
        let a = if any && b == 1 {
            // It is ignored, so it names any link.
            self.link(view.m)
        } else {
            self.argument(view, a, link)
        };
        let c = self.argument(view, c, link);
        [row.number, a, b, c]
    }

    fn argument(&mut self, view: &View, meaning: Meaning, link: u32) -> u32 {
        let booking = self.mood == Mood::Booking;
        match meaning {
            Meaning::Nothing => 0,
            Meaning::OneOf(numbers) => {
                let at = self.rng.below(numbers.len() as u32 + 1) as usize;
                numbers.get(at).copied().unwrap_or(view.other)
            }
            Meaning::Timeout => {
                let near = 1 + self.rng.below(12);
                self.rng.pick(&[
                    0,
                    0,
                    0,
                    near,
                    near,
                    near,
                    60,
                    LONGEST_TIMEOUT,
                    LONGEST_TIMEOUT + 1,
                    view.other,
                ])
            }
            Meaning::ToOffer | Meaning::ToWithdraw if self.mood == Mood::Services => {
                1 + self.rng.below(14)
            }
            Meaning::ToOffer => match self.lacking(view.party.may_advertise) {
                Some(service) => service,
                None => self.service(),
            },
            Meaning::Wanted => match self.lacking(view.party.may_request) {
                Some(service) => service,
                None => self.offered_service(view.m),
            },
            Meaning::ToWithdraw => self.offered_service(view.m),
            Meaning::RequestFlags => match self.rng.below(30) {
                _ if booking => 0,
                0 => self.rng.below(10),
                1..=2 => 1,
                3..=4 => 3,
                5..=8 => 2,
                _ => 0,
            },
            Meaning::ConnectFlags => match self.rng.below(30) {
                n if booking => 4 + n % 2 * 4,
                0 => self.rng.below(18),
                1..=3 => 6,
                4..=6 => 10,
                7..=17 => 4,
                _ => 8,
            },
            Meaning::Link => link,
            Meaning::HandOver => match self.rng.below(60) {
                0 => 2 + self.rng.below(5),
                1..=30 => 1,
                _ => 0,
            },
            Meaning::AnyReply => match self.rng.below(60) {
                0 => self.rng.pick(&[2, 3, view.other]),
                1..=25 => 1,
                _ => 0,
            },
            Meaning::Result => {
                let mostly = self.rng.pick(&[1, 1, 1, 1, 1, 2]);
                let good = booking && !self.rng.once_in(4);
                if self.rng.once_in(25) {
                    self.rng.pick(&[0, 3, view.other])
                } else if good {
                    1
                } else {
                    mostly
                }
            }
            Meaning::Token => self.token(),
            Meaning::Manager => match self.rng.below(40) {
                0 => self.rng.pick(&[MANAGERS as u32, 5, view.other]),
                1..=25 => self.rng.below(2),
                _ => self.rng.below(MANAGERS as u32),
            },
            // Mostly in favour, so that commits come; where the transaction can
            // only be rolled back, often committed by the manager itself.
            Meaning::Vote if view.party.doomed && self.rng.once_in(3) => HEURISTIC_COMMITTED,
            Meaning::Vote => match self.rng.below(40) {
                0 => self.rng.pick(&[HEURISTIC_HAZARD + 1, 8, view.other]),
                1..=3 => self.rng.below(HEURISTIC_HAZARD + 1),
                4..=11 if !booking => self.rng.below(HEURISTIC_HAZARD + 1),
                4..=17 => HEURISTIC_COMMITTED,
                18..=23 => READ_ONLY,
                _ => PREPARED,
            },
            Meaning::CantStart => match self.rng.below(40) {
                0 => self.rng.pick(&[2, view.other]),
                1..=10 => 1,
                _ => 0,
            },
            Meaning::Rights => match self.rng.below(4) {
                0 => self.rng.pick(&[32, 33, view.other]),
                _ => 2 * self.rng.pick(&self.active) + self.rng.below(2),
            },
            Meaning::LowServices => self.low_services(),
            Meaning::HighServices => self.high_services(),
        }
    }

    /// The caller's place for a kind that is on no link.
    fn place(&self, view: &View, row: &Row) -> Place {
        let View { m, party, t, .. } = *view;
        let no_ends = view.mine.is_empty();
        match row.number {
            1 if !party.opened => Place::Fit,
            2 if t == 0 => Place::Idle,
            3 if party.opened && t == 0 => {
                if view.server {
                    Place::Idle
                } else {
                    Place::Fit
                }
            }
            4 if party.owned != 0 => {
                let passed = party.deadline != 0 && u64::from(m.clock) >= party.deadline;
                match (no_ends, view.heard) {
                    (false, _) if passed => Place::Late,
                    (false, _) => Place::Unfit,
                    (true, true) => Place::Heard,
                    (true, false) => Place::Fit,
                }
            }
            5 if party.owned != 0 && view.crowded && !no_ends => Place::Crowded,
            10 | 11 if self.mood == Mood::Services => Place::Fit,
            10 if view.server => match party.services.count_ones() {
                0 => Place::Fit,
                1 => Place::More,
                _ => Place::Unfit,
            },
            12 | 13 => match self.mood {
                _ if m.link_count == LINKS => Place::Unfit,
                Mood::Flood => Place::Fit,
                _ if view.mine.len() >= self.enough || view.crowded => Place::Unfit,
                _ if party.served != 0 => Place::Serving,
                _ if view.server => Place::Unfit,
                Mood::Booking if t == 0 || view.heard => Place::Unfit,
                _ if view.heard => Place::Heard,
                _ => Place::Fit,
            },
            14 if party.opened && party.served == 0 && t == 0 && no_ends => {
                let work = m
                    .links()
                    .iter()
                    .any(|l| l.state == State::Waiting && has(party.services, l.service));
                if work {
                    Place::Fit
                } else {
                    Place::Idle
                }
            }
            20 if party.served != 0 && no_ends => {
                let talking = view.serving.is_some_and(|l| {
                    l.kind == Kind::Conversation && (l.holder != End::Server || l.handing_over)
                });
                if talking {
                    Place::Unfit
                } else {
                    Place::Fit
                }
            }
            21 if party.served != 0 => Place::Serving,
            22 if party.owned != 0 && no_ends => match (party.reports, view.heard) {
                ([0, 0, 0, 0], true) => Place::Heard,
                ([0, 0, 0, 0], false) => Place::Fit,
                _ => Place::More,
            },
            _ => Place::Unfit,
        }
    }
}

/// What a caller sees of the monitor, and how it leans.
struct View<'a> {
    m: &'a Monitor,
    party: &'a Party,
    /// Its transaction.
    t: u32,
    /// The links of which it has the originator's open end.
    mine: Vec<Link>,
    /// The link it serves.
    serving: Option<Link>,
    /// Whether it leaves new links to others, until it serves.
    server: bool,
    /// Whether it heard a service's end in its transaction.
    heard: bool,
    /// Ends left over are given up when links are many, or to be free to serve.
    crowded: bool,
    /// Any number.
    other: u32,
}

/// Whether a kind is tried for an end.
fn is_for_end(row: &Row, l: &Link, end: End) -> bool {
    match row.tried {
        Tried::Caller | Tried::SomeCaller | Tried::SeldomCaller => false,
        Tried::Request => l.kind == Kind::Request && end == End::Originator,
        Tried::Conversation => l.kind == Kind::Conversation,
        Tried::OwnConversation => l.kind == Kind::Conversation && end == End::Originator,
    }
}

/// The caller's place for a kind on a link of which it has that end.
fn place_at(view: &View, row: &Row, l: &Link, end: End) -> Place {
    let news = l.cut == Cut::Cut || l.state == State::Returned;
    match row.number {
        15 if l.state == State::Returned => Place::Fit,
        16 if view.crowded && l.transaction == 0 => Place::Crowded,
        17 | 18 if news => Place::News,
        17 if l.holder == end && !l.handing_over => match l.unread_count {
            0 => Place::Fit,
            1..=3 => Place::More,
            _ => Place::Unfit,
        },
        18 if l.holder != end && l.unread_count > 0 => Place::Fit,
        19 if view.crowded => Place::Crowded,
        _ => Place::Unfit,
    }
}

/// Gets the monitor after a call, the call and its answer.
pub type Give<'a> = &'a mut dyn FnMut(&Monitor, [u32; 6], [i64; 6]);

/// Calls given out, with the monitor run alongside.
struct Script<'a> {
    monitor: Monitor,
    give: Give<'a>,
}

impl Script<'_> {
    fn call(&mut self, call: [u32; 6]) -> [i64; 6] {
        let answer = step(&mut self.monitor, call);
        (self.give)(&self.monitor, call, answer);
        answer
    }

    fn now(&mut self, party: u32, kind: u32, a: u32, b: u32, c: u32) -> [i64; 6] {
        self.call([self.monitor.clock, party, kind, a, b, c])
    }
}

/// Gives `count` random calls on a fresh monitor.
pub fn random(seed: u64, count: u64, give: Give) {
    let mut generator = Generator::new(seed);
    let mut script = Script {
        monitor: Monitor::fresh(),
        give,
    };
    for _ in 0..count {
        let call = generator.next_call(&script.monitor);
        script.call(call);
    }
}

/// Gives calls that spend the link and transaction numbers.
pub fn spent(seed: u64, give: Give) {
    let mut generator = Generator::new(seed);
    let mut s = Script {
        monitor: Monitor::fresh(),
        give,
    };

    // Parties 10 to 15 hold chained transactions to the end: 10 to 12 clean,
    // 13 with an open link, 14 with a deadline, 15 with both.
    for party in 10..16 {
        s.now(party, 1, 0, 0, 0);
        s.now(party, 8, 1, 0, 0);
        if party >= 14 {
            let timeout = 1 + generator.rng.below(1000);
            s.now(party, 9, timeout, 0, 0);
        }
        s.now(party, 3, 0, 0, 0);
    }
    s.now(9, 10, 64, 0, 0);
    s.now(13, 12, 64, 0, 1);
    s.now(15, 13, 64, 4, 1);

    // Most link numbers: up to 28 at a time, gone with their transaction.
    let slack = 20 + generator.rng.below(60);
    s.now(0, 1, 0, 0, 0);
    s.now(0, 8, 1, 0, 0);
    s.now(0, 3, 0, 0, 0);
    while s.monitor.last_link < LAST_NUMBER - slack {
        for _ in 0..28.min(LAST_NUMBER - slack - s.monitor.last_link) {
            if generator.rng.once_in(3) {
                let flags = generator.rng.pick(&[4, 8]);
                s.now(0, 13, 64, flags, 7);
            } else {
                s.now(0, 12, 64, 0, 7);
            }
        }
        let end = generator.rng.pick(&[4, 5]);
        s.now(0, end, 0, 0, 0);
    }
    // Most transaction numbers.
    let slack = 20 + generator.rng.below(60);
    while s.monitor.last_transaction < LAST_NUMBER - slack {
        let end = generator.rng.pick(&[4, 4, 5]);
        s.now(0, end, 0, 0, 0);
    }
    s.now(0, 21, 0, 0, 0);

    // The last ones go in random calls of the other parties.
    generator.only(0..10);
    for _ in 0..1500 {
        let call = generator.next_call(&s.monitor);
        s.call(call);
    }

    // Room for links: the callers fall, what still waits is served. A fall
    // leaves the rights, so they are given back.
    for party in 0..10 {
        s.now(party, 21, 0, 0, 0);
    }
    for (a, party) in (0..).step_by(2).zip(s.monitor.parties) {
        if party.may_request != ALL_SERVICES {
            s.now(0, 23, a, u32::MAX, u32::MAX);
        }
        if party.may_advertise != ALL_SERVICES {
            s.now(0, 23, a + 1, u32::MAX, u32::MAX);
        }
    }
    s.now(0, 1, 0, 0, 0);
    s.now(9, 10, 64, 0, 0);
    while let Some(service) = s
        .monitor
        .links()
        .iter()
        .find(|l| !l.open)
        .map(|l| l.service)
    {
        s.now(0, 10, service, 0, 0);
        s.now(0, 14, 0, 0, 0);
        s.now(0, 20, 1, 0, 0);
        s.now(0, 11, service, 0, 0);
    }
    // What is left of the numbers.
    while s.now(0, 13, 64, 6, 0)[0] == 0 {
        let number = s.monitor.last_link;
        s.now(0, 19, number, 0, 0);
    }
    while s.now(0, 3, 0, 0, 0)[0] == 0 {
        s.now(0, 5, 0, 0, 0);
    }
    // Now nothing is left, neither in a transaction nor outside one.
    for party in 0..16 {
        s.now(party, 12, 64, 2, 0);
        s.now(party, 12, 64, 3, 0);
        s.now(party, 13, 64, 10, 0);
        // Of two some manager can't start either, which is told once.
        if party == 12 || party == 14 {
            let vote = generator.rng.below(HEURISTIC_HAZARD + 1);
            s.now(party, 22, generator.rng.below(4), vote, 1);
        }
        let end = generator.rng.pick(&[4, 5]);
        let end = match party {
            10 => 4,
            11 => 5,
            13 => 4,
            _ => end,
        };
        s.now(party, end, 0, 0, 0);
        s.now(party, 3, 0, 0, 0);
        s.now(party, 6, 0, 0, 0);
    }
    // Random calls with every number spent.
    generator.strays = true;
    generator.left = 0;
    for _ in 0..500 {
        let call = generator.next_call(&s.monitor);
        s.call(call);
    }
}

#[cfg(test)]
mod tests {
    use super::*;
    use crate::kinds::{count, possible, Counts, Triple};

    #[test]
    fn same_seed_same_calls() {
        let run = |seed| {
            let mut calls = Vec::new();
            random(seed, 500, &mut |_, call, _| calls.push(call));
            calls
        };
        assert_eq!(run(3), run(3));
        assert_ne!(run(3), run(4));
    }

    #[test]
    fn all_possible_triples_come() {
        let mut counts = Counts::new();
        for seed in 0..100 {
            random(seed, 2000, &mut |_, call, answer| {
                count(&mut counts, call, answer)
            });
        }
        spent(1, &mut |_, call, answer| count(&mut counts, call, answer));
        let seen: Vec<Triple> = counts.keys().copied().collect();
        assert_eq!(seen, possible());
    }
}
