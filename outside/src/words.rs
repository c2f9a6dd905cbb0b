//! The record as a host of the proved monitor holds it: 900 words. This implementation's record in those words, and back.

use crate::monitor::{self as plain, Cut, End, Kind, State, LINKS, MANAGERS, PARTIES, UNREAD};

/// A number of 64 bits in two words, the low half first.
pub type Long = [u32; 2];

pub fn long(x: u64) -> Long {
    [x as u32, (x >> 32) as u32]
}

#[repr(C)]
#[derive(Clone, Copy, Debug, PartialEq, Eq)]
pub struct Party {
    pub opened: u32,
    pub control: u32,
    pub timeout: u32,
    pub services: Long,
    pub owned: u32,
    pub deadline: Long,
    pub rollbackonly: u32,
    pub served: u32,
    pub reports: [u32; MANAGERS],
    pub mayrequest: Long,
    pub mayadvertise: Long,
}

#[repr(C)]
#[derive(Clone, Copy, Debug, Default, PartialEq, Eq)]
pub struct Link {
    pub number: u32,
    pub kind: u32,
    pub originator: u32,
    pub attached: u32,
    pub service: u32,
    pub tx: u32,
    pub state: u32,
    pub server: u32,
    pub first: u32,
    pub outcome: u32,
    pub ending: u32,
    pub sender: u32,
    pub granting: u32,
    pub disconnected: u32,
    pub unread: [u32; UNREAD],
    pub filled: u32,
}

#[repr(C)]
#[derive(Clone, Copy, Debug, PartialEq, Eq)]
pub struct Monitor {
    pub clock: u32,
    pub lastlink: u32,
    pub lasttx: u32,
    pub count: u32,
    pub parties: [Party; PARTIES],
    pub links: [Link; LINKS],
}

/// How many words a record has.
pub const WORDS: usize = 4 + 18 * PARTIES + 19 * LINKS;

const _: () = assert!(size_of::<Monitor>() == WORDS * 4);

// It is of numbers of 32 bits alone: there are no gaps, and any words are a record.
impl Monitor {
    /// This implementation's fresh record; a record of zeros has no rights.
    pub fn fresh() -> Self {
        record(&plain::Monitor::fresh())
    }

    pub fn words(&self) -> &[u32; WORDS] {
        unsafe { &*std::ptr::from_ref(self).cast() }
    }

    pub fn words_mut(&mut self) -> &mut [u32; WORDS] {
        unsafe { &mut *std::ptr::from_mut(self).cast() }
    }
}

/// A link's states.
pub const WAITING: u32 = 0;
pub const WORKING: u32 = 1;
pub const RETURNED: u32 = 2;

/// A record of this implementation as the host's; what stands past the last link and the last unread token is 0.
pub fn record(m: &plain::Monitor) -> Monitor {
    let mut r = Monitor {
        clock: m.clock,
        lastlink: m.last_link,
        lasttx: m.last_transaction,
        count: m.link_count as u32,
        parties: m.parties.map(party),
        links: [Link::default(); LINKS],
    };
    for (place, l) in r.links.iter_mut().zip(m.links()) {
        *place = link(l);
    }
    r
}

fn party(p: plain::Party) -> Party {
    Party {
        opened: p.opened.into(),
        control: p.control.into(),
        timeout: p.timeout,
        services: long(p.services),
        owned: p.owned,
        deadline: long(p.deadline),
        rollbackonly: p.doomed.into(),
        served: p.served,
        reports: p.reports,
        mayrequest: long(p.may_request),
        mayadvertise: long(p.may_advertise),
    }
}

fn link(l: &plain::Link) -> Link {
    let mut unread = l.unread;
    unread[l.unread_count.into()..].fill(0);
    Link {
        number: l.number,
        kind: match l.kind {
            Kind::Request => 0,
            Kind::Conversation => 1,
        },
        originator: l.originator.into(),
        attached: l.open.into(),
        service: l.service,
        tx: l.transaction,
        state: match l.state {
            State::Waiting => WAITING,
            State::Working => WORKING,
            State::Returned => RETURNED,
        },
        server: l.server.into(),
        first: l.first_token,
        outcome: l.outcome.into(),
        ending: l.ending_token,
        sender: match l.holder {
            End::Originator => 0,
            End::Server => 1,
        },
        granting: l.handing_over.into(),
        disconnected: match l.cut {
            Cut::No => 0,
            Cut::Cut => 1,
            Cut::Told => 2,
        },
        unread,
        filled: l.unread_count.into(),
    }
}

/// A record of the host's as this implementation's, which cannot hold every number in every field. What stands past the last link counts
/// for nothing, and is left out where it cannot be held.
pub fn held(m: &Monitor) -> Option<plain::Monitor> {
    let mut r = plain::Monitor {
        clock: m.clock,
        last_link: m.lastlink,
        last_transaction: m.lasttx,
        link_count: m.count as usize,
        ..plain::Monitor::fresh()
    };
    for (place, p) in r.parties.iter_mut().zip(&m.parties) {
        *place = held_party(p)?;
    }
    for (n, (place, l)) in r.links.iter_mut().zip(&m.links).enumerate() {
        match held_link(l) {
            Some(l) => *place = l,
            None if n < r.link_count => return None,
            None => {}
        }
    }
    Some(r)
}

fn whole([low, high]: Long) -> u64 {
    u64::from(high) << 32 | u64::from(low)
}

/// One of the choices, by its number.
fn choice<T: Copy>(n: u32, choices: &[T]) -> Option<T> {
    choices.get(n as usize).copied()
}

fn held_party(p: &Party) -> Option<plain::Party> {
    Some(plain::Party {
        services: whole(p.services),
        deadline: whole(p.deadline),
        timeout: p.timeout,
        owned: p.owned,
        served: p.served,
        opened: choice(p.opened, &[false, true])?,
        control: p.control.try_into().ok()?,
        doomed: choice(p.rollbackonly, &[false, true])?,
        reports: p.reports,
        may_request: whole(p.mayrequest),
        may_advertise: whole(p.mayadvertise),
    })
}

fn held_link(l: &Link) -> Option<plain::Link> {
    Some(plain::Link {
        number: l.number,
        service: l.service,
        transaction: l.tx,
        first_token: l.first,
        ending_token: l.ending,
        unread: l.unread,
        unread_count: l.filled.try_into().ok()?,
        kind: choice(l.kind, &[Kind::Request, Kind::Conversation])?,
        originator: l.originator.try_into().ok()?,
        open: choice(l.attached, &[false, true])?,
        state: choice(l.state, &[State::Waiting, State::Working, State::Returned])?,
        server: l.server.try_into().ok()?,
        outcome: l.outcome.try_into().ok()?,
        holder: choice(l.sender, &[End::Originator, End::Server])?,
        handing_over: choice(l.granting, &[false, true])?,
        cut: choice(l.disconnected, &[Cut::No, Cut::Cut, Cut::Told])?,
    })
}

#[cfg(test)]
mod tests {
    use super::*;
    use crate::generator;
    use crate::monitor::step;

    /// All zero but for the rights, which are a party's last four words.
    #[test]
    fn fresh_words() {
        assert_eq!(WORDS, 900);
        for (at, &word) in Monitor::fresh().words().iter().enumerate() {
            let right = (4..292).contains(&at) && (at - 4) % 18 >= 14;
            assert_eq!(word, if right { u32::MAX } else { 0 }, "word {at}");
        }
    }

    /// Requesting before advertising, services 1 to 32 before the others.
    #[test]
    fn words_of_rights() {
        let mut m = plain::Monitor::fresh();
        step(&mut m, [0, 0, 23, 6, 11, 12]);
        step(&mut m, [0, 0, 23, 7, 13, 14]);
        let words = record(&m);
        assert_eq!(words.words()[4 + 3 * 18 + 14..][..4], [11, 12, 13, 14]);
        assert_eq!(words.parties[3].mayrequest, [11, 12]);
        assert_eq!(words.parties[3].mayadvertise, [13, 14]);
    }

    #[test]
    fn there_and_back() {
        generator::random(1, 2000, &mut |m, _, _| {
            let words = record(m);
            let back = held(&words).expect("a record of this implementation");
            assert!(plain::equal_with_tokens(m, &back));
            assert_eq!(record(&back), words);
        });
    }
}
