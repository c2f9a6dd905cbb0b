//! The kinds of calls in one table: the generator chooses by it, and what is
//! counted of random calls is measured by it.

use std::collections::BTreeMap;
use std::fmt;

/// What an argument means; the generator makes numbers by it.
#[derive(Clone, Copy, PartialEq, Eq)]
pub enum Meaning {
    /// It is ignored.
    Nothing,
    /// One of these, each as often as it stands here, or any number.
    OneOf(&'static [u32]),
    Timeout,
    /// A service to offer.
    ToOffer,
    /// A service to offer no longer.
    ToWithdraw,
    /// A service asked for.
    Wanted,
    RequestFlags,
    ConnectFlags,
    /// The number of a link.
    Link,
    HandOver,
    /// 1 where any reply will do, 0 for the one to request a.
    AnyReply,
    /// How a service ends.
    Result,
    Token,
    /// A resource manager.
    Manager,
    /// What it reports.
    Vote,
    /// 1 where it can't start a new transaction, else 0.
    CantStart,
    /// A party's set of rights: twice the party, plus 1 for the advertising set.
    Rights,
    /// Services 1 to 32 of a set, and services 33 to 64.
    LowServices,
    HighServices,
}

impl Meaning {
    pub fn is_service(self) -> bool {
        matches!(
            self,
            Meaning::ToOffer | Meaning::ToWithdraw | Meaning::Wanted
        )
    }
}

/// What a stretch of calls leans to.
#[derive(Clone, Copy, PartialEq, Eq)]
pub enum Mood {
    Even,
    /// Many new links, few taken.
    Flood,
    /// Conversations and their turns.
    Talk,
    /// Transactions in quick order.
    Transactions,
    /// Services offered and withdrawn.
    Services,
    /// One party's transactions, served in good order by the others.
    Booking,
}

/// The caller's place in the monitor, as a kind sees it.
#[derive(Clone, Copy, PartialEq, Eq)]
pub enum Place {
    /// Nothing speaks for the kind.
    Unfit,
    /// The caller could, but nothing calls for it.
    Idle,
    /// The kind is what comes next.
    Fit,
    /// It has been done already and can be done further.
    More,
    /// The caller serves a link.
    Serving,
    /// The caller heard a service's end in its transaction.
    Heard,
    /// A cut or a return is there to be told.
    News,
    /// The transaction's deadline has passed.
    Late,
    /// The caller's ends are to be given up.
    Crowded,
}

/// For what a kind is tried.
#[derive(Clone, Copy, PartialEq, Eq)]
pub enum Tried {
    /// Every caller.
    Caller,
    /// One caller in five, for what it does is heavy.
    SomeCaller,
    /// One caller in five, for it is another's to make.
    SeldomCaller,
    /// Each open request end.
    Request,
    /// Each end of a conversation.
    Conversation,
    /// Each open originator's end of a conversation.
    OwnConversation,
}

/// A kind.
pub struct Row {
    pub number: u32,
    /// Document 01's word.
    pub word: &'static str,
    /// What a, b and c mean.
    pub arguments: [Meaning; 3],
    pub tried: Tried,
    /// How much the kind weighs at a place; one not named here is as `Unfit`.
    pub weights: &'static [(Place, u32)],
    /// The weights that are others in a mood.
    pub moods: &'static [(Mood, Place, u32)],
    /// The codes that come without an event in lists from a fresh monitor, as
    /// reasoned from the documents; 21 comes with every kind.
    pub codes: &'static [i64],
    /// The codes that come with an event, and the event.
    pub events: &'static [(i64, i64)],
    /// The codes that come where b asks for any reply; `codes` has the others.
    pub any_codes: &'static [i64],
}

impl Row {
    /// How much the kind weighs.
    pub fn weight(&self, mood: Mood, place: Place) -> u32 {
        let in_mood = self.moods.iter().find(|w| (w.0, w.1) == (mood, place));
        let at = |place| self.weights.iter().find(|w| w.0 == place).map(|w| w.1);
        in_mood
            .map(|w| w.2)
            .or_else(|| at(place))
            .or_else(|| at(Place::Unfit))
            .expect("each row has a weight for Unfit")
    }
}

/// What most rows have.
const PLAIN: Row = Row {
    number: 0,
    word: "",
    arguments: [Meaning::Nothing; 3],
    tried: Tried::Caller,
    weights: &[(Place::Unfit, 1)],
    moods: &[],
    codes: &[0],
    events: &[],
    any_codes: &[],
};

/// The kinds, in rising number from 1.
pub const KINDS: &[Row] = {
    use Meaning::*;
    use Mood::*;
    use Place::*;
    &[
        Row {
            number: 1,
            word: "open",
            weights: &[(Unfit, 1), (Fit, 60)],
            ..PLAIN
        },
        Row {
            number: 2,
            word: "close",
            weights: &[(Unfit, 1), (Idle, 2)],
            codes: &[0, -5],
            ..PLAIN
        },
        Row {
            number: 3,
            word: "begin",
            weights: &[(Unfit, 1), (Idle, 2), (Fit, 30)],
            moods: &[(Transactions, Fit, 40)],
            codes: &[0, -5, -6],
            ..PLAIN
        },
        Row {
            number: 4,
            word: "commit",
            weights: &[(Unfit, 1), (Late, 4), (Fit, 4), (Heard, 40)],
            moods: &[(Transactions, Fit, 20), (Transactions, Heard, 20)],
            codes: &[0, -2, -3, -4, -5, -9, -100, -102, -103, -104, -109],
            ..PLAIN
        },
        Row {
            number: 5,
            word: "rollback",
            weights: &[(Unfit, 1), (Crowded, 4)],
            codes: &[0, -5, -100],
            ..PLAIN
        },
        Row {
            number: 6,
            word: "info",
            codes: &[0, 1, -5],
            ..PLAIN
        },
        Row {
            number: 7,
            word: "commit return",
            arguments: [OneOf(&[0, 0, 1, 1, 2]), Nothing, Nothing],
            codes: &[0, 1, -5, -8],
            ..PLAIN
        },
        Row {
            number: 8,
            word: "control",
            arguments: [OneOf(&[0, 0, 1, 1, 1, 2]), Nothing, Nothing],
            weights: &[(Unfit, 2)],
            codes: &[0, -5, -8],
            ..PLAIN
        },
        Row {
            number: 9,
            word: "timeout",
            arguments: [Timeout, Nothing, Nothing],
            weights: &[(Unfit, 2)],
            codes: &[0, -5, -8],
            ..PLAIN
        },
        Row {
            number: 10,
            word: "advertise",
            arguments: [ToOffer, Nothing, Nothing],
            weights: &[(Unfit, 1), (Fit, 20), (More, 4)],
            moods: &[(Services, Fit, 30)],
            codes: &[0, 22, 26, 35],
            ..PLAIN
        },
        Row {
            number: 11,
            word: "unadvertise",
            arguments: [ToWithdraw, Nothing, Nothing],
            moods: &[(Services, Fit, 8)],
            codes: &[0, 22, 25],
            ..PLAIN
        },
        Row {
            number: 12,
            word: "request",
            arguments: [Wanted, RequestFlags, Token],
            weights: &[(Unfit, 1), (Fit, 14), (Serving, 6), (Heard, 4)],
            moods: &[
                (Flood, Fit, 60),
                (Talk, Fit, 4),
                (Talk, Serving, 2),
                (Talk, Heard, 1),
            ],
            codes: &[0, 22, 23, 25, 26, 28, 35],
            ..PLAIN
        },
        Row {
            number: 13,
            word: "connect",
            arguments: [Wanted, ConnectFlags, Token],
            weights: &[(Unfit, 1), (Fit, 7), (Serving, 3), (Heard, 2)],
            moods: &[
                (Flood, Fit, 30),
                (Talk, Fit, 14),
                (Talk, Serving, 6),
                (Talk, Heard, 4),
            ],
            codes: &[0, 22, 23, 25, 26, 28, 35],
            ..PLAIN
        },
        Row {
            number: 14,
            word: "take",
            weights: &[(Unfit, 1), (Idle, 2), (Fit, 80)],
            moods: &[(Flood, Fit, 8)],
            codes: &[23, 32],
            events: &[(0, 64), (0, 65), (0, 66)],
            ..PLAIN
        },
        Row {
            number: 15,
            word: "fetch",
            arguments: [Link, AnyReply, Nothing],
            tried: Tried::Request,
            weights: &[(Unfit, 2), (Fit, 40)],
            codes: &[0, 22, 24, 28, 30, 31, 36],
            any_codes: &[0, 24, 28, 30, 31, 36],
            ..PLAIN
        },
        Row {
            number: 16,
            word: "cancel",
            arguments: [Link, Nothing, Nothing],
            tried: Tried::Request,
            weights: &[(Unfit, 1), (Crowded, 4)],
            codes: &[0, 24, 27],
            ..PLAIN
        },
        Row {
            number: 17,
            word: "send",
            arguments: [Link, HandOver, Token],
            tried: Tried::Conversation,
            weights: &[(Unfit, 2), (News, 5), (Fit, 10), (More, 3)],
            moods: &[(Talk, Fit, 30), (Talk, More, 9)],
            codes: &[0, 22, 23, 24, 28, 37],
            events: &[(29, 1), (29, 2), (29, 4)],
            ..PLAIN
        },
        Row {
            number: 18,
            word: "receive",
            arguments: [Link, Nothing, Nothing],
            tried: Tried::Conversation,
            weights: &[(Unfit, 2), (News, 14), (Fit, 14)],
            moods: &[(Talk, News, 42), (Talk, Fit, 42)],
            codes: &[0, 23, 24, 28, 36],
            events: &[(29, 1), (29, 2), (29, 4), (29, 8), (29, 32)],
            ..PLAIN
        },
        Row {
            number: 19,
            word: "disconnect",
            arguments: [Link, Nothing, Nothing],
            tried: Tried::OwnConversation,
            weights: &[(Unfit, 1), (Crowded, 4)],
            codes: &[0, 24],
            ..PLAIN
        },
        Row {
            number: 20,
            word: "return",
            arguments: [Result, Nothing, Token],
            weights: &[(Unfit, 1), (Fit, 14)],
            codes: &[0, 22, 23],
            ..PLAIN
        },
        Row {
            number: 21,
            word: "fall",
            tried: Tried::SomeCaller,
            weights: &[(Unfit, 1), (Serving, 2)],
            ..PLAIN
        },
        Row {
            number: 22,
            word: "report",
            arguments: [Manager, Vote, CantStart],
            weights: &[(Unfit, 1), (Fit, 2), (More, 3), (Heard, 20)],
            codes: &[0, 23, 34],
            ..PLAIN
        },
        Row {
            number: 23,
            word: "setRights",
            arguments: [Rights, LowServices, HighServices],
            tried: Tried::SeldomCaller,
            codes: &[0, 22, 35],
            ..PLAIN
        },
    ]
};

/// The last kind there is.
pub const LAST_KIND: u32 = KINDS.len() as u32;

/// The row of a kind, if there is such a kind.
pub fn row(kind: u32) -> Option<&'static Row> {
    KINDS.get((kind as usize).checked_sub(1)?)
}

/// A kind as it is counted.
#[derive(Clone, Copy, Debug, PartialEq, Eq, PartialOrd, Ord)]
pub struct Form {
    /// 0 for one that there is not.
    pub kind: u32,
    /// Whether any reply was asked for, past question 21.
    pub any: bool,
}

impl Form {
    const fn plain(kind: u32) -> Self {
        Form { kind, any: false }
    }
}

impl fmt::Display for Form {
    fn fmt(&self, f: &mut fmt::Formatter) -> fmt::Result {
        let b = if self.any { ", b = 1" } else { "" };
        f.pad(&format!("{}{b}", self.kind))
    }
}

/// Form, code and event.
pub type Triple = (Form, i64, i64);

/// How often each triple came.
pub type Counts = BTreeMap<Triple, u64>;

/// Counts one call.
pub fn count(counts: &mut Counts, call: [u32; 6], answer: [i64; 6]) {
    let [_, _, kind, _, b, _] = call;
    let [code, _, event, ..] = answer;
    let form = row(kind).map_or(Form::plain(0), |row| Form {
        kind,
        any: row.arguments[1] == Meaning::AnyReply && b == 1 && code != 21,
    });
    *counts.entry((form, code, event)).or_insert(0) += 1;
}

/// The triples that can come in a list from a fresh monitor.
pub fn possible() -> Vec<Triple> {
    let mut all = vec![(Form::plain(0), 20, 0)];
    for row in KINDS {
        let kind = row.number;
        let (plain, any) = (Form::plain(kind), Form { kind, any: true });
        all.push((plain, 21, 0));
        all.extend(row.codes.iter().map(|&code| (plain, code, 0)));
        all.extend(row.events.iter().map(|&(code, event)| (plain, code, event)));
        all.extend(row.any_codes.iter().map(|&code| (any, code, 0)));
    }
    all.sort_unstable();
    all
}

#[cfg(test)]
mod tests {
    use super::*;

    #[test]
    fn rows_stand_at_their_numbers() {
        for (number, kind) in (1..).zip(KINDS) {
            assert_eq!(kind.number, number);
            assert_eq!(row(number).map(|row| row.word), Some(kind.word));
        }
        assert!(row(0).is_none() && row(LAST_KIND + 1).is_none());
    }
}
