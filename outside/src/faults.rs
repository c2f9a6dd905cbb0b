//! The wrong rules of `crates/rules/must-fail`, and one of `crates/monitor`. The
//! feature `faults` plants them in the monitor, one on at a time; without it none
//! is ever on.

macro_rules! faults {
    ($($name:ident,)*) => {
        /// A wrong rule, named as its edit.
        #[derive(Clone, Copy, Debug, PartialEq, Eq)]
        pub enum Fault { $($name,)* }

        impl Fault {
            pub const ALL: &[Fault] = &[$(Fault::$name,)*];
        }
    };
}

faults! {
    AlwaysRollsBack,
    AnyFetchLeavesLink,
    AnyFetchNamesNoLink,
    AnyoneReports,
    AnyoneSetsRights,
    CantStartStarts,
    ClockGoesBack,
    ClockMovedByUnknownKind,
    ClockMovedByUnknownParty,
    CommitIgnoresDeadline,
    CommitIgnoresOpenEnds,
    CommitIgnoresRollbackOnly,
    DeadlineOnlyPast,
    DeathMarksNothing,
    DisconnectMarksNothing,
    EarlyFetchRemovesLink,
    EndedSuccessIsLost,
    ExpiredSuccessStays,
    FailMarksNothing,
    FailedReturnMarksNothing,
    FallResetsRights,
    FetchLeavesLink,
    FetchSaysEmptyTake,
    FirstReportStands,
    HalvesExchanged,
    HazardIsGood,
    LinkNumbersReused,
    LostByOwnTx,
    LostConversationStays,
    LostFailIsError,
    LostRequestStays,
    LostSuccessStays,
    MarkedAtFetch,
    NewEndSendsEarly,
    NonOwnerCommits,
    PartyByRemainder,
    ReportsStay,
    RightAfterOffered,
    RollbackOnlyLeavesNoMark,
    RollbackOnlySuccessStays,
    RolledBackCommits,
    SendSaysNothingThere,
    SomeCantStart,
    SuccessWithOpenEnds,
    TakeAsksRight,
    TransactionNumbersReused,
    TurnWithoutEvent,
    VetoCountsForNothing,
    VetoDecidesNothing,
}

/// Whether the fault is on.
#[cfg(not(feature = "faults"))]
#[inline(always)]
pub const fn is_on(_: Fault) -> bool {
    false
}

#[cfg(feature = "faults")]
pub use planted::*;

#[cfg(feature = "faults")]
mod planted {
    use super::Fault;
    use crate::history::Entry;
    use crate::monitor::{Monitor, LAST_NUMBER};
    use std::cell::Cell;

    thread_local! {
        static ON: Cell<Option<Fault>> = const { Cell::new(None) };
    }

    /// Whether the fault is on.
    pub fn is_on(fault: Fault) -> bool {
        ON.get() == Some(fault)
    }

    /// Does something with the fault on, or with none.
    pub fn with<R>(fault: Option<Fault>, act: impl FnOnce() -> R) -> R {
        let before = ON.replace(fault);
        let result = act();
        ON.set(before);
        result
    }

    impl Fault {
        /// The edit's name, and that of its history in
        /// `crates/histories/proofs/Faults.antt`: `always_rolls_back`.
        pub fn edit(self) -> String {
            let mut name = String::new();
            for c in format!("{self:?}").chars() {
                if c.is_uppercase() && !name.is_empty() {
                    name.push('_');
                }
                name.push(c.to_ascii_lowercase());
            }
            name
        }
    }

    /// Calls on a fresh monitor, in one lent list, so that soundness is asked
    /// only before the first.
    #[derive(Clone)]
    pub struct Run {
        pub monitor: Monitor,
        pub entries: Vec<Entry>,
    }

    impl Run {
        pub fn fresh() -> Self {
            Run {
                monitor: Monitor::fresh(),
                entries: Vec::new(),
            }
        }

        /// One call more. False where the record is no longer one on which this
        /// implementation tells what the rule gives: sound, but for the last
        /// link number, which `link_numbers_reused` does not raise.
        pub fn call(&mut self, call: [u32; 6]) -> bool {
            let answer = self.monitor.step_sound(call);
            self.entries.push((call, answer));
            let last_link = std::mem::replace(&mut self.monitor.last_link, LAST_NUMBER);
            let sound = self.monitor.is_sound();
            self.monitor.last_link = last_link;
            sound
        }
    }

    /// The kinds by their names in `crates/histories/proofs/Rows.antt`.
    pub const KIND_NAMES: [(u32, &str); 21] = [
        (1, "tx_open"),
        (2, "tx_close"),
        (3, "tx_begin"),
        (4, "tx_commit"),
        (5, "tx_rollback"),
        (6, "tx_info"),
        (8, "tx_set_control"),
        (9, "tx_set_timeout"),
        (10, "tpadvertise"),
        (12, "tpacall"),
        (13, "tpconnect"),
        (14, "dispatch"),
        (15, "tpgetrply"),
        (16, "tpcancel"),
        (17, "tpsend"),
        (18, "tprecv"),
        (19, "tpdiscon"),
        (20, "tpreturn"),
        (21, "terminate"),
        (22, "report"),
        (23, "set_rights"),
    ];
}

#[cfg(all(test, feature = "faults"))]
mod tests {
    use super::*;
    use crate::drill::read_calls;
    use crate::history::{check, Broken, Entry};
    use crate::monitor::{run_list, Monitor};
    use std::fs::{read, read_dir, read_to_string};

    const CRATES: &str = concat!(env!("CARGO_MANIFEST_DIR"), "/../crates");

    /// The stored histories.
    fn stored() -> String {
        read_to_string(format!("{CRATES}/histories/proofs/Faults.antt")).unwrap()
    }

    /// The rows of a fault's history; none if it has no history.
    fn rows(stored: &str, fault: Fault) -> Vec<Entry> {
        let start = format!("\n{} =\n", fault.edit());
        let Some((_, rest)) = stored.split_once(&start) else {
            return Vec::new();
        };
        rest.lines()
            .map_while(|line| line.trim_start_matches([' ', '∷']).strip_prefix("row "))
            .map(entry)
            .collect()
    }

    fn entry(row: &str) -> Entry {
        let words: Vec<&str> = row
            .split([' ', '(', ')'])
            .filter(|w| !w.is_empty())
            .collect();
        let number = |at: usize| -> u32 {
            let named = KIND_NAMES.iter().find(|named| named.1 == words[at]);
            named.map_or_else(|| words[at].parse().unwrap(), |named| named.0)
        };
        let code = match (words[6], i64::from(number(7))) {
            ("pos", n) => n,
            ("negsuc", n) => -1 - n,
            other => panic!("a code: {other:?}"),
        };
        let told = |at: usize| i64::from(number(at));
        assert_eq!(words.len(), 13, "{row}");
        (
            [0, 1, 2, 3, 4, 5].map(number),
            [code, told(8), told(9), told(10), told(11), told(12)],
        )
    }

    /// The calls answered in one lent list, with the fault on or with none.
    fn answered(fault: Option<Fault>, calls: &[[u32; 6]]) -> Vec<Entry> {
        let numbers = calls.concat();
        let mut answers = vec![0; numbers.len()];
        let code = with(fault, || {
            run_list(&mut Monitor::fresh(), &numbers, &mut answers)
        });
        assert_eq!(code, 0);
        let (answers, _) = answers.as_chunks();
        calls.iter().copied().zip(answers.iter().copied()).collect()
    }

    /// An edit of the list of refusals, by which no call is answered otherwise,
    /// and one of the code's number for a reason, which is no wrong rule.
    const NO_RULE: [&str; 6] = [
        "call_numbers_exchanged.edit",
        "later_numbers_no_refusals.edit",
        "no_reply_by_second_flag.edit",
        "no_reply_numbered_as_empty_take.edit",
        "no_tran_by_first_flag.edit",
        "service_64_is_none.edit",
    ];

    /// An edit of the monitor itself, and none of the rules.
    const NO_EDIT_OF_RULES: [Fault; 1] = [Fault::MarkedAtFetch];

    /// Each edit of the rules but those is a fault here.
    #[test]
    fn faults_are_the_edits() {
        let mut edits: Vec<String> = read_dir(format!("{CRATES}/rules/must-fail"))
            .unwrap()
            .map(|file| file.unwrap().file_name().into_string().unwrap())
            .filter(|edit| !NO_RULE.contains(&edit.as_str()))
            .collect();
        edits.sort();
        let faults = Fault::ALL
            .iter()
            .filter(|fault| !NO_EDIT_OF_RULES.contains(fault))
            .map(|fault| fault.edit() + ".edit");
        assert_eq!(edits, faults.collect::<Vec<_>>());
    }

    /// No list shows these to the statement; an answer tells each.
    const NO_HISTORY: [Fault; 21] = [
        Fault::AnyoneSetsRights,
        Fault::CantStartStarts,
        Fault::EndedSuccessIsLost,
        Fault::ExpiredSuccessStays,
        Fault::FallResetsRights,
        Fault::FetchSaysEmptyTake,
        Fault::HalvesExchanged,
        Fault::LostByOwnTx,
        Fault::LostConversationStays,
        Fault::LostFailIsError,
        Fault::LostRequestStays,
        Fault::LostSuccessStays,
        Fault::MarkedAtFetch,
        Fault::NonOwnerCommits,
        Fault::PartyByRemainder,
        Fault::RightAfterOffered,
        Fault::RollbackOnlySuccessStays,
        Fault::SendSaysNothingThere,
        Fault::SomeCantStart,
        Fault::TakeAsksRight,
        Fault::VetoDecidesNothing,
    ];

    /// Each stored history is what the fault answers, and breaks the rule that
    /// the table names; the right answers to its calls differ and break none.
    #[test]
    fn stored_histories() {
        let stored = stored();
        for &fault in Fault::ALL {
            let rows = rows(&stored, fault);
            let name = fault.edit();
            assert_eq!(rows.is_empty(), NO_HISTORY.contains(&fault), "{name}");
            if rows.is_empty() {
                continue;
            }
            let calls: Vec<[u32; 6]> = rows.iter().map(|row| row.0).collect();
            assert_eq!(answered(Some(fault), &calls), rows, "{name}");
            let right = answered(None, &calls);
            assert_ne!(right, rows, "{name}");
            assert_eq!(check(&right), None, "{name}");
            let rule = match check(&rows) {
                Some(Broken::Sender { .. }) => "sender",
                Some(Broken::AtWork { .. }) => "alone",
                Some(_) => "commit",
                None => panic!("{name} breaks nothing"),
            };
            assert!(
                stored.contains(&format!("breaks {rule} {name}\n")),
                "{name}"
            );
        }
    }

    /// The first answer of a stored file that the fault changes: its place, the
    /// kind, and the first field that differs, right and wrong. The wrong answers
    /// break nothing.
    fn first_told(file: &str, fault: Fault) -> (usize, u32, i64, i64) {
        let file = read(format!("{CRATES}/drill_cases/data/{file}")).unwrap();
        let calls = read_calls(&file).0;
        let right = answered(None, &calls);
        let wrong = answered(Some(fault), &calls);
        assert_eq!(check(&wrong), None);
        let at = (0..calls.len()).find(|&at| right[at] != wrong[at]).unwrap();
        let fields = right[at].1.into_iter().zip(wrong[at].1);
        let (right, wrong) = fields.into_iter().find(|(one, two)| one != two).unwrap();
        (at + 1, calls[at][2], right, wrong)
    }

    /// What no history shows, a stored listing does.
    #[test]
    fn told_by_a_listing() {
        let told = first_told("case-02", Fault::NonOwnerCommits);
        assert_eq!(told, (91, 4, -5, 0));
        let told = first_told("case-68", Fault::CantStartStarts);
        assert_eq!(told, (68, 4, -100, 0));
        let told = first_told("case-71", Fault::SomeCantStart);
        assert_eq!(told, (79, 4, -102, -2));
        let told = first_told("case-68", Fault::VetoDecidesNothing);
        assert_eq!(told, (43, 4, -2, -3));
        let told = first_told("case-81", Fault::AnyoneSetsRights);
        assert_eq!(told, (4, 23, 35, 0));
        let told = first_told("case-86", Fault::FallResetsRights);
        assert_eq!(told, (20, 10, 35, 0));
        let told = first_told("case-83", Fault::HalvesExchanged);
        assert_eq!(told, (4, 12, 25, 35));
        let told = first_told("case-82", Fault::PartyByRemainder);
        assert_eq!(told, (33, 10, 35, 0));
        let told = first_told("case-85", Fault::RightAfterOffered);
        assert_eq!(told, (58, 12, 35, 25));
        let told = first_told("case-84", Fault::TakeAsksRight);
        assert_eq!(told, (23, 14, 0, 32));
        let told = first_told("case-92", Fault::FetchSaysEmptyTake);
        assert_eq!(told, (22, 15, 36, 32));
        let told = first_told("case-93", Fault::SendSaysNothingThere);
        assert_eq!(told, (23, 17, 37, 36));
        // The values of returns.
        let told = first_told("case-97", Fault::EndedSuccessIsLost);
        assert_eq!(told, (94, 20, 8, 2));
        let told = first_told("case-95", Fault::ExpiredSuccessStays);
        assert_eq!(told, (158, 20, 2, 8));
        let told = first_told("case-95", Fault::RollbackOnlySuccessStays);
        assert_eq!(told, (14, 20, 2, 8));
        let told = first_told("case-95", Fault::LostByOwnTx);
        assert_eq!(told, (14, 20, 2, 8));
        let told = first_told("case-96", Fault::LostConversationStays);
        assert_eq!(told, (19, 20, 2, 8));
        let told = first_told("case-95", Fault::LostRequestStays);
        assert_eq!(told, (14, 20, 2, 8));
        let told = first_told("case-95", Fault::LostFailIsError);
        assert_eq!(told, (133, 20, 4, 2));
        let told = first_told("case-95", Fault::LostSuccessStays);
        assert_eq!(told, (14, 20, 2, 8));
        let told = first_told("case-95", Fault::MarkedAtFetch);
        assert_eq!(told, (14, 20, 2, 8));
    }
}
