//! The rules that a record can contradict, each in a sentence. The engine names a place only: the reason is worked out here,
//! from the record and the tables that the records before it lead to.

use peer::grouped;
use server::{Tables, CLOCK_LIMIT};

use super::entry::{Entry, CALLS, DONE, USED_UP};
use crate::explain::CONNECTIONS;
use crate::words::{date, units};

/// A rule, with what the records before say.
#[derive(Clone, Copy, Debug, PartialEq, Eq)]
pub enum Rule {
    Connection,
    Call,
    Answer,
    TimeLimit,
    /// The time is below this one, of the latest done record or of the start.
    TimeBack(u64),
    FreeCall,
    RefusedCharge,
    /// A done call's charge is above this level, which the partner has at the record's time.
    AboveLevel(u64),
    /// The charge with answer 9 isn't.
    WithinLevel(u64),
}

impl Rule {
    /// The first rule in their order that a record contradicts, after others that led to these tables.
    pub fn contradicted_by(entry: &Entry, before: &Tables) -> Option<Self> {
        let Some(partner) = entry.partner() else { return Some(Self::Connection) };
        let (latest, level) = (before.clock(), before.level(partner as usize, entry.time));
        let charge = u64::from(entry.charge);
        let rules = [
            (Self::Call, entry.call_name().is_none()),
            (Self::Answer, !matches!(entry.answer, DONE | 4..=USED_UP)),
            (Self::TimeLimit, entry.time >= CLOCK_LIMIT),
            (Self::TimeBack(latest), entry.time < latest),
            (Self::FreeCall, charge > 0 && entry.is_free()),
            (Self::RefusedCharge, charge > 0 && !matches!(entry.answer, DONE | USED_UP)),
            (Self::AboveLevel(level), entry.answer == DONE && charge > level),
            (Self::WithinLevel(level), entry.answer == USED_UP && charge <= level),
        ];
        rules.into_iter().find(|(_, contradicted)| *contradicted).map(|(rule, _)| rule)
    }

    /// Its name for programs, which stays as it is.
    pub fn name(self) -> &'static str {
        match self {
            Self::Connection => "connection",
            Self::Call => "call",
            Self::Answer => "answer",
            Self::TimeLimit => "time_limit",
            Self::TimeBack(_) => "time_back",
            Self::FreeCall => "free_call",
            Self::RefusedCharge => "refused_charge",
            Self::AboveLevel(_) => "above_level",
            Self::WithinLevel(_) => "within_level",
        }
    }

    /// What the partner has at the record's time, if that is what the rule is about.
    pub fn level(self) -> Option<u64> {
        match self {
            Self::AboveLevel(level) | Self::WithinLevel(level) => Some(level),
            _ => None,
        }
    }

    /// The rule in a sentence, with what the record has instead.
    pub fn sentence(self, entry: &Entry) -> String {
        let charge = units(entry.charge.into());
        match self {
            Self::Connection => {
                format!("connections have the numbers 0 to {}, and this is {}", CONNECTIONS - 1, entry.connection)
            }
            Self::Call => format!("calls have the numbers 0 to {}, and this is {}", CALLS.len() - 1, entry.call),
            Self::Answer => format!("records have the answers 0 and 4 to 9, and this is {}", entry.answer),
            Self::TimeLimit => format!("times are below {}, and this is not", grouped(CLOCK_LIMIT)),
            Self::TimeBack(latest) => {
                format!("no time is below that of the latest done record, or of the start: {}", date(latest))
            }
            Self::FreeCall => {
                format!("a close, a keepalive check and a session's end are free, and this has a charge of {charge}")
            }
            Self::RefusedCharge => {
                format!("only answers 0 and 9 have a charge, and this is {} with a charge of {charge}", entry.answer)
            }
            Self::AboveLevel(level) => format!(
                "a done call costs at most what its partner has: this costs {charge}, and the partner has {} then",
                grouped(level)
            ),
            Self::WithinLevel(level) => format!(
                "9 is for a call that costs more than its partner has: this costs {charge}, and the partner has {} then",
                grouped(level)
            ),
        }
    }
}
