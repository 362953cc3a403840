//! Replaying a journal: it "gives the allowance table, after a run as the relay had it, or, writing nothing, names the place
//! of the first record that contradicts the rules". There are two ways, which differ in how they keep the levels.

use crate::checks::{check_start, Refusal};
use crate::journal::Entry;
use crate::levels::{FilledEachSecond, Levels, RefilledWhenRead};
use crate::records::{Common, Record};
use crate::relay::{encode_allowances, partner_of, ALLOWANCES, CONNECTIONS};
use crate::TIME_LIMIT;

/// Why a record contradicts the rules, one for each clause of the request's sentence; several may apply. The last is of what
/// is left at the end.
#[derive(Clone, Copy, Debug, PartialEq, Eq, PartialOrd, Ord)]
pub enum Contradiction {
    Connection,
    Call,
    Answer,
    TooLate,
    BelowLatest,
    ChargeForFree,
    ChargeWithAnswer,
    AboveLevel,
    NotAboveLevel,
    ShortTail,
}

impl Contradiction {
    pub const ALL: [Self; 10] = [
        Self::Connection,
        Self::Call,
        Self::Answer,
        Self::TooLate,
        Self::BelowLatest,
        Self::ChargeForFree,
        Self::ChargeWithAnswer,
        Self::AboveLevel,
        Self::NotAboveLevel,
        Self::ShortTail,
    ];

    pub fn words(self) -> &'static str {
        match self {
            Self::Connection => "there is no such connection",
            Self::Call => "there is no such call",
            Self::Answer => "no record has such an answer",
            Self::TooLate => "the time is 2^40 or more",
            Self::BelowLatest => "the time is below that of the latest done record",
            Self::ChargeForFree => "a free call has a charge",
            Self::ChargeWithAnswer => "an answer other than 0 and 9 has a charge",
            Self::AboveLevel => "it is done and its charge is above the level",
            Self::NotAboveLevel => "it is refused with 9 and its charge isn't above the level",
            Self::ShortTail => "it is shorter than a record",
        }
    }
}

impl Entry {
    /// "A free call is call 2, call 3, or call 1 with type byte 9; the type byte of calls 0, 2 and 3 is not looked at."
    fn is_free(&self) -> bool {
        matches!((self.call, self.kind), (2 | 3, _) | (1, 9))
    }

    /// The clauses that ask for no level; "at first the fresh relay's" is the latest done time.
    fn contradictions_by_itself(&self, latest: u64) -> impl Iterator<Item = Contradiction> {
        let charged = self.charge > 0;
        let clauses = [
            (Contradiction::Connection, usize::from(self.connection) >= CONNECTIONS),
            (Contradiction::Call, self.call > 3),
            (Contradiction::Answer, matches!(self.answer, 1..=3 | 10..)),
            (Contradiction::TooLate, self.time >= TIME_LIMIT),
            (Contradiction::BelowLatest, self.time < latest),
            (Contradiction::ChargeForFree, charged && self.is_free()),
            (Contradiction::ChargeWithAnswer, charged && !matches!(self.answer, 0 | 9)),
        ];
        clauses.into_iter().filter(|&(_, applies)| applies).map(|(clause, _)| clause)
    }

    /// "a done charge is above the level, or a charge with answer 9 isn't"
    fn contradiction_of_level(&self, level: u64) -> Option<Contradiction> {
        let above = u64::from(self.charge) > level;
        match self.answer {
            0 if above => Some(Contradiction::AboveLevel),
            9 if !above => Some(Contradiction::NotAboveLevel),
            _ => None,
        }
    }
}

/// What the records of a journal have come to so far.
#[derive(Clone, Debug)]
pub struct Ledger<L = RefilledWhenRead> {
    levels: L,
    /// The time of the latest done record, at first the start's.
    latest: u64,
}

impl<L: Levels> Ledger<L> {
    pub fn fresh(start: u64) -> Self {
        Self { levels: L::full(start), latest: start }
    }

    pub fn latest(&self) -> u64 {
        self.latest
    }

    /// What a partner has, at a time that isn't below the latest.
    pub fn level(&self, partner: usize, time: u64) -> u64 {
        self.levels.at(partner, time)
    }

    /// All that is wrong with a next record. Where its partner or its time is out of range there is no level to look at.
    pub fn contradictions(&self, entry: &Entry) -> Vec<Contradiction> {
        let mut found: Vec<_> = entry.contradictions_by_itself(self.latest).collect();
        let no_level = [Contradiction::Connection, Contradiction::TooLate, Contradiction::BelowLatest];
        if !found.iter().any(|clause| no_level.contains(clause)) {
            let level = self.level(partner_of(entry.connection.into()), entry.time);
            found.extend(entry.contradiction_of_level(level));
        }
        found
    }

    /// Goes on by a record that doesn't contradict: "Readings of refused records [..] don't move" the latest.
    pub fn take(&mut self, entry: &Entry) {
        if entry.answer == 0 {
            self.latest = entry.time;
            self.levels.charge(partner_of(entry.connection.into()), entry.time, entry.charge.into());
        }
    }

    /// Goes on by the next bytes of the journal, as many as a record has if there are as many.
    fn read(&mut self, bytes: &[u8]) -> Result<(), Vec<Contradiction>> {
        if bytes.len() < Entry::LENGTH {
            return Err(vec![Contradiction::ShortTail]);
        }
        let entry = Entry::decode(bytes);
        let found = self.contradictions(&entry);
        if found.is_empty() {
            self.take(&entry);
            Ok(())
        } else {
            Err(found)
        }
    }

    /// Reads all, or up to the first place, "in bytes", that contradicts.
    fn read_all(&mut self, journal: &[u8]) -> Result<(), (usize, Vec<Contradiction>)> {
        for (number, bytes) in journal.chunks(Entry::LENGTH).enumerate() {
            self.read(bytes).map_err(|found| (number * Entry::LENGTH, found))?;
        }
        Ok(())
    }
}

/// What a replay says.
#[derive(Clone, Debug, PartialEq, Eq)]
pub enum Replayed {
    /// "refused as there": as a fresh start is.
    Refused(Refusal),
    /// The first place that contradicts, and all that is wrong there.
    Contradicted {
        place: usize,
        by: Vec<Contradiction>,
    },
    Agrees,
}

impl Replayed {
    /// The number, whether it is contradicted, and the place, as include/crondelith.h has them: "Fields of the replay's answer
    /// that don't apply are 0."
    pub fn numbers(&self) -> ([u32; 2], u64) {
        match *self {
            Self::Refused(refusal) => ([refusal as u32, 0], 0),
            Self::Contradicted { place, .. } => ([0, 1], place as u64),
            Self::Agrees => ([0, 0], 0),
        }
    }
}

/// Replays a journal that begins with a fresh start at this time and with this term.
pub fn replay(allowances: &mut [u8], journal: &[u8], start: u64, term: u64) -> Replayed {
    replay_by::<RefilledWhenRead>(allowances, journal, start, term)
}

/// "A second, plain replay that fills every level once for each second". It writes each level at the latest done time.
pub fn replay_plain(allowances: &mut [u8], journal: &[u8], start: u64, term: u64) -> Replayed {
    replay_by::<FilledEachSecond>(allowances, journal, start, term)
}

fn replay_by<L: Levels>(allowances: &mut [u8], journal: &[u8], start: u64, term: u64) -> Replayed {
    if allowances.len() != ALLOWANCES {
        return Replayed::Refused(Refusal::TableSize);
    }
    let term = match check_start(start, term) {
        Ok(term) => term,
        Err(refusal) => return Replayed::Refused(refusal),
    };
    let mut ledger = Ledger::<L>::fresh(start);
    if let Err((place, by)) = ledger.read_all(journal) {
        return Replayed::Contradicted { place, by };
    }
    let common = Common { term, clock: ledger.latest };
    allowances.copy_from_slice(&encode_allowances(&ledger.levels.allowances(), &common));
    Replayed::Agrees
}
