//! Replays whose rules can be replaced one by one.

use compare::relay::boundary::{Boundary, Call, Lent, Second};
use engine::relay::{Answer, Replayed, ALLOWANCES, RECORD};
use model::{Contradiction, Entry, Record, LEVEL_LIMIT, PARTNERS, REFILL, TIME_LIMIT};

/// Whether what contradicts is told before the start's refusal with this number.
pub type ComesFirst = fn(u32) -> bool;

/// What a partner has, since when.
#[derive(Clone, Copy)]
pub struct Level {
    pub level: u64,
    pub updated: u64,
}

impl Level {
    pub fn at(self, now: u64) -> u64 {
        LEVEL_LIMIT.min(self.uncut(now))
    }

    /// Without the limit.
    pub fn uncut(self, now: u64) -> u64 {
        self.level + now.saturating_sub(self.updated).saturating_mul(REFILL).min(u64::MAX / 2)
    }
}

/// Where a replay stands.
#[derive(Clone)]
pub struct State {
    pub start: u64,
    pub clock: u64,
    /// The time of the latest record, done or not.
    pub seen: u64,
    pub partners: [Level; PARTNERS],
}

impl State {
    fn new(start: u64) -> Self {
        Self { start, clock: start, seen: start, partners: [Level { level: LEVEL_LIMIT, updated: start }; PARTNERS] }
    }
}

/// A record, and where the replay stands before it.
pub struct Seen<'a> {
    pub entry: Entry,
    pub state: &'a State,
}

impl Seen<'_> {
    pub fn is_done(&self) -> bool {
        self.entry.answer == 0
    }

    pub fn charge(&self) -> u64 {
        self.entry.charge.into()
    }

    pub fn is_charged(&self) -> bool {
        self.entry.charge > 0
    }

    pub fn is_free(&self) -> bool {
        match self.entry.call {
            1 => self.entry.kind == 9,
            call => call == 2 || call == 3,
        }
    }

    /// Of a connection out of range another one's.
    pub fn partner(&self) -> usize {
        usize::from(self.entry.connection) / PARTNERS % PARTNERS
    }

    pub fn stored(&self) -> Level {
        self.state.partners[self.partner()]
    }

    pub fn level(&self) -> u64 {
        self.stored().at(self.entry.time)
    }

    /// The state behind it, as the papers say.
    pub fn taken(&self) -> State {
        let mut after = State { seen: self.entry.time, ..self.state.clone() };
        if self.is_done() {
            after.clock = self.entry.time;
            if self.is_charged() {
                after.partners[self.partner()] = self.left();
            }
        }
        after
    }

    /// What it leaves to its partner.
    pub fn left(&self) -> Level {
        Level { level: self.level().saturating_sub(self.charge()), updated: self.entry.time }
    }

    /// The same, with another level for its partner where this applies.
    pub fn taken_with(&self, applies: bool, level: Level) -> State {
        let mut after = self.taken();
        if applies {
            after.partners[self.partner()] = level;
        }
        after
    }
}

/// Whether a record contradicts by a clause.
pub type Clause = fn(&Seen) -> bool;
/// Where the replay of a journal comes to: the end, or a place that contradicts.
pub type Read = fn(&Replaying, &[u8], State) -> (State, Option<usize>);
/// The number of a start with allowances of this length, at this time and with this term.
pub type Start = fn(usize, u64, u64) -> u32;

/// What is written: the state, the term that was named, and each level at that time.
pub type Write = fn(&State, u64, Option<u64>) -> Vec<u8>;

/// Two replays, one of them by these rules; for all else it is the second implementation.
#[derive(Clone, Copy)]
pub struct Replaying {
    /// Whether it is the plain one.
    pub plain: bool,
    pub start: Start,
    pub comes_first: ComesFirst,
    /// By their order in the paper; what is left at the end is no clause of a record.
    pub clauses: [Clause; Contradiction::ALL.len() - 1],
    pub take: fn(&Seen) -> State,
    pub read: Read,
    /// The place that is told of a record at this one, in a journal of this length.
    pub place: fn(usize, usize) -> usize,
    /// What the allowances are left as where nothing is to be written.
    pub unwritten: fn(&mut [u8], &State),
    pub write: Write,
}

/// As the papers say.
pub const RIGHT: Replaying = Replaying {
    plain: false,
    start: |length, start, term| match term {
        _ if length != ALLOWANCES => 1,
        _ if start >= TIME_LIMIT => 2,
        0 | 600..=86_400 => 0,
        _ => 6,
    },
    comes_first: |_| false,
    clauses: [
        |seen| seen.entry.connection >= 64,
        |seen| seen.entry.call > 3,
        |seen| matches!(seen.entry.answer, 1..=3 | 10..),
        |seen| seen.entry.time >= TIME_LIMIT,
        |seen| seen.entry.time < seen.state.clock,
        |seen| seen.is_charged() && seen.is_free(),
        |seen| seen.is_charged() && !matches!(seen.entry.answer, 0 | 9),
        |seen| seen.is_done() && seen.charge() > seen.level(),
        |seen| seen.entry.answer == 9 && seen.charge() <= seen.level(),
    ],
    take: |seen| seen.taken(),
    read: read_all,
    place: |place, _| place,
    unwritten: |_, _| {},
    write: written,
};

impl Replaying {
    /// The record at this place, judged and taken; none if it contradicts.
    pub fn step(&self, bytes: &[u8], state: &State) -> Option<State> {
        let seen = Seen { entry: Entry::decode(bytes), state };
        let contradicts = self.clauses.iter().any(|clause| clause(&seen));
        (!contradicts).then(|| (self.take)(&seen))
    }

    fn run(&self, allowances: &mut [u8], journal: &[u8], start: u64, term: u64, plain: bool) -> Replayed {
        let number = (self.start)(allowances.len(), start, term);
        let (state, contradicted) = (self.read)(self, journal, State::new(start));
        match contradicted {
            Some(place) if number == 0 || (self.comes_first)(number) => {
                (self.unwritten)(allowances, &state);
                Replayed { number: 0, contradicted: 1, place: (self.place)(place, journal.len()) as u64 }
            }
            None if number == 0 => {
                let table = (self.write)(&state, term, plain.then_some(state.clock));
                allowances.iter_mut().zip(table).for_each(|(byte, new)| *byte = new);
                Replayed { number, contradicted: 0, place: 0 }
            }
            _ => {
                (self.unwritten)(allowances, &state);
                Replayed { number, contradicted: 0, place: 0 }
            }
        }
    }
}

/// The records in their order, and what is left at the end.
fn read_all(rules: &Replaying, journal: &[u8], mut state: State) -> (State, Option<usize>) {
    for (number, bytes) in journal.chunks(RECORD).enumerate() {
        match (bytes.len() == RECORD).then(|| rules.step(bytes, &state)).flatten() {
            Some(taken) => state = taken,
            None => return (state, Some(RECORD * number)),
        }
    }
    (state, None)
}

/// The allowance table.
pub fn written(state: &State, term: u64, at: Option<u64>) -> Vec<u8> {
    let term = if term == 0 { 600 } else { term };
    let mut table = levels_written(state, at);
    table.extend([term, state.clock].map(u64::to_be_bytes).concat());
    table
}

/// The partners' part of it.
pub fn levels_written(state: &State, at: Option<u64>) -> Vec<u8> {
    let records = state.partners.iter().flat_map(|&partner| match at {
        Some(time) => [partner.at(time), time],
        None => [partner.level, partner.updated],
    });
    records.flat_map(u64::to_be_bytes).collect()
}

impl Boundary for Replaying {
    fn call(&self, call: &Call, lent: &mut Lent) -> Answer {
        Second.call(call, lent)
    }

    fn replay(&self, allowances: &mut [u8], journal: &[u8], start: u64, term: u64) -> Replayed {
        match self.plain {
            false => self.run(allowances, journal, start, term, false),
            true => Second.replay(allowances, journal, start, term),
        }
    }

    fn replay_plain(&self, allowances: &mut [u8], journal: &[u8], start: u64, term: u64) -> Replayed {
        match self.plain {
            true => self.run(allowances, journal, start, term, true),
            false => Second.replay_plain(allowances, journal, start, term),
        }
    }
}
