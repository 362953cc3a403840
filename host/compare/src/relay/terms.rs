//! The term: numbers to name and to find in the tables, by kinds, and counts of what was reached with each kind.

use std::fmt;

use engine::relay::Answer;
use model::{partner_of, Relay, Request, Tables, TIME_LIMIT};

use super::agree::Outcome;
use super::boundary::{Call, Kind};
use super::leases::Asked;
use crate::random::Random;
use crate::tally::{Found, Outcomes, Tally};

/// Numbers that are treated alike.
struct Numbers {
    first: u64,
    last: u64,
    /// Those that are tried as often as all others.
    edges: &'static [u64],
}

/// The kinds of numbers, and their names.
const NAMES: [&str; 6] = ["term 0", "term 1-599", "term 600", "term 601-86,399", "term 86,400", "term above"];
const NUMBERS: [Numbers; 6] = [
    Numbers { first: 0, last: 0, edges: &[0] },
    Numbers { first: 1, last: 599, edges: &[1, 599] },
    Numbers { first: 600, last: 600, edges: &[600] },
    Numbers { first: 601, last: 86_399, edges: &[601, 3_599, 3_600, 3_601, 86_399] },
    Numbers { first: 86_400, last: 86_400, edges: &[86_400] },
    Numbers { first: 86_401, last: u64::MAX, edges: &TOO_LONG },
];

/// Some of these would be terms if they were cut to 32 bits.
const TOO_LONG: [u64; 6] = [86_401, 1 << 32, (1 << 32) + 600, (1 << 32) + 3_600, 1 << 63, u64::MAX];

/// The kinds that a fresh start accepts.
const ACCEPTED: [usize; 4] = [0, 2, 3, 4];

impl Numbers {
    fn any(&self, random: &mut Random) -> u64 {
        if random.one_in(2) {
            return random.choice(self.edges);
        }
        let any_length = random.number() >> random.below(64);
        self.first + any_length % (self.last - self.first + 1)
    }
}

/// A number of any kind, to be named or to stand in the tables.
pub fn any(random: &mut Random) -> u64 {
    NUMBERS[random.below(NUMBERS.len())].any(random)
}

/// A term that a fresh start accepts.
pub fn accepted(random: &mut Random) -> u64 {
    NUMBERS[random.choice(&ACCEPTED)].any(random)
}

/// The numbers that each kind is tried with most.
pub fn edges() -> impl Iterator<Item = u64> {
    NUMBERS.iter().flat_map(|numbers| numbers.edges).copied()
}

fn kind_of(number: u64) -> usize {
    let kind = NUMBERS.iter().position(|numbers| (numbers.first..=numbers.last).contains(&number));
    kind.expect("a kind of every number")
}

/// What a done call does to a lease.
#[derive(Clone, Copy, Debug, PartialEq, Eq)]
pub enum Leased {
    New,
    Renewed,
    Extended,
}

impl Leased {
    /// What a call does that gets this reply, and the row that it does it to; none if no lease is given or extended.
    pub fn by(relay: &Relay, call: &Call, reply: &[u8]) -> Option<(Self, usize)> {
        let extended = match Request::decode(call.message())? {
            Request::Extension { cookie } => relay.row_to_extend(call.caller()?, cookie, call.now),
            _ => None,
        };
        match (reply, extended) {
            ([5, 1, ..], Some(row)) => Some((Self::Extended, row)),
            ([3, 1, ..], _) => {
                let asked = Asked::new(relay, call)?;
                let renewed = asked.row_to_renew().map(|row| (Self::Renewed, row));
                renewed.or_else(|| asked.new_row().map(|row| (Self::New, row)))
            }
            _ => None,
        }
    }

    fn name(self) -> &'static str {
        match self {
            Self::New => "new lease",
            Self::Renewed => "renewed",
            Self::Extended => "extended",
        }
    }
}

/// What can be wrong with a fresh start, and how it is answered then: "other terms are answered with 6, after checks 1 and 2".
const WRONG: [(&str, &[u32]); 8] = [
    ("start: nothing wrong", &[0]),
    ("start: term", &[6]),
    ("start: time", &[2]),
    ("start: time, term", &[2]),
    ("start: size", &[1]),
    ("start: size, term", &[1]),
    ("start: size, time", &[1]),
    ("start: size, time, term", &[1]),
];

/// How fresh starts with each kind of term are answered.
const STARTS: [(&str, &[u32]); 6] = [
    (NAMES[0], &[0, 1, 2]),
    (NAMES[1], &[1, 2, 6]),
    (NAMES[2], &[0, 1, 2]),
    (NAMES[3], &[0, 1, 2]),
    (NAMES[4], &[0, 1, 2]),
    (NAMES[5], &[1, 2, 6]),
];

/// When a lease ends that is renewed or extended, compared with when it would have ended.
const ENDS: [&str; 3] = ["to an earlier time", "to the same time", "to a later time"];

/// Requests that show whether a lease is live, just before it ends and just then.
const EXTENSION: [&str; 2] = ["extended in the last second", "not extended at the expiry"];
const ESTABLISH: [&str; 2] = ["id live in the last second", "id gone at the expiry"];

/// What every comparison must have reached with each kind of number in the tables.
const OUTCOMES: [Outcomes; 7] = [
    ("new lease", &[&NAMES]),
    ("renewed", &[&NAMES, &ENDS]),
    ("extended", &[&NAMES, &ENDS]),
    (EXTENSION[0], &[&NAMES]),
    (EXTENSION[1], &[&NAMES]),
    (ESTABLISH[0], &[&NAMES]),
    (ESTABLISH[1], &[&NAMES]),
];

/// What the calls of a test reached that concerns the term.
#[derive(Default)]
pub struct Reached {
    /// The answers to fresh starts, by what was wrong with them and by the term.
    starts: Tally,
    /// What leases came to, by the number in the tables.
    leases: Found,
}

impl Reached {
    /// Counts a fresh start on these tables.
    pub fn count_start(&mut self, tables: &Tables, call: &Call, answer: &Answer) {
        if let Kind::Fresh { term } = call.kind {
            let kind = kind_of(term);
            let wrong = [Relay::decode(tables).is_none(), call.now >= TIME_LIMIT, !ACCEPTED.contains(&kind)];
            let place = wrong.iter().fold(0, |place, &wrong| 2 * place + usize::from(wrong));
            self.starts.count(WRONG[place].0, answer.number);
            self.starts.count(NAMES[kind], answer.number);
        }
    }

    /// Counts a call that was done for this connection, on the relay as it was before.
    pub fn count(&mut self, relay: &Relay, call: &Call, caller: usize, outcome: &Outcome) {
        let term = NAMES[kind_of(relay.common.term.0)];
        if let Some((leased, row)) = Leased::by(relay, call, outcome.reply()) {
            let ends = expiration(outcome.reply()).cmp(&relay.leases[row].expiry);
            self.leases.add(leased.name(), term);
            self.leases.add(leased.name(), ENDS[(ends as i8 + 1) as usize]);
        }
        if let Some(name) = seen_at_the_end(relay, call, caller, outcome.reply()) {
            self.leases.add(name, term);
        }
    }

    /// Asserts that fresh starts were answered in every way that there is, and in no other.
    pub fn assert_starts(&self) {
        self.starts.assert_just(&WRONG);
        self.starts.assert_just(&STARTS);
    }

    /// Asserts that fresh starts of every term were done.
    pub fn assert_done(&self) {
        ACCEPTED.iter().for_each(|&kind| self.starts.assert_reached(NAMES[kind], 0, true));
    }

    pub fn assert_leases(&self) {
        self.leases.assert_reached(&OUTCOMES);
    }
}

/// When the lease expires that this reply gives or extends: its last eight bytes.
fn expiration(reply: &[u8]) -> u64 {
    u64::from_be_bytes(*reply.last_chunk().expect("a reply with an expiration"))
}

/// A request that shows in the last second of a lease that it is live, or at its expiry that it isn't.
fn seen_at_the_end(relay: &Relay, call: &Call, caller: usize, reply: &[u8]) -> Option<&'static str> {
    let rows = relay.rows_of(partner_of(caller));
    let (live, expiries, [last, gone]): (_, Vec<u64>, _) = match (Request::decode(call.message())?, reply) {
        (Request::Extension { cookie }, [5, extended, ..]) => {
            let held = rows.filter(|&(row, lease)| relay.holder_of(row) == Some(caller) && lease.cookie == cookie);
            (*extended == 1, held.map(|(_, lease)| lease.expiry).collect(), EXTENSION)
        }
        (Request::Establish { id }, [7, _, _, _, _, status, ..]) if *status != 4 => {
            let with_id = rows.filter(|(_, lease)| lease.id == id);
            (*status != 1, with_id.map(|(_, lease)| lease.expiry).collect(), ESTABLISH)
        }
        _ => return None,
    };
    match live {
        true => expiries.iter().all(|&expiry| expiry <= call.now + 1).then_some(last),
        false => expiries.contains(&call.now).then_some(gone),
    }
}

impl fmt::Display for Reached {
    fn fmt(&self, out: &mut fmt::Formatter) -> fmt::Result {
        self.starts.write_rows(out)?;
        write!(out, "{}", self.leases)
    }
}
