//! Maps of the connections to hand to calls, and counts of what was reached with them.

use std::fmt;

use model::{Relay, Request, Tables, CONNECTIONS, PARTNERS};

use super::agree::Outcome;
use super::boundary::{Call, Kind};
use crate::random::Random;
use crate::tally::{Found, Outcomes, Tally};

/// Numbers that no partner has, some of which would be one's if they were cut.
pub const NO_PARTNERS: [u64; 11] = [
    PARTNERS as u64,
    PARTNERS as u64 + 1,
    2 * PARTNERS as u64 - 1,
    CONNECTIONS as u64,
    255,
    256,
    1 << 32,
    (1 << 32) + PARTNERS as u64 - 1,
    1 << 63,
    (1 << 63) + 1,
    u64::MAX,
];

/// The partners, and numbers that none has.
pub fn partners() -> impl Iterator<Item = u64> {
    (0..PARTNERS as u64).chain(NO_PARTNERS)
}

/// The map that agrees with the tables; 0 with a connection table of another size.
pub fn agreeing(tables: &Tables) -> u64 {
    model::rebuild(&tables.connections).map
}

/// A map: that which agrees with the tables, the same but for a bit, one of zeros, one of ones, or any.
pub fn any(random: &mut Random, tables: &Tables) -> u64 {
    match random.below(8) {
        0..3 => agreeing(tables),
        3 | 4 => agreeing(tables) ^ 1 << random.below(CONNECTIONS),
        5 => 0,
        6 => u64::MAX,
        _ => random.number(),
    }
}

/// The bits in which the map disagrees with the relay.
pub fn disagreeing(relay: &Relay, map: u64) -> u64 {
    relay.map() ^ map
}

/// The names of each call under which its answers are counted: with a map that disagrees, and with one that agrees.
const NAMES: [(&str, [&str; 2]); 5] = [
    ("fresh", ["fresh, map disagrees", "fresh, map agrees"]),
    ("open", ["open, map disagrees", "open, map agrees"]),
    ("message", ["message, map disagrees", "message, map agrees"]),
    ("close", ["close, map disagrees", "close, map agrees"]),
    ("keepalive", ["keepalive, map disagrees", "keepalive, map agrees"]),
];

fn names(call: &str) -> [&'static str; 2] {
    NAMES.iter().find(|(name, _)| *name == call).expect("a call").1
}

/// What the bit was that is concerned, and what the map was before a fresh start.
const BIT: [&str; 2] = ["bit was 0", "bit was 1"];
const MAP: [&str; 2] = ["map was 0", "map was another"];

/// What every comparison must have reached.
const BITS: [Outcomes; 9] = [
    ("map 0 by a fresh start", &[&MAP]),
    ("set by an open", &[&BIT]),
    ("cleared by a close", &[&BIT]),
    ("cleared by ok 0", &[&BIT]),
    ("cleared by a timeout", &[&BIT]),
    ("kept by ok 1", &[&BIT]),
    ("kept by another message", &[&BIT]),
    ("kept by a keepalive check", &[&BIT]),
    ("the other's, session ended", &[&BIT]),
];

/// What the calls of a test reached that concerns the map.
#[derive(Default)]
pub struct Reached {
    answers: Tally,
    /// What done calls did to the bit of the caller, or of whom they told of a session's end.
    bits: Found,
}

impl Reached {
    /// Counts a call that was made on these tables.
    pub fn count(&mut self, tables: &Tables, call: &Call, outcome: &Outcome) {
        let (map, number) = (outcome.lent.map, outcome.answer.number);
        let rebuilt = model::rebuild(&tables.connections);
        if rebuilt.number == 0 {
            self.answers.count(names(call.name())[usize::from(rebuilt.map == map)], number);
        }
        let was = |connection: usize| BIT[(map >> connection & 1) as usize];
        match call.caller() {
            _ if number != 0 => {}
            None => self.bits.add("map 0 by a fresh start", MAP[usize::from(map != 0)]),
            Some(caller) => {
                self.bits.add(effect(call, outcome), was(caller));
                if outcome.relay() == [10] {
                    self.bits.add("the other's, session ended", was(outcome.answer.destination as usize));
                }
            }
        }
    }

    /// Asserts that each function had just these answers both with a map that agrees and with one that doesn't.
    pub fn assert_answers(&self, answers: &[(&str, &[u32])]) {
        for (call, numbers) in answers {
            self.answers.assert_just(&names(call).map(|name| (name, *numbers)));
        }
    }

    pub fn assert_bits(&self) {
        self.bits.assert_reached(&BITS);
    }
}

/// What a done call does to its caller's bit.
fn effect(call: &Call, outcome: &Outcome) -> &'static str {
    match (&call.kind, outcome.answer.disconnect) {
        (Kind::Open { .. }, _) => "set by an open",
        (Kind::Close { .. }, _) => "cleared by a close",
        (Kind::Message { .. }, 1) => "cleared by ok 0",
        (Kind::Message { message, .. }, _) => match Request::decode(message) {
            Some(Request::VersionAnswer { .. }) => "kept by ok 1",
            _ => "kept by another message",
        },
        (Kind::Keepalive { .. }, 1) => "cleared by a timeout",
        _ => "kept by a keepalive check",
    }
}

impl fmt::Display for Reached {
    fn fmt(&self, out: &mut fmt::Formatter) -> fmt::Result {
        self.answers.write_rows(out)?;
        write!(out, "{}", self.bits)
    }
}
