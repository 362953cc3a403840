//! A call that the relay might be asked for, and the engine's reason for its answer.

use engine::reasons::{self, Reason, Tables};
use engine::relay::{self, Answer, BUFFER};
use server::{CLOCK_LIMIT, CONNECTIONS_EACH, PARTNERS};

/// Connections have numbers below it.
pub const CONNECTIONS: u64 = (PARTNERS * CONNECTIONS_EACH) as u64;

#[derive(Clone, Debug, PartialEq, Eq)]
pub struct Call {
    pub connection: u64,
    pub time: u64,
    pub action: Action,
}

/// What the call does, with what it brings.
#[derive(Clone, Debug, PartialEq, Eq)]
pub enum Action {
    Open { reply_length: u64 },
    Message { message: Vec<u8>, random: Vec<u8>, reply_length: u64, relay_length: u64 },
    Close { relay_length: u64 },
    Keepalive { reply_length: u64, relay_length: u64 },
}

/// What a keepalive check does.
#[derive(Clone, Copy, Debug, PartialEq, Eq)]
pub enum Due {
    Nothing,
    /// A Keepalive is sent.
    Keepalive,
    /// The connection is closed.
    Close,
}

impl Call {
    /// Why the relay would answer as it would, with these tables.
    pub fn reason(&self, tables: Tables) -> Reason {
        self.reason_at(tables, self.time)
    }

    fn reason_at(&self, tables: Tables, time: u64) -> Reason {
        match &self.action {
            Action::Open { reply_length } => reasons::open(tables, time, self.connection, *reply_length),
            Action::Message { message, random, reply_length, relay_length } => {
                reasons::message(tables, time, self.connection, message, random, *reply_length, *relay_length)
            }
            Action::Close { relay_length } => reasons::close(tables, time, self.connection, *relay_length),
            Action::Keepalive { reply_length, relay_length } => {
                reasons::keepalive(tables, time, self.connection, *reply_length, *relay_length)
            }
        }
    }

    /// What a keepalive check would do, which no reason tells: so it is made, on a copy of the tables.
    pub fn due(&self, tables: &server::Tables) -> Option<Due> {
        let Action::Keepalive { .. } = self.action else { return None };
        let (mut copy, mut reply, mut relayed) = (tables.clone(), [0; BUFFER], [0; BUFFER]);
        let map = relay::rebuild(tables.view().connections).map;
        match relay::keepalive(copy.lend(), map, self.time, self.connection, &mut reply, &mut relayed) {
            Answer { number: 1.., .. } => None,
            Answer { disconnect: 1, .. } => Some(Due::Close),
            Answer { reply: 1.., .. } => Some(Due::Keepalive),
            _ => Some(Due::Nothing),
        }
    }

    /// When a call that can't be paid now can be, at the earliest, if its partner makes no charged call meanwhile. None if
    /// the clock ends before. What a call costs may change when a lease ends, and only then; up to the next such time what
    /// the partner has only grows, so that it can be paid at some time of that stretch exactly if it can at its last.
    pub fn payable_at(&self, tables: &server::Tables) -> Option<u64> {
        let is_short = |time| self.reason_at(tables.view(), time).shortfall().is_some();
        let ends = tables.lease_ends().filter(|end| (self.time + 1..CLOCK_LIMIT).contains(end));
        let mut ends: Vec<u64> = ends.chain([CLOCK_LIMIT]).collect();
        ends.sort_unstable();
        let mut start = self.time;
        for end in ends {
            if !is_short(end - 1) {
                return Some(first_without(is_short, start, end - 1));
            }
            start = end;
        }
        None
    }

    /// The message, if it is one.
    pub fn message(&self) -> Option<&[u8]> {
        match &self.action {
            Action::Message { message, .. } => Some(message),
            _ => None,
        }
    }

    /// The partner that the connection belongs to, if there is such a connection.
    pub fn partner(&self) -> Option<u64> {
        partner_of(self.connection)
    }
}

/// The partner that a connection belongs to, if there is such a connection.
pub fn partner_of(connection: u64) -> Option<u64> {
    (connection < CONNECTIONS).then_some(connection / CONNECTIONS_EACH as u64)
}

/// The first time from one to another of which this isn't so, by halving: it is so up to some time, and of the last it isn't.
fn first_without(is_so: impl Fn(u64) -> bool, mut from: u64, mut to: u64) -> u64 {
    while from < to {
        let middle = from + (to - from) / 2;
        if is_so(middle) {
            from = middle + 1;
        } else {
            to = middle;
        }
    }
    to
}
