//! What each charged call costs, as rows of a table worked out by hand, and which of them were reached.

use std::fmt;

use engine::relay::Answer;
use model::{partner_of, RandomBytes, Relay, Request, BASE_COST};

use super::boundary::{Call, Kind};
use crate::tally::Tally;

/// A kind of charged call with one outcome.
#[derive(Clone, Copy, Debug, PartialEq, Eq)]
pub struct Row {
    pub name: &'static str,
    pub price: u64,
}

const fn row(name: &'static str, price: u64) -> Row {
    Row { name, price }
}

const OPEN: Row = row("open", 45);
/// The version's answer: ok 0 and ok 1.
const VERSION: [Row; 2] = [row("version refused", 34), row("version accepted", 34)];
/// Refused and granted, each without a cookie and with one.
const LEASE: [[Row; 2]; 2] = [
    [row("lease refused", 36), row("lease refused, cookie", 60)],
    [row("lease granted", 72), row("lease granted, cookie", 96)],
];
const RENEWED: Row = row("lease renewed", 96);
/// Refused and done.
const EXTENSION: [Row; 2] = [row("not extended", 59), row("extended", 67)];
/// By status.
const ESTABLISH: [Row; 6] = [
    row("established", 140),
    row("establish status 1", 43),
    row("establish status 2", 43),
    row("establish status 3", 43),
    row("establish status 4", 43),
    row("establish status 5", 43),
];
const SHORTEST_SEND: Row = row("shortest send", 34);
const LONGEST_SEND: Row = row("longest send", 131_100);
/// Of a message of so many bytes.
const SEND: fn(u64) -> Row = |length| row("send", 32 + 2 * length);
const KEEPALIVE: Row = row("keepalive message", 33);

/// All but the sends of other lengths.
pub const ROWS: [Row; 19] = [
    OPEN,
    VERSION[0],
    VERSION[1],
    LEASE[0][0],
    LEASE[0][1],
    LEASE[1][0],
    LEASE[1][1],
    RENEWED,
    EXTENSION[0],
    EXTENSION[1],
    ESTABLISH[0],
    ESTABLISH[1],
    ESTABLISH[2],
    ESTABLISH[3],
    ESTABLISH[4],
    ESTABLISH[5],
    SHORTEST_SEND,
    LONGEST_SEND,
    KEEPALIVE,
];

/// The row of a charged call that passes checks 1 to 8, on this relay. None for a free call, and for one that can't pass.
pub fn row_of(relay: &Relay, call: &Call) -> Option<Row> {
    let (caller, now) = (call.caller()?, call.now);
    let (message, random) = match &call.kind {
        Kind::Open { .. } => return Some(OPEN),
        Kind::Message { message, random, .. } => (message, RandomBytes::new(random)?),
        Kind::Fresh { .. } | Kind::Close { .. } | Kind::Keepalive { .. } => return None,
    };
    match Request::decode(message)? {
        Request::VersionAnswer { ok } => Some(VERSION[usize::from(ok)]),
        Request::Lease { cookie } => {
            let granted = relay.offer(caller, random, now).failed().next().is_none();
            let renewed = cookie.and_then(|cookie| relay.row_to_renew(partner_of(caller), cookie, now)).is_some();
            Some(if granted && renewed { RENEWED } else { LEASE[usize::from(granted)][usize::from(cookie.is_some())] })
        }
        Request::Extension { cookie } => {
            Some(EXTENSION[usize::from(relay.row_to_extend(caller, cookie, now).is_some())])
        }
        Request::Establish { id } => {
            Some(ESTABLISH[usize::from(relay.holder_to_join(caller, id, now).err().unwrap_or(0))])
        }
        Request::SessionEnd => None,
        Request::Data { .. } if message.len() == 1 => Some(SHORTEST_SEND),
        Request::Data { data } if data.len() == codec::DATA_LIMIT => Some(LONGEST_SEND),
        Request::Data { .. } => Some(SEND(message.len() as u64)),
        Request::Keepalive => Some(KEEPALIVE),
    }
}

/// "32 plus the bytes received plus the bytes that it puts into both trays": what an accepted charged call cost, from what
/// it received and its answer.
pub fn cost(received: &[u8], answer: &Answer) -> u64 {
    BASE_COST + received.len() as u64 + u64::from(answer.reply) + u64::from(answer.relay)
}

/// Which rows were reached, done and refused with 9.
#[derive(Default)]
pub struct Reached {
    any: Tally,
    /// With a level that is the price, or is one below it and refuses.
    at_the_price: Tally,
}

impl Reached {
    /// Counts a call that was made of this relay, if it is a charged one that passed checks 1 to 8.
    pub fn count(&mut self, relay: &Relay, call: &Call, answer: &Answer) {
        let (0 | 9, Some(caller), Some(row)) = (answer.number, call.caller(), row_of(relay, call)) else {
            return;
        };
        self.any.count(row.name, answer.number);
        let level = relay.allowances[partner_of(caller)].level_at(call.now);
        let just_enough = row.price + u64::from(answer.number == 0);
        if level + 1 == just_enough {
            self.at_the_price.count(row.name, answer.number);
        }
    }

    /// Asserts that every row was reached done, and refused with 9.
    pub fn assert_rows(&self) {
        println!("{self}");
        assert_each(&self.any);
    }

    /// Asserts that it was with a level that is the price, and with one that is one below it.
    pub fn assert_at_the_price(&self) {
        assert_each(&self.at_the_price);
    }
}

fn assert_each(tally: &Tally) {
    tally.assert_just(&ROWS.map(|row| (row.name, &[0, 9][..])));
}

impl fmt::Display for Reached {
    fn fmt(&self, out: &mut fmt::Formatter) -> fmt::Result {
        writeln!(out, "prices")?;
        self.any.write_rows(out)?;
        writeln!(out, "prices, with just as much as that, or one less")?;
        self.at_the_price.write_rows(out)
    }
}
