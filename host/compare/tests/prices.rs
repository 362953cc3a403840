//! What each charged call costs, as numbers: with a level that is just enough, one that isn't, and one more.

use codec::{COOKIE_LENGTH, DATA_LIMIT};
use compare::difference::Difference;
use compare::reasons::{agree as agree_on_reason, truth};
use compare::relay::agree;
use compare::relay::boundary::{Call, Kind, Proved};
use compare::relay::prices::{cost, row_of, ROWS};
use compare::relay::runs::decoded;
use engine::reasons::Reason;
use engine::relay::{BUFFER, RANDOM};
use model::{Relay, State, StoredTerm, LEVEL_LIMIT, NOBODY};

const NOW: u64 = 100;

/// The connections of partner 0. Two are in a session; one holds id 1 and one nothing.
const CLOSED: u64 = 0;
const AWAITING: u64 = 1;
const IN_SESSION: u64 = 2;
const OTHER_IN_SESSION: u64 = 3;
const HOLDER: u64 = 4;
const FREE: u64 = 5;

/// The cookies of the leases: held, left, and held by one that is in a session; and of none.
const HELD: u8 = 1;
const LEFT: u8 = 2;
const BUSY: u8 = 3;
const UNKNOWN: u8 = 4;

/// The leases' ids are the bytes of their cookies.
fn relay() -> Relay {
    let mut relay = Relay::fresh(NOW, StoredTerm::default());
    relay.connections[AWAITING as usize].set_state(State::Awaiting);
    for connection in [IN_SESSION, OTHER_IN_SESSION, HOLDER, FREE] {
        relay.connections[connection as usize].set_state(State::Open);
    }
    relay.connections[IN_SESSION as usize].peer = OTHER_IN_SESSION as u8;
    relay.connections[OTHER_IN_SESSION as usize].peer = IN_SESSION as u8;
    let leases = [(HELD, HOLDER as u8), (LEFT, NOBODY), (BUSY, IN_SESSION as u8)];
    for (lease, (byte, holder)) in relay.leases.iter_mut().zip(leases) {
        (lease.expiry, lease.id, lease.holder) = (NOW + 1, byte.into(), holder);
        lease.cookie = [byte; COOKIE_LENGTH];
    }
    relay
}

fn open() -> Call {
    Call { now: NOW, kind: Kind::Open { connection: CLOSED, reply: BUFFER } }
}

/// A message with buffers that have room for more than it puts there.
fn message(connection: u64, start: &[u8], rest: &[u8]) -> Call {
    let message = [start, rest].concat();
    let relay = BUFFER.max(message.len()) + 100;
    let kind = Kind::Message { connection, message, random: vec![9; RANDOM], reply: BUFFER + 100, relay };
    Call { now: NOW, kind }
}

fn lease(connection: u64, cookie: Option<u8>) -> Call {
    match cookie {
        None => message(connection, &[2], &[0]),
        Some(byte) => message(connection, &[2, 1], &[byte; COOKIE_LENGTH]),
    }
}

fn extension(connection: u64, cookie: u8) -> Call {
    message(connection, &[4], &[cookie; COOKIE_LENGTH])
}

fn establish(connection: u64, id: u8) -> Call {
    message(connection, &[6], &[0, 0, 0, id])
}

/// A send of a message of so many bytes.
fn send(length: usize) -> Call {
    message(IN_SESSION, &[11], &vec![5; length - 1])
}

/// Each kind of call and outcome, by name, with its price.
fn priced() -> Vec<(&'static str, u64, Call)> {
    vec![
        ("open", 45, open()),
        ("version accepted", 34, message(AWAITING, &[1], &[1])),
        ("version refused", 34, message(AWAITING, &[1], &[0])),
        ("lease refused", 36, lease(HOLDER, None)),
        ("lease granted", 72, lease(FREE, None)),
        ("lease refused, cookie", 60, lease(HOLDER, Some(LEFT))),
        ("lease granted, cookie", 96, lease(FREE, Some(UNKNOWN))),
        ("lease renewed", 96, lease(FREE, Some(LEFT))),
        ("not extended", 59, extension(FREE, HELD)),
        ("extended", 67, extension(HOLDER, HELD)),
        ("established", 140, establish(FREE, HELD)),
        ("establish status 1", 43, establish(FREE, UNKNOWN)),
        ("establish status 2", 43, establish(FREE, LEFT)),
        ("establish status 3", 43, establish(FREE, BUSY)),
        ("establish status 4", 43, establish(IN_SESSION, HELD)),
        ("establish status 5", 43, establish(HOLDER, HELD)),
        ("shortest send", 34, send(1)),
        ("longest send", 131_100, send(1 + DATA_LIMIT)),
        ("keepalive message", 33, message(FREE, &[13], &[])),
    ]
}

/// Sends of other lengths, which no single row stands for.
fn other_sends() -> Vec<(&'static str, u64, Call)> {
    [2, 3, 64, 65, 16_368, 32_752, 32_753, 65_533].map(|length| ("send", 32 + 2 * length as u64, send(length))).into()
}

/// Makes the call with this level and explains it, and gives the level left, if it is done, and what it cost; and what
/// the explanation says.
fn make(relay: &Relay, call: &Call, level: u64) -> Result<(Option<(u64, u64)>, Reason), Difference> {
    let mut relay = relay.clone();
    relay.allowances[0].level = level;
    let tables = relay.encode();
    let reason = agree_on_reason::explain(&Proved, &tables, call)?;
    truth::check(&Proved, &tables, call, &reason)?;
    let outcome = agree::call(&Proved, &tables, relay.map(), call)?;
    let left = decoded(&outcome.lent.tables()).allowances[0].level;
    assert!([0, 9].contains(&outcome.answer.number), "{:?}", outcome.answer);
    let done = (outcome.answer.number == 0).then(|| (left, cost(call.message(), &outcome.answer)));
    Ok((done, reason))
}

/// What the explanation of a call says that can't be paid: nothing but that.
fn stopped(headroom: i64) -> Reason {
    Reason { check: 9, request: 0, condition: 0, charged: 1, headroom }
}

#[test]
fn every_row_with_a_level_just_at_its_price() -> Result<(), Difference> {
    let relay = relay();
    let named: Vec<&str> = priced().iter().map(|(name, ..)| *name).collect();
    assert!(ROWS.iter().all(|row| named.contains(&row.name)) && named.len() == ROWS.len());
    for (name, price, call) in priced().into_iter().chain(other_sends()) {
        let row = row_of(&relay, &call).expect("a charged call");
        assert_eq!((row.name, row.price), (name, price));
        for more in [0, 1, LEVEL_LIMIT - price] {
            let (done, reason) = make(&relay, &call, price + more)?;
            assert_eq!(done, Some((more, price)), "{name}");
            assert_eq!((reason.check, reason.charged, reason.headroom), (0, 1, more as i64), "{name}");
        }
        for less in [1, 2, price] {
            assert_eq!(make(&relay, &call, price - less)?, (None, stopped(-(less as i64))), "{name}");
        }
    }
    Ok(())
}

#[test]
fn no_call_costs_more_than_the_longest_send() {
    assert_eq!(priced().iter().map(|&(_, price, _)| price).max(), Some(131_100));
}

#[test]
fn the_longest_send_from_level_0_at_10() -> Result<(), Difference> {
    let mut relay = relay();
    relay.set_clock(10);
    relay.allowances[0].updated = 10;
    for (now, expected) in [(10, None), (11, None), (12, None), (13, Some((65_508, 131_100)))] {
        let call = Call { now, ..send(1 + DATA_LIMIT) };
        assert_eq!(make(&relay, &call, 0)?.0, expected, "at {now}");
    }
    assert_eq!(make(&relay, &Call { now: 12, ..send(1 + DATA_LIMIT) }, 0)?.1, stopped(131_072 - 131_100));
    Ok(())
}

/// All candidates of the random bytes are one.
#[test]
fn a_lease_with_50_left_by_whether_its_only_candidate_is_live_elsewhere() -> Result<(), Difference> {
    for (expiry, expected) in [(NOW + 1, Some((14, 36))), (NOW, None), (0, None)] {
        let mut relay = relay();
        let elsewhere = relay.leases.last_mut().expect("leases");
        (elsewhere.expiry, elsewhere.id) = (expiry, 0x0109_0909);
        let (done, reason) = make(&relay, &lease(FREE, None), 50)?;
        assert_eq!(done, expected);
        assert_eq!(reason.headroom, if done.is_some() { 14 } else { -22 });
    }
    Ok(())
}

#[test]
fn free_calls_at_level_0_with_what_they_send() -> Result<(), Difference> {
    let mut relay = relay();
    let asked = &mut relay.connections[FREE as usize];
    asked.sent = NOW - 30;
    let dead = &mut relay.connections[IN_SESSION as usize];
    (dead.unanswered, dead.asked) = (1, NOW - 60);
    let close = Kind::Close { connection: IN_SESSION, relay: BUFFER };
    let find_out = |connection| Kind::Keepalive { connection, reply: BUFFER, relay: BUFFER };
    let calls = [
        (message(IN_SESSION, &[9], &[]), [0, 1]),
        (Call { now: NOW, kind: close }, [0, 1]),
        (Call { now: NOW, kind: find_out(FREE) }, [1, 0]),
        (Call { now: NOW, kind: find_out(IN_SESSION) }, [0, 1]),
    ];
    for level in [0, 32, LEVEL_LIMIT] {
        (relay.allowances[0].level, relay.allowances[0].updated) = (level, NOW);
        for (call, sent) in &calls {
            let outcome = agree::call(&Proved, &relay.encode(), relay.map(), call)?;
            assert_eq!((outcome.answer.number, [outcome.answer.reply, outcome.answer.relay]), (0, *sent));
            assert_eq!(decoded(&outcome.lent.tables()).allowances[0], relay.allowances[0]);
            assert_eq!(row_of(&relay, call), None);
        }
    }
    Ok(())
}
