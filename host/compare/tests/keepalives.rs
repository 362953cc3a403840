//! The keepalive call with every combination of what a record says: byte 2, both times, and the connection's state.

use compare::amount;
use compare::difference::Difference;
use compare::random::Random;
use compare::reasons::{agree, truth};
use compare::relay::boundary::{Call, Kind, Proved};
use compare::relay::keepalives::{self, CALLS_ON_ANY_TABLES};
use compare::relay::runs::decoded;
use compare::relay::{self, tables};
use compare::tally::Found;
use engine::relay::BUFFER;
use model::{Relay, State, CONNECTIONS, NOBODY, PARTNERS, TIME_LIMIT};

/// The time of the calls.
const NOW: [u64; 13] = [0, 1, 29, 30, 31, 59, 60, 61, 90, 1_000, (1 << 32) + 10, TIME_LIMIT - 31, TIME_LIMIT - 1];

/// Seconds from a stored time to the present one, or from the present one to it.
const SECONDS: [u64; 15] = [0, 1, 2, 28, 29, 30, 31, 32, 58, 59, 60, 61, 62, 90, 3_600];

/// Byte 2.
const UNANSWERED: [u8; 7] = [0, 1, 2, 3, 128, 254, 255];

/// Stored times: around the present one, and the first, the last and others far from it.
fn times(now: u64) -> Vec<u64> {
    let before = SECONDS.iter().filter_map(|&seconds| now.checked_sub(seconds));
    let later = [1, 30, 60].iter().map(|&seconds| now + seconds);
    let others = [0, 1 << 32, (1 << 32) - 1, now ^ (1 << 39), TIME_LIMIT - 1];
    let mut times: Vec<u64> = before.chain(later).chain(others).filter(|&time| time < TIME_LIMIT).collect();
    times.sort();
    times.dedup();
    times
}

/// Tables from anywhere, on which a call at this time is not too early.
fn relay_from_anywhere(random: &mut Random, now: u64) -> Relay {
    let mut relay = decoded(&tables::any(random, now));
    relay.set_clock(random.choice(&[0, now / 2, now]));
    relay
}

/// Two connections of one partner.
fn two_connections(random: &mut Random) -> [usize; 2] {
    let each = CONNECTIONS / PARTNERS;
    let (partner, one) = (random.below(PARTNERS), random.below(each));
    let other = (one + 1 + random.below(each - 1)) % each;
    [one, other].map(|number| partner * each + number)
}

/// The same relay, the connection in each state: awaiting, open without session, and in a session with the other.
fn in_each_state(relay: &Relay, [connection, other]: [usize; 2]) -> [Relay; 3] {
    let mut awaiting = relay.clone();
    awaiting.connections[connection].set_state(State::Awaiting);
    let mut open = relay.clone();
    open.connections[connection].set_state(State::Open);
    open.connections[connection].peer = NOBODY;
    let mut in_session = open.clone();
    in_session.connections[connection].peer = other as u8;
    in_session.connections[other].peer = connection as u8;
    in_session.connections[other].set_state(State::Open);
    [awaiting, open, in_session]
}

#[test]
fn every_record() -> Result<(), Difference> {
    let mut random = amount::random();
    let mut found = Found::default();
    for now in NOW {
        for _ in 0..amount::rounds(1) {
            let (relay, connections) = (relay_from_anywhere(&mut random, now), two_connections(&mut random));
            for relay in in_each_state(&relay, connections) {
                every_record_of(relay, connections[0], now, &mut found)?;
            }
        }
    }
    println!("{found}");
    found.assert_reached(&CALLS_ON_ANY_TABLES);
    Ok(())
}

/// Makes the call for the connection with each record.
fn every_record_of(mut relay: Relay, connection: usize, now: u64, found: &mut Found) -> Result<(), Difference> {
    for sent in times(now) {
        for asked in times(now) {
            for unanswered in UNANSWERED {
                let record = &mut relay.connections[connection];
                (record.sent, record.asked, record.unanswered) = (sent, asked, unanswered);
                compare(&relay, connection, now, found)?;
            }
        }
    }
    Ok(())
}

/// Explains the call and makes it.
fn compare(relay: &Relay, connection: usize, now: u64, found: &mut Found) -> Result<(), Difference> {
    let kind = Kind::Keepalive { connection: connection as u64, reply: BUFFER, relay: BUFFER };
    let (tables, call) = (relay.encode(), Call { now, kind });
    let reason = agree::explain(&Proved, &tables, &call)?;
    truth::check(&Proved, &tables, &call, &reason)?;
    let outcome = relay::agree::call(&Proved, &tables, relay.map(), &call)?;
    keepalives::count(found, relay, &call, connection, &outcome);
    Ok(())
}
