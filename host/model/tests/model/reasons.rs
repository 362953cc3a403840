//! Why a call is turned away, or what decides it: the request's sentences, by examples worked out from the papers.

use model::reasons::{self, Outcome, Reason};
use model::{close, Condition, Refusal, Relay, State, StoredTerm, Tables, LEVEL_LIMIT, TIME_LIMIT};

use crate::support::{relay, relay_in_session, relay_with, relay_with_a_lease, send, set_allowance, RANDOM};

const LEASE_REQUEST: &[u8] = &[2, 0];
const ESTABLISH_WITH_ID_1: &[u8] = &[6, 0, 0, 0, 1];
const SESSION_END: &[u8] = &[9];
const KEEPALIVE: &[u8] = &[13];

fn explain_open(tables: &Tables) -> Reason {
    reasons::open(tables, 100, 0, 64)
}

fn explain_message(tables: &Tables, connection: u64, bytes: &[u8]) -> Reason {
    reasons::message(tables, 100, connection, bytes, &RANDOM, 64, 64)
}

fn explain_close(tables: &Tables) -> Reason {
    reasons::close(tables, 100, 0, 64)
}

/// The same relay, partner 0 at this level.
fn at_level(mut tables: Tables, level: u64) -> Tables {
    set_allowance(&mut tables, level, 100);
    tables
}

fn stopped(check: Refusal) -> Reason {
    Reason { outcome: Outcome::Stopped(check), headroom: None }
}

#[test]
fn the_headroom_is_what_would_be_left_or_what_is_missing() {
    assert_eq!(explain_open(&relay(100)).numbers(), ([0, 0, 0, 1], 262_099));
    assert_eq!(explain_open(&at_level(relay(100), 46)).numbers(), ([0, 0, 0, 1], 1));
    assert_eq!(explain_open(&at_level(relay(100), 45)).numbers(), ([0, 0, 0, 1], 0));
    assert_eq!(explain_open(&at_level(relay(100), 44)).numbers(), ([9, 0, 0, 1], -1));
    assert_eq!(explain_open(&at_level(relay(100), 20)).numbers(), ([9, 0, 0, 1], -25));
}

#[test]
fn a_lease_or_an_establish_that_can_t_be_paid_is_not_decided() {
    let (tables, without_rows) = (at_level(relay_with_a_lease(), 10), at_level(relay_with(100, &[0]), 10));
    // What would be decided stands in the price alone: granted and refused, established and refused.
    assert_eq!(explain_message(&tables, 0, LEASE_REQUEST).numbers(), ([9, 0, 0, 1], -26));
    assert_eq!(explain_message(&without_rows, 0, LEASE_REQUEST).numbers(), ([9, 0, 0, 1], -62));
    assert_eq!(explain_message(&tables, 0, ESTABLISH_WITH_ID_1).numbers(), ([9, 0, 0, 1], -130));
    assert_eq!(explain_message(&tables, 1, ESTABLISH_WITH_ID_1).numbers(), ([9, 0, 0, 1], -33));
}

#[test]
fn the_level_is_the_refilled_one() {
    let mut tables = relay_with(10, &[0]);
    for (level, updated, read) in [(0, 10, 196_608), (u64::MAX, 10, LEVEL_LIMIT), (40, 14, 40)] {
        set_allowance(&mut tables, level, updated);
        let reason = reasons::message(&tables, 13, 0, KEEPALIVE, &RANDOM, 64, 64);
        assert_eq!(reason, Reason { outcome: Outcome::Done, headroom: Some(read as i64 - 33) });
    }
}

/// Connections 0 and 1 are open. So many rows of their partner are live, all with the cookie of the random bytes, the
/// first held by 0 and the others renewable. Every candidate is live too, the first one here and the others under
/// another partner.
fn relay_with_live_rows(rows: usize) -> Tables {
    let mut relay = Relay::fresh(100, StoredTerm::default());
    for connection in [0, 1] {
        relay.connections[connection].set_state(State::Open);
    }
    for (lease, id) in relay.leases[..rows].iter_mut().zip(1..) {
        (lease.expiry, lease.id, lease.cookie) = (101, id, [9; 24]);
    }
    relay.leases[0].holder = 0;
    (relay.leases[127].expiry, relay.leases[127].id) = (101, 0x0109_0909);
    relay.encode()
}

/// The random bytes with another cookie.
fn new_cookie() -> [u8; 80] {
    let mut random = RANDOM;
    random[0] = 8;
    random
}

#[test]
fn the_first_condition_of_a_lease_that_fails() {
    let last_candidate_free = {
        let mut random = new_cookie();
        random[79] = 8;
        random
    };
    let cases = [
        (16, 0, RANDOM, Some(Condition::HoldsNone)),
        (1, 0, RANDOM, Some(Condition::HoldsNone)),
        (16, 1, RANDOM, Some(Condition::RowLeft)),
        (15, 1, RANDOM, Some(Condition::CookieIsNew)),
        (1, 1, RANDOM, Some(Condition::CookieIsNew)),
        (1, 1, new_cookie(), Some(Condition::FreeId)),
        (2, 1, new_cookie(), Some(Condition::FreeId)),
        (1, 1, last_candidate_free, None),
        (2, 1, last_candidate_free, None),
        (0, 0, RANDOM, None),
    ];
    let with_cookie = [&[2, 1], &[9; 24][..]].concat();
    for (rows, caller, random, failed) in cases {
        let tables = relay_with_live_rows(rows);
        let number = failed.map_or(0, |condition| condition as u32);
        let reason = |request: &[u8]| reasons::message(&tables, 100, caller, request, &random, 64, 64);
        let [left, left_with_cookie] = if failed.is_some() { [262_108, 262_084] } else { [262_072, 262_048] };
        assert_eq!(reason(LEASE_REQUEST).outcome, Outcome::Lease { failed });
        assert_eq!(reason(LEASE_REQUEST).numbers(), ([0, 1, number, 1], left));
        // "decided as in 01, cookie or not"
        assert_eq!(reason(&with_cookie).numbers(), ([0, 1, number, 1], left_with_cookie));
    }
}

#[test]
fn the_status_of_an_establish() {
    let mut left_by_its_holder = relay_with_a_lease();
    assert_eq!(close(&mut left_by_its_holder, 0, 100, 1, &mut [0; 64]).number, 0);
    let mut in_session = relay_with_a_lease();
    assert_eq!(send(&mut in_session, 100, 0, ESTABLISH_WITH_ID_1).reply[5], 0);
    let cases = [
        (0, relay_with_a_lease(), 0),
        (1, relay_with(100, &[0]), 0),
        (2, left_by_its_holder, 0),
        (3, in_session.clone(), 2),
        (4, in_session.clone(), 0),
        (4, in_session, 1),
        (5, relay_with_a_lease(), 1),
    ];
    for (status, tables, caller) in cases {
        let reason = explain_message(&at_level(tables, LEVEL_LIMIT), caller, ESTABLISH_WITH_ID_1);
        let left = if status == 0 { 262_004 } else { 262_101 };
        assert_eq!(reason, Reason { outcome: Outcome::Establish { status }, headroom: Some(left) });
        assert_eq!(reason.numbers(), ([0, 2, status.into(), 1], left));
    }
}

#[test]
fn free_calls_have_no_headroom_done_or_not() {
    for level in [0, LEVEL_LIMIT] {
        let in_session = at_level(relay_in_session(100), level);
        let alone = at_level(relay_with(100, &[0]), level);
        let closed = at_level(relay(100), level);
        assert_eq!(explain_message(&in_session, 0, SESSION_END).numbers(), ([0; 4], 0));
        assert_eq!(explain_message(&alone, 0, SESSION_END).numbers(), ([8, 0, 0, 0], 0));
        assert_eq!(explain_close(&alone).numbers(), ([0; 4], 0));
        assert_eq!(explain_close(&closed).numbers(), ([4, 0, 0, 0], 0));
    }
}

#[test]
fn a_charged_call_that_an_earlier_check_stops_has_none() {
    let mut small = relay(100);
    small.leases.pop();
    assert_eq!(explain_open(&small), stopped(Refusal::TableSize));
    let tables = at_level(relay_with(100, &[0]), 0);
    for late_or_early in [TIME_LIMIT, 99] {
        assert_eq!(reasons::open(&tables, late_or_early, 8, 64), stopped(Refusal::Time));
    }
    assert_eq!(reasons::open(&tables, 100, 64, 64), stopped(Refusal::NoSuchConnection));
    assert_eq!(explain_open(&tables), stopped(Refusal::WrongState));
    assert_eq!(reasons::open(&tables, 100, 8, 63), stopped(Refusal::Buffers));
    assert_eq!(explain_message(&tables, 0, &[]), stopped(Refusal::Invalid));
    assert_eq!(explain_message(&tables, 0, &[1, 1]), stopped(Refusal::NotPermitted));
    assert_eq!(explain_message(&tables, 0, &[11]), stopped(Refusal::NoSession));
}

#[test]
fn lengths_are_any_numbers() {
    let tables = relay_with(100, &[0]);
    let asked = |reply, relay| reasons::message(&tables, 100, 0, KEEPALIVE, &RANDOM, reply, relay).numbers().0[0];
    assert_eq!([asked(u64::MAX, u64::MAX), asked(64, 1 << 32), asked(1 << 32, 64)], [0; 3]);
    assert_eq!([asked(63, u64::MAX), asked(u64::MAX, 63)], [5; 2]);
    let data = [11; 65];
    let sent = |relay| reasons::message(&relay_in_session(100), 100, 0, &data, &RANDOM, 64, relay).outcome;
    assert_eq!([64, 65, u64::MAX].map(sent), [Outcome::Stopped(Refusal::Buffers), Outcome::Done, Outcome::Done]);
}
