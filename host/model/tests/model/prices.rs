//! "The charge forgot what we send out": what each charged call costs, and what stays free.

use model::{close, keepalive, message, open, reasons, Relay, Tables, LEVEL_LIMIT};

use crate::support::{level, relay, relay_in_session, relay_with, relay_with_a_lease, send, set_allowance, RANDOM};

const COOKIE: [u8; 24] = [9; 24];
const LEASE_REQUEST: &[u8] = &[2, 0];
const ESTABLISH_WITH_ID_1: &[u8] = &[6, 0, 0, 0, 1];

fn with_cookie(start: &[u8], cookie: [u8; 24]) -> Vec<u8> {
    [start, &cookie].concat()
}

/// A lease of id 2, with another cookie, that its holder has left.
fn relay_with_a_lease_to_renew() -> Tables {
    let mut tables = relay_with_a_lease();
    assert_eq!(close(&mut tables, 0, 100, 1, &mut [0; 64]).number, 0);
    let mut relay = Relay::decode(&tables).expect("tables of the right sizes");
    (relay.leases[0].id, relay.leases[0].cookie) = (2, [8; 24]);
    relay.encode()
}

/// The call is done with a level that is just enough and leaves 0; with one less it is refused and explained so.
fn assert_costs(price: u64, tables: &Tables, connection: u64, bytes: &[u8]) {
    let mut enough = tables.clone();
    set_allowance(&mut enough, price, 100);
    let (explained, _) = reasons::message(&enough, 100, connection, bytes, &RANDOM, 64, 70_000).numbers();
    assert_eq!(explained[0], 0);
    let sent = send(&mut enough, 100, connection, bytes);
    assert_eq!((sent.answer.number, level(&enough)), (0, 0), "{price} for {} bytes", bytes.len());
    assert_eq!(price, 32 + (bytes.len() + sent.reply.len() + sent.relay.len()) as u64);
    let mut too_little = tables.clone();
    set_allowance(&mut too_little, price - 1, 100);
    let before = too_little.clone();
    let reason = reasons::message(&before, 100, connection, bytes, &RANDOM, 64, 70_000);
    assert_eq!(reason.numbers(), ([9, 0, 0, 1], -1));
    assert_eq!(send(&mut too_little, 100, connection, bytes).answer.number, 9);
    assert_eq!(too_little, before);
}

#[test]
fn an_open_costs_45() {
    for (before, number, after) in [(44, 9, 44), (45, 0, 0), (46, 0, 1)] {
        let mut tables = relay(100);
        set_allowance(&mut tables, before, 100);
        assert_eq!(open(&mut tables, 0, 100, 0, &mut [0; 64]).number, number);
        assert_eq!(level(&tables), after);
    }
}

#[test]
fn a_version_s_answer_costs_34_whatever_it_says() {
    let mut awaiting = relay(100);
    assert_eq!(open(&mut awaiting, 0, 100, 0, &mut [0; 64]).number, 0);
    for ok in [0, 1] {
        assert_costs(34, &awaiting, 0, &[1, ok]);
    }
}

#[test]
fn a_lease_costs_by_whether_it_is_granted() {
    let (taken, renewable) = (relay_with_a_lease(), relay_with_a_lease_to_renew());
    let free = relay_with(100, &[0]);
    assert_costs(36, &taken, 1, LEASE_REQUEST);
    assert_costs(72, &free, 0, LEASE_REQUEST);
    assert_costs(60, &taken, 1, &with_cookie(&[2, 1], COOKIE));
    assert_costs(60, &taken, 0, &with_cookie(&[2, 1], [8; 24]));
    assert_costs(96, &free, 0, &with_cookie(&[2, 1], [8; 24]));
    assert_costs(96, &renewable, 0, &with_cookie(&[2, 1], [8; 24]));
}

#[test]
fn an_extension_costs_by_whether_it_is_done() {
    assert_costs(59, &relay_with_a_lease(), 0, &with_cookie(&[4], COOKIE));
    assert_costs(59, &relay_with_a_lease(), 1, &with_cookie(&[4], [8; 24]));
    assert_costs(67, &relay_with_a_lease(), 1, &with_cookie(&[4], COOKIE));
}

#[test]
fn an_establish_costs_by_its_status() {
    let mut left = relay_with_a_lease();
    assert_eq!(close(&mut left, 0, 100, 1, &mut [0; 64]).number, 0);
    let mut in_session = relay_with_a_lease();
    assert_eq!(send(&mut in_session, 100, 0, ESTABLISH_WITH_ID_1).reply[5], 0);
    assert_costs(140, &relay_with_a_lease(), 0, ESTABLISH_WITH_ID_1);
    let refused = [
        (1, relay_with(100, &[0]), 0),
        (2, left, 0),
        (3, in_session.clone(), 2),
        (4, in_session, 0),
        (5, relay_with_a_lease(), 1),
    ];
    for (status, mut tables, caller) in refused {
        assert_costs(43, &tables, caller, ESTABLISH_WITH_ID_1);
        assert_eq!(send(&mut tables, 100, caller, ESTABLISH_WITH_ID_1).reply[5], status);
    }
}

#[test]
fn a_send_costs_what_goes_in_and_out() {
    for length in [1, 2, 64, 65, 65_533, 65_534] {
        assert_costs(32 + 2 * length as u64, &relay_in_session(100), 0, &vec![11; length]);
    }
}

#[test]
fn a_keepalive_costs_33() {
    assert_costs(33, &relay_with(100, &[0]), 0, &[13]);
    assert_costs(33, &relay_in_session(100), 0, &[13]);
}

#[test]
fn the_end_of_a_session_stays_free_though_the_other_is_told() {
    for before in [0, 40, LEVEL_LIMIT] {
        let mut tables = relay_in_session(100);
        set_allowance(&mut tables, before, 90);
        let allowance = tables.allowances[..16].to_vec();
        let mut closed = tables.clone();
        assert_eq!(send(&mut tables, 100, 0, &[9]).relay, [10]);
        assert_eq!(tables.allowances[..16], allowance);
        assert_eq!(close(&mut closed, 0, 100, 0, &mut [0; 64]).relay, 1);
        assert_eq!(closed.allowances[..16], allowance);
    }
}

#[test]
fn finding_out_stays_free_though_something_is_sent() {
    for (unanswered, reply, relay) in [(0, 1, 0), (1, 0, 1)] {
        let mut tables = relay_in_session(100);
        set_allowance(&mut tables, 0, 160);
        tables.connections[2] = unanswered;
        let allowance = tables.allowances[..16].to_vec();
        let answer = keepalive(&mut tables, 0, 160, 0, &mut [0; 64], &mut [0; 64]);
        assert_eq!((answer.number, answer.reply, answer.relay), (0, reply, relay));
        assert_eq!(tables.allowances[..16], allowance);
    }
}

#[test]
fn level_0_at_10_and_the_longest_send() {
    let mut tables = relay_in_session(10);
    set_allowance(&mut tables, 0, 10);
    let longest = [11; 65_534];
    for (now, number) in [(10, 9), (11, 9), (12, 9), (13, 0)] {
        assert_eq!(send(&mut tables, now, 0, &longest).answer.number, number);
    }
    assert_eq!(level(&tables), 65_508);
}

#[test]
fn level_50_and_a_lease_whose_only_candidate_is_live_elsewhere_or_not() {
    let random = [9; 80];
    for (expiry, number, left) in [(101, 0, 14), (100, 9, 50)] {
        let mut relay = Relay::decode(&relay_with(100, &[0])).expect("tables of the right sizes");
        (relay.leases[127].expiry, relay.leases[127].id) = (expiry, 0x0109_0909);
        let mut tables = relay.encode();
        set_allowance(&mut tables, 50, 100);
        let answer = message(&mut tables, 0, 100, 0, LEASE_REQUEST, &random, &mut [0; 64], &mut [0; 64]);
        assert_eq!((answer.number, level(&tables)), (number, left));
    }
}

#[test]
fn what_is_lent_has_no_price() {
    for (reply, relay) in [(64, 64), (65, 70_000), (70_000, 64)] {
        let mut tables = relay_with(100, &[0]);
        set_allowance(&mut tables, 72, 100);
        let answer = message(&mut tables, 0, 100, 0, LEASE_REQUEST, &RANDOM, &mut vec![0; reply], &mut vec![0; relay]);
        assert_eq!((answer.number, answer.reply, level(&tables)), (0, 38, 0));
    }
}
