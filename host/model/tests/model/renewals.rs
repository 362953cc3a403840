//! "Keep my number after a power cut": the request's examples, and each part of its sentence.

use codec::Message;
use model::{close, message, Relay, State, StoredTerm, Tables, CONNECTIONS, LEASES, NOBODY, PARTNERS};

use crate::support::{relay_with, RANDOM};

/// The cookie with which the rows here were leased.
const K: [u8; 24] = *b"the cookie of a receiver";
const REQUEST_WITH_K: [u8; 26] = {
    let mut bytes = [0; 26];
    [bytes[0], bytes[1]] = [2, 1];
    bytes.split_at_mut(2).1.copy_from_slice(&K);
    bytes
};

/// What a new lease here gets from the random bytes.
const NEW_ID: u32 = 1;
const NEW_COOKIE: [u8; 24] = [9; 24];
const TERM: u64 = 600;

/// What each partner owns; those of partner 0 come first.
const OWN_CONNECTIONS: usize = CONNECTIONS / PARTNERS;
const OWN_ROWS: usize = LEASES / PARTNERS;
const ROW_LENGTH: usize = 40;

/// A relay whose first connections are open, as many as said, and whose row 0 was leased with K as id 7 until `expiry`.
fn relay_with_row_0(open: usize, expiry: u64, holder: u8) -> Relay {
    let mut relay = Relay::fresh(0, StoredTerm::default());
    for connection in &mut relay.connections[..open] {
        connection.set_state(State::Open);
    }
    set_row(&mut relay, 0, expiry, 7, holder);
    relay
}

/// Makes a row one that was leased with K.
fn set_row(relay: &mut Relay, row: usize, expiry: u64, id: u32, holder: u8) {
    let lease = &mut relay.leases[row];
    (lease.expiry, lease.id, lease.holder, lease.cookie) = (expiry, id, holder, K);
}

/// The same relay, its rows' bytes 13 to 15 not zero.
fn marked(relay: &Relay) -> Tables {
    let mut tables = relay.encode();
    for (row, number) in tables.leases.chunks_exact_mut(ROW_LENGTH).zip(1..) {
        row[13..16].copy_from_slice(&[number, 200, number]);
    }
    tables
}

fn decoded(tables: &Tables) -> Relay {
    Relay::decode(tables).expect("tables of the right sizes")
}

/// What a connection gets that asks: id, cookie and expiry, or nothing.
fn ask(tables: &mut Tables, now: u64, caller: u64, request: &[u8]) -> Option<(u32, [u8; 24], u64)> {
    ask_with(tables, now, caller, request, &RANDOM)
}

/// The same with other random bytes.
fn ask_with(tables: &mut Tables, now: u64, caller: u64, request: &[u8], random: &[u8]) -> Option<(u32, [u8; 24], u64)> {
    let (mut reply, mut relay) = ([0; 64], [0; 64]);
    let answer = message(tables, 0, now, caller, request, random, &mut reply, &mut relay);
    match codec::decode(&reply[..answer.reply]).expect("an answer to a lease request") {
        Message::LeaseGranted { id, cookie, expiration } => Some((id, cookie.try_into().ok()?, expiration)),
        other => {
            assert_eq!(other, Message::LeaseRefused);
            None
        }
    }
}

/// The connection asks with K, and must get this id and cookie in this row. No other byte of the lease table may
/// change.
fn assert_granted(relay: &Relay, now: u64, caller: u64, row: usize, id: u32, cookie: [u8; 24]) {
    let mut tables = marked(relay);
    let mut expected = tables.leases.clone();
    let bytes = &mut expected[ROW_LENGTH * row..];
    bytes[..8].copy_from_slice(&(now + TERM).to_be_bytes());
    bytes[8..12].copy_from_slice(&id.to_be_bytes());
    bytes[12] = caller as u8;
    bytes[16..40].copy_from_slice(&cookie);
    assert_eq!(ask(&mut tables, now, caller, &REQUEST_WITH_K), Some((id, cookie, now + TERM)));
    assert_eq!(tables.leases, expected);
}

fn assert_renewed(relay: &Relay, now: u64, caller: u64, row: usize) {
    assert_granted(relay, now, caller, row, relay.leases[row].id, K);
}

fn assert_new(relay: &Relay, now: u64, caller: u64, row: usize) {
    assert_granted(relay, now, caller, row, NEW_ID, NEW_COOKIE);
}

fn assert_refused(relay: &Relay, now: u64, caller: u64) {
    let mut tables = marked(relay);
    let before = tables.leases.clone();
    assert_eq!(ask(&mut tables, now, caller, &REQUEST_WITH_K), None);
    assert_eq!(tables.leases, before);
}

/// Leased at 100 as id 7 with K by connection 0, which is open as connection 1 is.
fn leased_at_100() -> Tables {
    let mut tables = relay_with(100, &[0, 1]);
    let random = [&K, &7_u32.to_be_bytes().repeat(14)[..]].concat();
    assert_eq!(ask_with(&mut tables, 100, 0, &[2, 0], &random), Some((7, K, 700)));
    tables
}

#[test]
fn another_connection_comes_back_with_the_cookie() {
    let mut tables = leased_at_100();
    assert_eq!(close(&mut tables, 0, 200, 0, &mut [0; 64]).number, 0);
    assert_renewed(&decoded(&tables), 9_000, 1, 0);
    assert_eq!(ask(&mut tables, 9_000, 1, &REQUEST_WITH_K), Some((7, K, 9_600)));
}

#[test]
fn a_holder_still_open_keeps_its_row() {
    let relay = decoded(&leased_at_100());
    assert_new(&relay, 300, 1, 1);
    assert_refused(&relay, 300, 0);
}

#[test]
fn an_expired_row_is_renewed_whoever_holds_it() {
    for holder in [0, 1] {
        let relay = relay_with_row_0(2, 300, holder);
        assert_renewed(&relay, 300, 1, 0);
        assert_renewed(&relay, 301, 1, 0);
    }
    assert_new(&relay_with_row_0(2, 300, 0), 299, 1, 1);
    assert_refused(&relay_with_row_0(2, 300, 1), 299, 1);
}

#[test]
fn a_live_row_is_renewed_if_its_holder_doesn_t_count() {
    let neighbours = [OWN_CONNECTIONS, CONNECTIONS - 1];
    let others = [2, 3, CONNECTIONS, 254, NOBODY.into()];
    for holder in others.into_iter().chain(neighbours) {
        let mut relay = relay_with_row_0(2, 101, holder as u8);
        relay.connections[3].set_state(State::Awaiting);
        neighbours.iter().for_each(|&neighbour| relay.connections[neighbour].set_state(State::Open));
        assert_renewed(&relay, 100, 1, 0);
    }
}

#[test]
fn an_id_that_another_live_row_has() {
    for other in [1, OWN_ROWS - 1, OWN_ROWS, LEASES - 1] {
        let mut relay = relay_with_row_0(2, 50, NOBODY);
        set_row(&mut relay, other, 101, 7, 0);
        assert_new(&relay, 100, 1, if other == 1 { 2 } else { 1 });
        relay.leases[other].expiry = 100;
        assert_renewed(&relay, 100, 1, 0);
    }
}

#[test]
fn the_lowest_row_that_meets_all_parts() {
    let mut relay = relay_with_row_0(2, 0, NOBODY);
    relay.leases[0].cookie = [0; 24];
    for (row, expiry, id, holder) in [(2, 0, 20, NOBODY), (4, 101, 40, 0), (6, 99, 60, 0), (7, 101, 70, NOBODY)] {
        set_row(&mut relay, row, expiry, id, holder);
    }
    assert_renewed(&relay, 100, 1, 6);
}

#[test]
fn a_row_never_leased_is_not_renewed() {
    assert_new(&relay_with_row_0(1, 0, NOBODY), 100, 0, 0);
    assert_renewed(&relay_with_row_0(1, 1, NOBODY), 100, 0, 0);
}

#[test]
fn a_neighbour_s_cookie() {
    let mut relay = relay_with_row_0(1, 0, NOBODY);
    set_row(&mut relay, OWN_ROWS, 50, 8, NOBODY);
    assert_new(&relay, 100, 0, 0);
    relay.leases[0].expiry = 50;
    assert_renewed(&relay, 100, 0, 0);
}

#[test]
fn an_id_from_foreign_tables_stays_as_it_is() {
    for id in [1 << 26, u32::MAX] {
        let mut relay = relay_with_row_0(1, 50, NOBODY);
        relay.leases[0].id = id;
        relay.leases[1].id = id % (1 << 26);
        relay.leases[1].expiry = 101;
        assert_renewed(&relay, 100, 0, 0);
    }
}

#[test]
fn two_live_rows_may_come_to_have_one_cookie() {
    let mut tables = relay_with_row_0(2, 50, NOBODY).encode();
    // A new lease whose drawn cookie is the old K.
    let random = [&K, &RANDOM[24..]].concat();
    assert_eq!(ask_with(&mut tables, 100, 0, &[2, 0], &random), Some((NEW_ID, K, 700)));
    assert_renewed(&decoded(&tables), 100, 1, 0);
    assert_eq!(close(&mut tables, 0, 101, 0, &mut [0; 64]).number, 0);
    assert_eq!(ask(&mut tables, 102, 1, &REQUEST_WITH_K), Some((7, K, 702)));
    let rows = decoded(&tables).leases;
    assert!([0, 1].iter().all(|&row| rows[row].is_live(102) && rows[row].cookie == K));
    assert_eq!([rows[0].holder, rows[1].holder], [1, NOBODY]);
}

#[test]
fn a_partner_whose_rows_are_all_live_is_refused_the_owner_of_one_too() {
    let mut relay = relay_with_row_0(1, 200, NOBODY);
    for row in 1..OWN_ROWS {
        set_row(&mut relay, row, 101, 100 + row as u32, NOBODY);
    }
    assert_refused(&relay, 100, 0);
    assert_renewed(&relay, 101, 0, 0);
}

#[test]
fn the_holder_of_a_live_row_is_refused_another() {
    let mut relay = relay_with_row_0(1, 50, NOBODY);
    set_row(&mut relay, 1, 101, 8, 0);
    assert_refused(&relay, 100, 0);
    assert_renewed(&relay, 101, 0, 0);
}

#[test]
fn a_drawn_cookie_that_is_live_refuses_though_it_isn_t_used() {
    let mut relay = relay_with_row_0(1, 50, NOBODY);
    set_row(&mut relay, 1, 101, 8, NOBODY);
    relay.leases[1].cookie = NEW_COOKIE;
    assert_refused(&relay, 100, 0);
    assert_renewed(&relay, 101, 0, 0);
}

#[test]
fn no_free_candidate_refuses_though_none_is_used() {
    let mut relay = relay_with_row_0(1, 50, NOBODY);
    set_row(&mut relay, LEASES - 2, 101, NEW_ID, NOBODY);
    set_row(&mut relay, LEASES - 1, 101, u32::from_be_bytes([9; 4]) % (1 << 26), NOBODY);
    assert_eq!(RANDOM[28..], [9; 52]);
    assert_refused(&relay, 100, 0);
    assert_renewed(&relay, 101, 0, 0);
}

#[test]
fn a_new_lease_takes_the_earliest_row_cookie_or_not() {
    let mut relay = relay_with_row_0(1, 60, NOBODY);
    for lease in &mut relay.leases[..OWN_ROWS] {
        lease.expiry = 60;
    }
    relay.leases[0].cookie = [0; 24];
    (relay.leases[1].expiry, relay.leases[3].expiry, relay.leases[9].expiry) = (101, 40, 40);
    assert_new(&relay, 100, 0, 3);
    let mut tables = relay.encode();
    assert_eq!(ask(&mut tables, 100, 0, &[2, 0]), Some((NEW_ID, NEW_COOKIE, 700)));
    assert_eq!(decoded(&tables).leases[3].holder, 0);
    relay.leases[OWN_ROWS - 1].expiry = 39;
    assert_new(&relay, 100, 0, OWN_ROWS - 1);
}

#[test]
fn a_request_without_a_cookie_renews_nothing() {
    let mut relay = relay_with_row_0(1, 50, NOBODY);
    relay.leases[0].cookie = [0; 24];
    let mut tables = relay.encode();
    assert_eq!(ask(&mut tables, 100, 0, &[2, 0]), Some((NEW_ID, NEW_COOKIE, 700)));
    assert_eq!(decoded(&tables).leases[0], relay.leases[0]);
}
