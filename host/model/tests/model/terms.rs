//! "An hour is too long": the terms that a host can name, the numbers that tables can hold, and how long leases last.

use model::{close, fresh, keepalive, open, Answer, Relay, State, StoredTerm, Tables, NOBODY, PARTNERS, TIME_LIMIT};

use crate::support::{anything, establish_with_id_1, relay, relay_of_term, send, with_open};

/// Terms that are named, with what is stored.
const ACCEPTED: [(u64, u64); 7] =
    [(0, 600), (600, 600), (601, 601), (3_600, 3_600), (3_601, 3_601), (86_399, 86_399), (86_400, 86_400)];

const REFUSED: [u64; 11] = [
    1,
    599,
    86_401,
    262_144,
    1 << 32,
    (1 << 32) + 600,
    (1 << 32) + 3_600,
    (1 << 40) + 600,
    1 << 63,
    (1 << 63) + 600,
    u64::MAX,
];

/// Numbers in the tables, with the seconds that leases last.
const STORED: [(u64, u64); 14] = [
    (0, 3_600),
    (1, 600),
    (599, 600),
    (600, 600),
    (601, 601),
    (3_599, 3_599),
    (3_600, 3_600),
    (86_399, 86_399),
    (86_400, 86_400),
    (86_401, 600),
    (1 << 32, 600),
    ((1 << 32) + 3_600, 600),
    (1 << 63, 600),
    (u64::MAX, 600),
];

const REFUSAL: Answer =
    Answer { number: 6, reply: 0, relay: 0, destination: NOBODY as usize, disconnect: false, map: 0, record: [0; 16] };

/// The cookie that the random bytes here give a lease.
const COOKIE: [u8; 24] = [9; 24];
const LEASE_REQUEST: &[u8] = &[2, 0];

fn lease_request_with_cookie() -> Vec<u8> {
    [&[2, 1], &COOKIE[..]].concat()
}

fn extension_request() -> Vec<u8> {
    [&[4], &COOKIE[..]].concat()
}

fn decoded(tables: &Tables) -> Relay {
    Relay::decode(tables).expect("tables of the right sizes")
}

/// Where the ninth record is: the term, and the clock.
const TERM: usize = 16 * PARTNERS;
const CLOCK: usize = TERM + 8;

/// The bytes of the ninth record's level.
fn stored(tables: &Tables) -> [u8; 8] {
    tables.allowances[TERM..CLOCK].try_into().expect("eight bytes")
}

/// At 100, with this number in the tables: connections 0 and 1 are open, and 0 leased id 1 until 200,000 with the cookie.
fn relay_with_stored(number: u64) -> Tables {
    let mut relay = Relay::fresh(100, StoredTerm(number));
    for connection in &mut relay.connections[..2] {
        connection.set_state(State::Open);
    }
    let lease = &mut relay.leases[0];
    (lease.expiry, lease.id, lease.holder, lease.cookie) = (200_000, 1, 0, COOKIE);
    relay.encode()
}

/// The same, the lease expired at 90 and nobody's.
fn relay_with_old_lease(number: u64) -> Tables {
    let mut relay = decoded(&relay_with_stored(number));
    (relay.leases[0].expiry, relay.leases[0].holder) = (90, NOBODY);
    relay.encode()
}

/// What the reply to a lease or an extension request says, which a row of the connection says too.
fn expiration(tables: &mut Tables, now: u64, connection: u64, request: &[u8]) -> u64 {
    let reply = send(tables, now, connection, request).reply;
    assert_eq!(reply[1], 1, "granted or extended");
    let expiration = u64::from_be_bytes(reply[reply.len() - 8..].try_into().expect("eight bytes"));
    let relay = decoded(tables);
    let mut held = relay.leases.iter().filter(|lease| u64::from(lease.holder) == connection);
    assert!(held.any(|lease| lease.expiry == expiration));
    expiration
}

#[test]
fn what_is_stored_of_a_named_term() {
    for (term, number) in ACCEPTED {
        let mut tables = anything();
        assert_eq!(fresh(&mut tables, 0, 100, term), Answer { number: 0, ..REFUSAL });
        assert_eq!(tables, Relay::fresh(100, StoredTerm(number)).encode());
        assert_eq!(stored(&tables), number.to_be_bytes());
        assert_eq!(tables.allowances[CLOCK..], 100_u64.to_be_bytes());
    }
}

#[test]
fn other_terms_are_answered_with_6() {
    for term in REFUSED {
        for mut tables in [anything(), relay(100), relay_with_stored(0)] {
            let before = tables.clone();
            assert_eq!(fresh(&mut tables, 0, 100, term), REFUSAL, "{term}");
            assert_eq!(tables, before);
        }
    }
}

#[test]
fn the_order_of_refusals() {
    for term in REFUSED.into_iter().chain(ACCEPTED.map(|(term, _)| term)) {
        for time in [TIME_LIMIT, u64::MAX] {
            assert_eq!(fresh(&mut anything(), 0, time, term).number, 2, "{term}");
        }
        for time in [100, TIME_LIMIT] {
            let mut tables = anything();
            tables.allowances.pop();
            assert_eq!(fresh(&mut tables, 0, time, term).number, 1, "{term}");
        }
    }
    assert_eq!(fresh(&mut relay(1_000), 0, 999, 599).number, 6);
    assert_eq!(fresh(&mut relay(1_000), 0, 999, 600).number, 0);
    assert_eq!(fresh(&mut relay(0), 0, TIME_LIMIT - 1, 599).number, 6);
}

#[test]
fn the_ninth_record_is_no_allowance() {
    let mut tables = relay(100);
    let bytes: Vec<u8> = (1..=16).collect();
    tables.allowances[TERM..].copy_from_slice(&bytes);
    let relay = decoded(&tables);
    assert_eq!((relay.common.term, relay.clock()), (StoredTerm(0x0102_0304_0506_0708), 0x090a_0b0c_0d0e_0f10));
    assert_eq!(relay.allowances.len(), PARTNERS);
    assert_eq!(relay.encode(), tables);
}

#[test]
fn new_leases_of_a_named_term() {
    for (term, last) in [(0, 700), (600, 700), (3_600, 3_700), (86_400, 86_500)] {
        let mut tables = with_open(relay_of_term(100, term), 100, &[0]);
        assert_eq!(expiration(&mut tables, 100, 0, LEASE_REQUEST), last);
    }
}

#[test]
fn how_the_stored_number_reads() {
    for (number, seconds) in STORED {
        assert_eq!(StoredTerm(number).seconds(), seconds, "{number}");
        let mut new = relay_with_old_lease(number);
        assert_eq!(expiration(&mut new, 100, 1, LEASE_REQUEST), 100 + seconds, "{number}");
        let mut renewed = relay_with_old_lease(number);
        assert_eq!(expiration(&mut renewed, 150, 1, &lease_request_with_cookie()), 150 + seconds, "{number}");
        let mut extended = relay_with_stored(number);
        assert_eq!(expiration(&mut extended, 200, 0, &extension_request()), 200 + seconds, "{number}");
        for tables in [new, renewed, extended] {
            assert_eq!(stored(&tables), number.to_be_bytes());
        }
    }
}

#[test]
fn live_for_as_long_as_the_number_reads() {
    for (number, seconds) in STORED {
        for (now, status) in [(100 + seconds - 1, 5), (100 + seconds, 1)] {
            let mut tables = relay_with_old_lease(number);
            send(&mut tables, 100, 1, LEASE_REQUEST);
            assert_eq!(establish_with_id_1(&mut tables, now, 1), status, "{number}");
        }
    }
}

#[test]
fn an_extension_can_make_a_lease_end_earlier() {
    let mut tables = relay_with_stored(86_400);
    assert_eq!(expiration(&mut tables, 1_000, 0, &extension_request()), 87_400);
    tables.allowances[TERM..CLOCK].copy_from_slice(&600_u64.to_be_bytes());
    assert_eq!(expiration(&mut tables, 1_001, 0, &extension_request()), 1_601);
    assert_eq!(send(&mut tables, 1_601, 0, &extension_request()).reply, [5, 0]);
}

#[test]
fn a_lease_at_the_latest_time_ends_later() {
    let mut tables = with_open(relay_of_term(TIME_LIMIT - 1, 86_400), TIME_LIMIT - 1, &[0]);
    assert_eq!(expiration(&mut tables, TIME_LIMIT - 1, 0, LEASE_REQUEST), TIME_LIMIT + 86_399);
}

#[test]
fn a_refused_request_changes_no_term() {
    for (number, _) in STORED {
        let mut tables = relay_with_stored(number);
        assert_eq!(send(&mut tables, 100, 0, LEASE_REQUEST).reply, [3, 0]);
        assert_eq!(send(&mut tables, 100, 1, &extension_request()).reply, [5, 0]);
        assert_eq!(send(&mut tables, 99, 1, LEASE_REQUEST).answer.number, 2);
        assert_eq!(stored(&tables), number.to_be_bytes());
    }
}

#[test]
fn no_call_but_a_fresh_start_writes_the_term() {
    for (number, _) in STORED {
        let mut tables = relay_with_stored(number);
        let establish = [6, 0, 0, 0, 1];
        for message in [&establish[..], &[11, 7], &[13], &[9]] {
            assert_eq!(send(&mut tables, 100, 1, message).answer.number, 0);
        }
        assert_eq!(open(&mut tables, 0, 101, 9, &mut [0; 64]).number, 0);
        for (now, disconnect) in [(131, false), (191, true)] {
            assert_eq!(keepalive(&mut tables, 0, now, 9, &mut [0; 64], &mut [0; 64]).disconnect, disconnect);
        }
        assert_eq!(close(&mut tables, 0, 200, 0, &mut [0; 64]).number, 0);
        assert_eq!(stored(&tables), number.to_be_bytes());
        assert_eq!(fresh(&mut tables, 0, 200, 0).number, 0);
        assert_eq!(stored(&tables), 600_u64.to_be_bytes());
    }
}
