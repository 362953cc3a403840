//! "Which connection number next?": the request's examples, and each of its sentences.

use model::{close, connections_of, fresh, keepalive, message, open, partner_of, rebuild};
use model::{Rebuilt, Relay, State, StoredTerm, Tables, CONNECTIONS, NOBODY, PARTNERS, TIME_LIMIT};

use crate::support::{anything, relay, relay_in_session, relay_with, set_allowance, RANDOM};

const RECORD: usize = 64;
const EACH: usize = CONNECTIONS / PARTNERS;
const ALL: u64 = u64::MAX;
/// A number of bits here and there, which agrees with no tables of these tests.
const DISAGREEING: u64 = 0x5a00_0000_00ff_a5f0;

fn bit(connection: u64) -> u64 {
    1 << connection
}

/// The map after a message, which must be answered with this number.
fn after(tables: &mut Tables, map: u64, connection: u64, bytes: &[u8], number: u32) -> u64 {
    let answer = message(tables, map, 100, connection, bytes, &RANDOM, &mut [0; 64], &mut [0; 64]);
    assert_eq!(answer.number, number);
    answer.map
}

fn after_open(tables: &mut Tables, map: u64, connection: u64) -> u64 {
    let answer = open(tables, map, 100, connection, &mut [0; 64]);
    assert_eq!(answer.number, 0);
    answer.map
}

fn after_close(tables: &mut Tables, map: u64, connection: u64) -> u64 {
    let answer = close(tables, map, 100, connection, &mut [0; 64]);
    assert_eq!(answer.number, 0);
    answer.map
}

/// A relay at 100 with connection 0 awaiting.
fn awaiting() -> Tables {
    let mut tables = relay(100);
    after_open(&mut tables, 0, 0);
    tables
}

/// A table of closed connections but for these.
fn connections_in(states: &[(usize, u8)]) -> Vec<u8> {
    let mut connections = vec![0; RECORD * CONNECTIONS];
    for &(connection, state) in states {
        connections[RECORD * connection] = state;
    }
    connections
}

#[test]
fn open_9_on_a_fresh_relay() {
    assert_eq!(after_open(&mut relay(100), 0, 9), 0x200);
}

#[test]
fn what_the_map_says_of_a_partner() {
    let examples = [
        (0xfb00, 1, [0, 7, 10]),
        (0xfb00, 2, [0, 0, 16]),
        (0xff00, 1, [0, 8, 255]),
        (0, 0, [0, 0, 0]),
        (ALL, 7, [0, 8, 255]),
        (ALL >> 1, 7, [0, 7, 63]),
        (0x80, 0, [0, 1, 0]),
    ];
    for (map, partner, numbers) in examples {
        assert_eq!(connections_of(map, partner).numbers(), numbers, "{map:#x}, {partner}");
    }
}

#[test]
fn a_partner_number_of_8_or_more() {
    for partner in [8, 9, 15, 16, 64, 255, 256, 1 << 32, (1 << 32) + 1, 1 << 63, u64::MAX] {
        for map in [0, ALL, DISAGREEING] {
            assert_eq!(connections_of(map, partner).numbers(), [3, 0, 255], "{map:#x}, {partner}");
        }
    }
}

/// "or 255 exactly if all eight are taken"
#[test]
fn every_pattern_of_every_partner() {
    for partner in 0..PARTNERS {
        for pattern in 0..1_u64 << EACH {
            let others = [0, !((ALL >> (CONNECTIONS - EACH)) << (EACH * partner))];
            for map in others.map(|others| others | pattern << (EACH * partner)) {
                let found = connections_of(map, partner as u64);
                let taken = |place: &usize| pattern >> place & 1 == 1;
                let lowest = (0..EACH).find(|place| !taken(place)).map(|place| EACH * partner + place);
                assert_eq!((found.number, found.connections), (0, (0..EACH).filter(taken).count()));
                assert_eq!(found.lowest, lowest.unwrap_or(NOBODY.into()));
                assert_eq!(found.lowest == usize::from(NOBODY), pattern == (1 << EACH) - 1);
            }
        }
    }
}

#[test]
fn a_map_of_ones() {
    let mut tables = relay(100);
    assert_eq!(after_open(&mut tables, ALL, 0), ALL);
    assert_eq!(after_close(&mut tables, ALL, 0), ALL - 1);
}

#[test]
fn rebuilt_maps() {
    let states = [(0, 1), (5, 3), (6, 255), (9, 2), (63, 2)];
    assert_eq!(rebuild(&connections_in(&states)), Rebuilt { number: 0, map: 0x8000_0000_0000_0201 });
    assert_eq!(rebuild(&relay(100).connections), Rebuilt { number: 0, map: 0 });
    for state in 0..=255 {
        let expected = if state == 1 || state == 2 { bit(17) } else { 0 };
        assert_eq!(rebuild(&connections_in(&[(17, state)])), Rebuilt { number: 0, map: expected }, "{state}");
    }
}

#[test]
fn tables_of_another_size() {
    for length in [0, 1, 64, 4_032, 4_095, 4_097, 4_160, 5_120, 8_192] {
        assert_eq!(rebuild(&vec![2; length]), Rebuilt { number: 1, map: 0 }, "{length}");
    }
    assert_eq!(rebuild(&[2; 4_096]), Rebuilt { number: 0, map: ALL });
}

#[test]
fn a_fresh_relay_s_map_is_0_and_a_refused_start_gives_it_back() {
    for map in [0, 1, ALL, DISAGREEING] {
        assert_eq!(fresh(&mut anything(), map, 100, 0).map, 0);
        for (now, term, number) in [(TIME_LIMIT, 0, 2), (100, 599, 6)] {
            let answer = fresh(&mut relay(100), map, now, term);
            assert_eq!((answer.number, answer.map), (number, map));
        }
        let mut small = anything();
        small.leases.pop();
        assert_eq!((fresh(&mut small, map, 100, 0).number, fresh(&mut small, map, 100, 0).map), (1, map));
    }
}

/// "A call changes only the bits of connections that it opens or closes", whatever the others say.
#[test]
fn just_the_bit_of_the_caller() {
    for map in [0, ALL, DISAGREEING, !DISAGREEING] {
        assert_eq!(after_open(&mut relay(100), map, 9), map | bit(9));
        assert_eq!(after(&mut awaiting(), map, 0, &[1, 1], 0), map);
        assert_eq!(after(&mut awaiting(), map, 0, &[1, 0], 0), map & !bit(0));
        assert_eq!(after_close(&mut awaiting(), map, 0), map & !bit(0));
        let mut in_session = relay_in_session(100);
        for bytes in [&[13][..], &[11, 7], &[2, 0], &[6, 0, 0, 0, 1]] {
            assert_eq!(after(&mut in_session, map, 0, bytes, 0), map);
        }
        assert_eq!(after(&mut in_session.clone(), map, 0, &[9], 0), map);
        assert_eq!(after_close(&mut in_session, map, 1), map & !bit(1));
    }
}

#[test]
fn a_timeout_clears_its_bit_and_asking_none() {
    for map in [0, ALL, DISAGREEING, !DISAGREEING] {
        let mut tables = relay_in_session(1_000);
        for (now, expected) in [(1_029, map), (1_030, map), (1_089, map), (1_090, map & !bit(1))] {
            let answer = keepalive(&mut tables, map, now, 1, &mut [0; 64], &mut [0; 64]);
            assert_eq!((answer.number, answer.map), (0, expected), "at {now}");
        }
    }
}

#[test]
fn a_refused_call_gives_back_the_map() {
    for map in [0, bit(0), ALL, DISAGREEING] {
        let mut tables = relay_with(100, &[0]);
        for (bytes, number) in [(&[][..], 6), (&[1, 0], 7), (&[9], 8)] {
            assert_eq!(after(&mut tables, map, 0, bytes, number), map);
        }
        set_allowance(&mut tables, 0, 100);
        assert_eq!(after(&mut tables, map, 0, &[13], 9), map);
        let mut small = tables.clone();
        small.allowances.pop();
        for (now, connection, room, number) in
            [(TIME_LIMIT, 0, 64, 2), (100, 64, 64, 3), (100, 1, 64, 4), (100, 0, 63, 5)]
        {
            let answer = close(&mut tables, map, now, connection, &mut vec![0; room]);
            assert_eq!((answer.number, answer.map), (number, map));
            assert_eq!(close(&mut small, map, now, connection, &mut vec![0; room]).map, map);
        }
        assert_eq!(open(&mut tables, map, 100, 0, &mut [0; 64]).map, map);
        assert_eq!(open(&mut tables, map, 100, 1, &mut [0; 64]).number, 9);
        assert_eq!(open(&mut tables, map, 100, 1, &mut [0; 64]).map, map);
    }
}

/// States above 2 are closed, so that such a connection can be opened.
#[test]
fn a_state_above_2_that_is_opened() {
    for state in [3, 255] {
        let mut tables = relay(100);
        tables.connections[0] = state;
        assert_eq!(rebuild(&tables.connections).map, 0);
        assert_eq!(after_open(&mut tables, 0, 0), 1);
    }
}

/// "if the map agreed before, it agrees after", and the number that is named is the one to open.
#[test]
fn a_partner_that_takes_all_its_numbers() {
    let (mut tables, mut map) = (relay(100), 0);
    for place in 0..EACH {
        let found = connections_of(map, 3);
        assert_eq!(found.numbers(), [0, place as u32, (3 * EACH + place) as u32]);
        map = after_open(&mut tables, map, found.lowest as u64);
        assert_eq!(rebuild(&tables.connections).map, map);
    }
    assert_eq!(connections_of(map, 3).numbers(), [0, EACH as u32, 255]);
    map = after_close(&mut tables, map, 29);
    assert_eq!(connections_of(map, 3).numbers(), [0, EACH as u32 - 1, 29]);
    assert_eq!(Relay::decode(&tables).map(|relay| relay.map()), Some(map));
    assert!((0..CONNECTIONS).all(|connection| partner_of(connection) == 3 || map >> connection & 1 == 0));
}

#[test]
fn what_agrees_with_records() {
    let mut relay = Relay::fresh(100, StoredTerm::default());
    assert_eq!(relay.map(), 0);
    relay.connections[0].set_state(State::Awaiting);
    relay.connections[63].set_state(State::Open);
    assert_eq!(relay.map(), bit(0) | bit(63));
}
