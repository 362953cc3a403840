//! The map: what is read in maps and tables by themselves, and what each kind of call does to the bit of each connection, with
//! maps that agree and others; what is expected is put down here.

use compare::amount;
use compare::difference::Difference;
use compare::relay::boundary::{Boundary, Call, Kind, Proved};
use compare::relay::{agree, read_maps};
use engine::relay::{self, PartnerConnections, Rebuilt, BUFFER, NOBODY, RANDOM};
use model::{Relay, State, StoredTerm, Tables, CONNECTIONS, PARTNERS, TIME_LIMIT};

const NOW: u64 = 1_000;
const EACH: usize = CONNECTIONS / PARTNERS;

#[test]
fn maps_and_tables_by_themselves() -> Result<(), Difference> {
    read_maps::compare(&Proved)?.assert_all();
    Ok(())
}

#[test]
fn the_request_s_examples() {
    let examples = [
        (0xfb00, 1, (0, 7, 10)),
        (0xfb00, 2, (0, 0, 16)),
        (0xff00, 1, (0, 8, NOBODY)),
        (0xff00, 8, (3, 0, NOBODY)),
        (u64::MAX, 1 << 32, (3, 0, NOBODY)),
        (0, u64::MAX, (3, 0, NOBODY)),
    ];
    for (map, partner, (number, connections, lowest)) in examples {
        let expected = PartnerConnections { number, connections, lowest };
        assert_eq!(Proved.connections_of(map, partner), expected, "{map:#x}, {partner}");
    }
    let mut table = vec![0; relay::CONNECTIONS];
    for (connection, state) in [(0, 1), (5, 3), (6, 255), (9, 2), (63, 2)] {
        table[relay::CONNECTIONS / CONNECTIONS * connection] = state;
    }
    assert_eq!(Proved.rebuild(&table), Rebuilt { number: 0, map: 0x8000_0000_0000_0201 });
    assert_eq!(Proved.rebuild(&table[1..]), Rebuilt { number: 1, map: 0 });
}

/// What becomes of the caller's bit.
#[derive(Clone, Copy)]
enum Bit {
    Set,
    Cleared,
    Kept,
}

impl Bit {
    fn after(self, map: u64, caller: usize) -> u64 {
        match self {
            Self::Set => map | 1 << caller,
            Self::Cleared => map & !(1 << caller),
            Self::Kept => map,
        }
    }
}

/// The caller's state before the call, and whether it is in a session with another of its partner.
#[derive(Clone, Copy)]
enum Caller {
    In(State),
    InSession,
    /// In a session, and asked so many seconds ago.
    Asked(u64),
}

impl Caller {
    fn tables(self, caller: usize) -> Tables {
        let mut relay = Relay::fresh(NOW, StoredTerm::default());
        let state = if let Self::In(state) = self { state } else { State::Open };
        relay.connections[caller].set_state(state);
        relay.connections[caller].sent = NOW;
        if !matches!(self, Self::In(_)) {
            let other = caller ^ 1;
            relay.connections[other].set_state(State::Open);
            (relay.connections[caller].peer, relay.connections[other].peer) = (other as u8, caller as u8);
        }
        if let Self::Asked(seconds) = self {
            (relay.connections[caller].unanswered, relay.connections[caller].asked) = (1, NOW - seconds);
        }
        relay.encode()
    }
}

fn open(connection: u64) -> Kind {
    Kind::Open { connection, reply: BUFFER }
}

fn close(connection: u64) -> Kind {
    Kind::Close { connection, relay: BUFFER }
}

fn find_out(connection: u64) -> Kind {
    Kind::Keepalive { connection, reply: BUFFER, relay: BUFFER }
}

fn message(connection: u64, bytes: &[u8]) -> Kind {
    Kind::Message { connection, message: bytes.to_vec(), random: vec![9; RANDOM], reply: BUFFER, relay: BUFFER }
}

type Made = fn(u64) -> Kind;

/// Each call with the time after which it is made, its answer, and what becomes of the caller's bit.
const CALLS: [(Caller, u64, Made, u32, Bit); 25] = [
    (Caller::In(State::Closed), 0, open, 0, Bit::Set),
    (Caller::In(State::Awaiting), 0, |caller| message(caller, &[1, 1]), 0, Bit::Kept),
    (Caller::In(State::Awaiting), 0, |caller| message(caller, &[1, 0]), 0, Bit::Cleared),
    (Caller::In(State::Awaiting), 0, close, 0, Bit::Cleared),
    (Caller::In(State::Open), 0, close, 0, Bit::Cleared),
    (Caller::InSession, 0, close, 0, Bit::Cleared),
    (Caller::Asked(60), 0, find_out, 0, Bit::Cleared),
    (Caller::Asked(59), 0, find_out, 0, Bit::Kept),
    (Caller::In(State::Awaiting), 30, find_out, 0, Bit::Kept),
    (Caller::InSession, 29, find_out, 0, Bit::Kept),
    (Caller::In(State::Open), 0, |caller| message(caller, &[2, 0]), 0, Bit::Kept),
    (Caller::In(State::Open), 0, |caller| message(caller, &[13]), 0, Bit::Kept),
    (Caller::InSession, 0, |caller| message(caller, &[9]), 0, Bit::Kept),
    (Caller::InSession, 0, |caller| message(caller, &[11, 7]), 0, Bit::Kept),
    (Caller::In(State::Closed), TIME_LIMIT, open, 2, Bit::Kept),
    (Caller::In(State::Open), 0, open, 4, Bit::Kept),
    (Caller::In(State::Closed), 0, close, 4, Bit::Kept),
    (Caller::In(State::Closed), 0, find_out, 4, Bit::Kept),
    (Caller::In(State::Closed), 0, |connection| Kind::Open { connection, reply: 0 }, 5, Bit::Kept),
    (Caller::In(State::Open), 0, |connection| Kind::Close { connection, relay: 0 }, 5, Bit::Kept),
    (Caller::Asked(60), 0, |connection| Kind::Keepalive { connection, reply: 0, relay: BUFFER }, 5, Bit::Kept),
    (Caller::In(State::Awaiting), 0, |caller| message(caller, &[1, 2]), 6, Bit::Kept),
    (Caller::In(State::Awaiting), 0, |caller| message(caller, &[13]), 7, Bit::Kept),
    (Caller::In(State::Open), 0, |caller| message(caller, &[1, 0]), 7, Bit::Kept),
    (Caller::In(State::Open), 0, |caller| message(caller, &[9]), 8, Bit::Kept),
];

#[test]
fn the_bit_of_each_connection() -> Result<(), Difference> {
    let mut random = amount::random();
    for caller in 0..CONNECTIONS {
        for (state, later, kind, number, bit) in CALLS {
            let (tables, call) = (state.tables(caller), Call { now: NOW + later, kind: kind(caller as u64) });
            let any = random.number();
            for map in [0, u64::MAX, 1 << caller, !(1 << caller), any, any ^ 1 << caller] {
                let answer = agree::call(&Proved, &tables, map, &call)?.answer;
                assert_eq!((answer.number, answer.map), (number, bit.after(map, caller)), "{call:?}, {map:#x}");
            }
        }
    }
    Ok(())
}

/// Without allowance an open and the version's answer, which would change the map, are refused with 9.
#[test]
fn refused_with_9() -> Result<(), Difference> {
    for caller in 0..CONNECTIONS {
        for (state, kind) in [(State::Closed, open(caller as u64)), (State::Awaiting, message(caller as u64, &[1, 0]))]
        {
            let mut relay = Relay::decode(&Caller::In(state).tables(caller)).expect("tables of the right sizes");
            relay.allowances.iter_mut().for_each(|allowance| allowance.level = 0);
            for map in [0, u64::MAX, relay.map(), 1 << caller] {
                let answer = agree::call(&Proved, &relay.encode(), map, &Call { now: NOW, kind: kind.clone() })?.answer;
                assert_eq!((answer.number, answer.map), (9, map));
            }
        }
    }
    Ok(())
}

/// Each partner opens the number that is named until none is left, closes one and gets it again.
#[test]
fn every_partner_takes_all_its_numbers() -> Result<(), Difference> {
    let (mut tables, mut map) = (Relay::fresh(NOW, StoredTerm::default()).encode(), 0);
    let mut make = |map: &mut u64, kind| -> Result<(), Difference> {
        let outcome = agree::call(&Proved, &tables, *map, &Call { now: NOW, kind })?;
        (tables, *map) = (outcome.lent.tables(), outcome.answer.map);
        assert_eq!(agree::rebuild(&Proved, &tables.connections)?, Rebuilt { number: 0, map: *map });
        Ok(())
    };
    for partner in 0..PARTNERS as u64 {
        let first = (EACH as u64 * partner) as u32;
        let found = |map, connections: usize, lowest| {
            let expected = PartnerConnections { number: 0, connections: connections as u32, lowest };
            assert_eq!(Proved.connections_of(map, partner), expected);
        };
        for place in 0..EACH {
            found(map, place, first + place as u32);
            make(&mut map, open((first + place as u32).into()))?;
        }
        found(map, EACH, NOBODY);
        make(&mut map, close((first + 2).into()))?;
        found(map, EACH - 1, first + 2);
        make(&mut map, open((first + 2).into()))?;
        found(map, EACH, NOBODY);
    }
    assert_eq!(map, u64::MAX);
    Ok(())
}
