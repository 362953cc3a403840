//! Every function of the relay with every kind of argument, those of one call in every combination: sizes of tables, times,
//! terms, connection numbers, lengths of buffers, messages and random bytes. Each call of a connection is explained, too, and is
//! handed a map of any kind; fresh starts are handed one of each.

use compare::amount;
use compare::difference::Difference;
use compare::random::Random;
use compare::reasons::{agree, truth};
use compare::relay;
use compare::relay::boundary::{Call, Kind, Proved};
use compare::relay::{maps, terms};
use compare::tally::Tally;
use engine::relay::{BUFFER, RANDOM};
use model::{Relay, State, StoredTerm, Tables, CONNECTIONS, TIME_LIMIT};

/// The latest time in the tables.
const CLOCK: u64 = 1_000;
const TIMES: [u64; 10] =
    [0, CLOCK - 1, CLOCK, CLOCK + 1, CLOCK + 30, CLOCK + 60, TIME_LIMIT - 1, TIME_LIMIT, 1 << 63, u64::MAX];

/// Six connections in different states, and numbers that none has.
const NUMBERS: [u64; 13] = [
    IN_SESSION,
    IN_SESSION + 1,
    SILENT,
    AWAITING,
    CLOSED,
    LAST,
    LAST + 1,
    255,
    256,
    1 << 32,
    (1 << 32) + IN_SESSION,
    1 << 63,
    u64::MAX,
];
const IN_SESSION: u64 = 0;
const SILENT: u64 = 2;
const AWAITING: u64 = 3;
const CLOSED: u64 = 4;
const LAST: u64 = CONNECTIONS as u64 - 1;

/// Lengths of a buffer.
const ROOMS: [usize; 5] = [0, 1, BUFFER - 1, BUFFER, BUFFER + 1];
const RANDOM_LENGTHS: [usize; 4] = [0, RANDOM - 1, RANDOM, RANDOM + 1];

fn messages() -> Vec<Vec<u8>> {
    vec![vec![], vec![13], vec![9], vec![1, 1], vec![2, 0], vec![3, 0], vec![11; BUFFER + 1]]
}

/// Connections 0 and 1 in a session, 2 silent since it was asked, 3 awaiting, 4 closed, the last one open.
fn tables() -> Tables {
    let mut relay = Relay::fresh(CLOCK, StoredTerm::default());
    for open in [IN_SESSION, IN_SESSION + 1, SILENT, LAST] {
        relay.connections[open as usize].set_state(State::Open);
    }
    (relay.connections[0].peer, relay.connections[1].peer) = (1, 0);
    for (number, record) in relay.connections.iter_mut().enumerate() {
        record.sent = CLOCK - number as u64 % 40;
    }
    let silent = &mut relay.connections[SILENT as usize];
    (silent.unanswered, silent.asked) = (1, CLOCK - 30);
    relay.connections[AWAITING as usize].set_state(State::Awaiting);
    relay.encode()
}

type Table = fn(&mut Tables) -> &mut Vec<u8>;
type Size = fn(usize) -> usize;

/// The tables, one of them with another size.
fn of_other_sizes() -> Vec<Tables> {
    let all: [Table; 3] =
        [|tables| &mut tables.connections, |tables| &mut tables.leases, |tables| &mut tables.allowances];
    let sizes: [Size; 4] = [|_| 0, |right| right - 1, |right| right + 1, |right| 2 * right];
    let resized = |(table, size): (Table, Size)| {
        let mut tables = tables();
        let right = table(&mut tables).len();
        table(&mut tables).resize(size(right), 0);
        tables
    };
    pairs(all, sizes).map(resized).collect()
}

/// Every call of a connection but messages.
fn calls(connection: u64) -> Vec<Kind> {
    let opens = ROOMS.map(|reply| Kind::Open { connection, reply });
    let closes = ROOMS.map(|relay| Kind::Close { connection, relay });
    let keepalives = pairs(ROOMS, ROOMS).map(|(reply, relay)| Kind::Keepalive { connection, reply, relay });
    opens.into_iter().chain(closes).chain(keepalives).collect()
}

fn messages_of(connection: u64) -> Vec<Kind> {
    let mut all = Vec::new();
    for message in messages() {
        for (reply, relay) in pairs(ROOMS, ROOMS) {
            let with = |length| {
                let (message, random) = (message.clone(), vec![9; length]);
                Kind::Message { connection, message, random, reply, relay }
            };
            all.extend(RANDOM_LENGTHS.map(with));
        }
    }
    all
}

fn pairs<A: Copy, B: Copy, const M: usize, const N: usize>(
    left: [A; M],
    right: [B; N],
) -> impl Iterator<Item = (A, B)> {
    left.into_iter().flat_map(move |one| right.into_iter().map(move |other| (one, other)))
}

/// The maps for these tables: that which agrees, those that do but for the bit of a connection in each state, of zeros, of ones,
/// and any.
fn maps_for(random: &mut Random, tables: &Tables) -> Vec<u64> {
    let agreeing = maps::agreeing(tables);
    let but_for_a_bit = [IN_SESSION, SILENT, AWAITING, CLOSED, LAST].map(|connection| agreeing ^ 1 << connection);
    [&[agreeing, 0, u64::MAX, random.number()], &but_for_a_bit[..]].concat()
}

/// What calls came to.
struct Made {
    random: Random,
    answers: Tally,
    maps: maps::Reached,
}

impl Made {
    fn new() -> Self {
        Self { random: amount::random(), answers: Tally::default(), maps: maps::Reached::default() }
    }

    /// Explains the call and makes it.
    fn compare(&mut self, tables: &Tables, call: &Call) -> Result<(), Difference> {
        let reason = agree::explain(&Proved, tables, call)?;
        truth::check(&Proved, tables, call, &reason)?;
        let maps = maps_for(&mut self.random, tables);
        let map = self.random.choice(&maps);
        let outcome = relay::agree::call(&Proved, tables, map, call)?;
        self.answers.count(call.name(), outcome.answer.number);
        self.maps.count(tables, call, &outcome);
        Ok(())
    }

    /// Asserts that each call had just these answers, with maps that agree and with others.
    fn assert_just(&self, answers: &[(&str, &[u32])]) {
        println!("{}\n{}", self.maps, self.answers);
        self.answers.assert_just(answers);
        self.maps.assert_answers(answers);
    }
}

#[test]
fn all_arguments() -> Result<(), Difference> {
    let (mut made, tables) = (Made::new(), tables());
    for now in TIMES {
        for kind in NUMBERS.into_iter().flat_map(|connection| [calls(connection), messages_of(connection)].concat()) {
            made.compare(&tables, &Call { now, kind })?;
        }
    }
    made.assert_just(&[
        ("open", &[0, 2, 3, 4, 5]),
        ("message", &[0, 2, 3, 4, 5, 6, 7, 8]),
        ("close", &[0, 2, 3, 4, 5]),
        ("keepalive", &[0, 2, 3, 4, 5]),
    ]);
    Ok(())
}

#[test]
fn tables_of_other_sizes() -> Result<(), Difference> {
    let mut made = Made::new();
    for tables in of_other_sizes() {
        for now in TIMES {
            for kind in NUMBERS.into_iter().flat_map(calls) {
                made.compare(&tables, &Call { now, kind })?;
            }
        }
        for kind in messages_of(IN_SESSION) {
            made.compare(&tables, &Call { now: CLOCK, kind })?;
        }
    }
    made.assert_just(&["open", "message", "close", "keepalive"].map(|name| (name, &[1][..])));
    Ok(())
}

#[test]
fn fresh_starts() -> Result<(), Difference> {
    let (mut reached, mut reached_maps) = (terms::Reached::default(), maps::Reached::default());
    let mut random = amount::random();
    for tables in of_other_sizes().into_iter().chain([tables()]) {
        for now in TIMES {
            for term in terms::edges() {
                let call = Call { now, kind: Kind::Fresh { term } };
                for map in maps_for(&mut random, &tables) {
                    let outcome = relay::agree::call(&Proved, &tables, map, &call)?;
                    reached.count_start(&tables, &call, &outcome.answer);
                    reached_maps.count(&tables, &call, &outcome);
                }
            }
        }
    }
    println!("{reached}\n{reached_maps}");
    reached.assert_starts();
    reached_maps.assert_answers(&[("fresh", &[0, 1, 2, 6])]);
    Ok(())
}
