//! Relays to try calls on.

use model::{fresh, message, open, Answer, Relay, Tables};

/// Tables that nobody has made a relay of.
pub fn anything() -> Tables {
    Tables { connections: vec![7; 4096], leases: vec![7; 5120], allowances: vec![7; 144] }
}

/// A fresh relay at this time, of the usual term.
pub fn relay(now: u64) -> Tables {
    relay_of_term(now, 0)
}

/// The same of the term that is named.
pub fn relay_of_term(now: u64, term: u64) -> Tables {
    let mut tables = anything();
    assert_eq!(fresh(&mut tables, 0, now, term).number, 0);
    tables
}

/// A fresh relay with these connections open.
pub fn relay_with(now: u64, connections: &[u64]) -> Tables {
    with_open(relay(now), now, connections)
}

/// The relay, these connections opened.
pub fn with_open(mut tables: Tables, now: u64, connections: &[u64]) -> Tables {
    for &connection in connections {
        assert_eq!(open(&mut tables, 0, now, connection, &mut [0; 64]).number, 0);
        assert_eq!(send(&mut tables, now, connection, &[1, 1]).answer.number, 0);
    }
    tables
}

pub struct Sent {
    pub answer: Answer,
    pub reply: Vec<u8>,
    pub relay: Vec<u8>,
}

/// The random bytes of every message here: the first candidate is 0x04000001.
pub const RANDOM: [u8; 80] = {
    let mut bytes = [9; 80];
    [bytes[24], bytes[25], bytes[26], bytes[27]] = [4, 0, 0, 1];
    bytes
};

pub fn send(tables: &mut Tables, now: u64, connection: u64, bytes: &[u8]) -> Sent {
    let (mut reply, mut relay) = (vec![0; 64], vec![0; 64.max(bytes.len())]);
    let answer = message(tables, 0, now, connection, bytes, &RANDOM, &mut reply, &mut relay);
    reply.truncate(answer.reply);
    relay.truncate(answer.relay);
    Sent { answer, reply, relay }
}

/// Asks for a session under the id of the random bytes, and gives the status.
pub fn establish_with_id_1(tables: &mut Tables, now: u64, connection: u64) -> u8 {
    send(tables, now, connection, &[6, 0, 0, 0, 1]).reply[5]
}

/// Sets the level and the time of the last charge of partner 0.
pub fn set_allowance(tables: &mut Tables, level: u64, updated: u64) {
    let mut relay = Relay::decode(tables).expect("tables of the right sizes");
    (relay.allowances[0].level, relay.allowances[0].updated) = (level, updated);
    *tables = relay.encode();
}

/// Connection 1 holds id 1, connections 0 and 2 nothing; all are open and free.
pub fn relay_with_a_lease() -> Tables {
    let mut tables = relay_with(100, &[0, 1, 2]);
    assert_eq!(send(&mut tables, 100, 1, &[2, 0]).reply[..2], [3, 1]);
    tables
}

/// The level of partner 0.
pub fn level(tables: &Tables) -> u64 {
    Relay::decode(tables).expect("tables of the right sizes").allowances[0].level
}

/// Connection 0 in a session with connection 1, which holds id 1.
pub fn relay_in_session(now: u64) -> Tables {
    let mut tables = relay_with(now, &[0, 1]);
    assert_eq!(send(&mut tables, now, 1, &[2, 0]).reply[..6], [3, 1, 0, 0, 0, 1]);
    assert_eq!(establish_with_id_1(&mut tables, now, 0), 0);
    tables
}
