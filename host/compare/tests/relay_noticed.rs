//! The comparison of the relays can fail: each wrong answer and each wrong byte is noticed, and the right ones aren't.

use compare::relay::agree;
use compare::relay::boundary::{Boundary, Call, Kind, Lent, Second};
use compare::relay::spoiled::SPOILED_BYTES;
use engine::relay::{Answer, RECORD};
use model::{Relay, State, StoredTerm, Tables};

/// Answers as the second implementation does, and then spoils something.
#[derive(Clone, Copy)]
struct Spoiled {
    answer: fn(&mut Answer),
    lent: fn(&mut Lent),
}

const UNSPOILED: Spoiled = Spoiled { answer: |_| {}, lent: |_| {} };

const SPOILED_ANSWERS: [fn(&mut Answer); 9] = [
    |answer| answer.number ^= 9,
    |answer| answer.reply ^= 1,
    |answer| answer.relay ^= 1,
    |answer| answer.destination ^= 1,
    |answer| answer.disconnect ^= 1,
    |answer| answer.map ^= 1,
    |answer| answer.map ^= 1 << 63,
    |answer| answer.record[0] ^= 1,
    |answer| answer.record[RECORD - 1] ^= 1,
];

impl Boundary for Spoiled {
    fn call(&self, call: &Call, lent: &mut Lent) -> Answer {
        let mut answer = Second.call(call, lent);
        (self.answer)(&mut answer);
        (self.lent)(lent);
        answer
    }
}

/// The map that agrees with the tables here: connection 0 is open.
const MAP: u64 = 1;

/// A keepalive of an open connection, which is accepted, and one that comes too late.
fn accepted_and_refused() -> (Tables, [Call; 2]) {
    let mut tables = Relay::fresh(100, StoredTerm::default()).encode();
    tables.connections[0] = 2;
    let keepalive = |now| Call {
        now,
        kind: Kind::Message { connection: 0, message: vec![13], random: vec![0; 80], reply: 64, relay: 64 },
    };
    (tables, [100, 1 << 40].map(keepalive))
}

/// A keepalive call for an open connection that is sent nothing, asked or closed, as its record says, and one that comes too
/// late.
fn keepalive_calls() -> [(Tables, Call); 4] {
    [(0, 71, 100), (0, 70, 100), (1, 40, 100), (0, 70, 1 << 40)].map(|(unanswered, time, now)| {
        let mut relay = Relay::fresh(100, StoredTerm::default());
        let record = &mut relay.connections[0];
        record.set_state(State::Open);
        (record.unanswered, record.sent, record.asked) = (unanswered, time, time);
        (relay.encode(), Call { now, kind: Kind::Keepalive { connection: 0, reply: 64, relay: 64 } })
    })
}

#[test]
fn a_wrong_answer() {
    let (tables, calls) = accepted_and_refused();
    let messages = calls.map(|call| (tables.clone(), call));
    for (tables, call) in messages.into_iter().chain(keepalive_calls()) {
        assert!(agree::call(&UNSPOILED, &tables, MAP, &call).is_ok());
        for answer in SPOILED_ANSWERS {
            assert!(agree::call(&Spoiled { answer, ..UNSPOILED }, &tables, MAP, &call).is_err());
        }
    }
}

#[test]
fn a_wrong_byte_of_anything_lent() {
    let (tables, calls) = accepted_and_refused();
    for call in calls {
        for lent in SPOILED_BYTES {
            assert!(agree::call(&Spoiled { lent, ..UNSPOILED }, &tables, MAP, &call).is_err());
        }
    }
}
