//! The two relays, called with the same memory and giving the same kind of answer.

use engine::relay::{self, Answer, BUFFER, RANDOM};
use engine::RelayBuffer;
use model::Tables;

/// A call by a connection, and the answer that it must get, but for the map and the record.
pub struct Call {
    pub connection: u64,
    pub kind: Kind,
    pub expected: Answer,
}

impl Call {
    /// Whether this is the answer. What becomes of the map is seen where it is kept, with the tables, and the record has the
    /// time.
    pub fn is_answered_by(&self, answer: Answer) -> bool {
        Answer { map: self.expected.map, record: self.expected.record, ..answer } == self.expected
    }
}

pub enum Kind {
    Open,
    Message(Vec<u8>),
    Close,
    Keepalive,
}

/// All that a call is lent but its message; between calls, the state of a relay.
#[derive(Clone, PartialEq, Eq)]
pub struct Lent {
    pub now: u64,
    pub tables: Tables,
    /// The map of the connections, which goes with the tables.
    pub map: u64,
    pub random: [u8; RANDOM],
    pub reply: [u8; BUFFER],
    pub relay: RelayBuffer,
}

impl Lent {
    /// Clears the buffers, so that what an earlier call wrote can't pass for what the next one should.
    pub fn clear(&mut self) {
        self.reply.fill(0);
        self.relay.fill(0);
    }
}

pub trait Relay {
    /// Makes a call, and keeps the map that it gives back.
    fn call(call: &Call, lent: &mut Lent) -> Answer;
}

/// The proved engine, through the C boundary.
pub struct Engine;

impl Relay for Engine {
    fn call(call: &Call, lent: &mut Lent) -> Answer {
        let tables = relay::Tables {
            connections: &mut lent.tables.connections,
            leases: &mut lent.tables.leases,
            allowances: &mut lent.tables.allowances,
        };
        let (map, now, connection) = (lent.map, lent.now, call.connection);
        let (reply, relay) = (&mut lent.reply, &mut lent.relay);
        let answer = match &call.kind {
            Kind::Open => relay::open(tables, map, now, connection, reply),
            Kind::Message(bytes) => relay::message(tables, map, now, connection, bytes, &lent.random, reply, relay),
            Kind::Close => relay::close(tables, map, now, connection, relay),
            Kind::Keepalive => relay::keepalive(tables, map, now, connection, reply, relay),
        };
        lent.map = answer.map;
        answer
    }
}

/// The second implementation.
pub struct Second;

impl Relay for Second {
    fn call(call: &Call, lent: &mut Lent) -> Answer {
        let (tables, map, now, connection) = (&mut lent.tables, lent.map, lent.now, call.connection);
        let (reply, relay) = (&mut lent.reply, &mut lent.relay);
        let answer = match &call.kind {
            Kind::Open => model::open(tables, map, now, connection, reply),
            Kind::Message(bytes) => model::message(tables, map, now, connection, bytes, &lent.random, reply, relay),
            Kind::Close => model::close(tables, map, now, connection, relay),
            Kind::Keepalive => model::keepalive(tables, map, now, connection, reply, relay),
        };
        lent.map = answer.map;
        Answer::from(answer.numbers())
    }
}
