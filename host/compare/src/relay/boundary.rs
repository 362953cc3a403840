//! The relay's C boundary as a trait, and the two relays behind it.

use engine::relay::{self, Answer, PartnerConnections, Rebuilt, Replayed};
use model::Tables;

use crate::guarded::Guarded;

/// No buffer is lent that is longer; every message is shorter.
const LONGEST_BUFFER: usize = 70_000;

/// A call, with all that it brings but the tables and the map. Of buffers that are only written it has the lengths.
#[derive(Clone, Debug)]
pub struct Call {
    pub now: u64,
    pub kind: Kind,
}

#[derive(Clone, Debug)]
pub enum Kind {
    Fresh { term: u64 },
    Open { connection: u64, reply: usize },
    Message { connection: u64, message: Vec<u8>, random: Vec<u8>, reply: usize, relay: usize },
    Close { connection: u64, relay: usize },
    Keepalive { connection: u64, reply: usize, relay: usize },
}

impl Kind {
    /// The number of the caller's connection.
    pub fn connection_mut(&mut self) -> Option<&mut u64> {
        match self {
            Self::Fresh { .. } => None,
            Self::Open { connection, .. }
            | Self::Message { connection, .. }
            | Self::Close { connection, .. }
            | Self::Keepalive { connection, .. } => Some(connection),
        }
    }

    /// The lengths of the buffers that are only written.
    pub fn rooms_mut(&mut self) -> Vec<&mut usize> {
        match self {
            Self::Fresh { .. } => vec![],
            Self::Open { reply: room, .. } | Self::Close { relay: room, .. } => vec![room],
            Self::Message { reply, relay, .. } | Self::Keepalive { reply, relay, .. } => vec![reply, relay],
        }
    }
}

impl Call {
    /// The call's name, for counts.
    pub fn name(&self) -> &'static str {
        match self.kind {
            Kind::Fresh { .. } => "fresh",
            Kind::Open { .. } => "open",
            Kind::Message { .. } => "message",
            Kind::Close { .. } => "close",
            Kind::Keepalive { .. } => "keepalive",
        }
    }

    /// The caller's connection, if there is such a one.
    pub fn caller(&self) -> Option<usize> {
        let connection = match self.kind {
            Kind::Fresh { .. } => return None,
            Kind::Open { connection, .. }
            | Kind::Message { connection, .. }
            | Kind::Close { connection, .. }
            | Kind::Keepalive { connection, .. } => connection,
        };
        (connection < model::CONNECTIONS as u64).then_some(connection as usize)
    }

    /// "Opens and messages other than SessionEnd are charged", and SessionEnd is of type 9.
    pub fn is_charged(&self) -> bool {
        match &self.kind {
            Kind::Open { .. } => true,
            Kind::Message { message, .. } => message.first() != Some(&9),
            Kind::Fresh { .. } | Kind::Close { .. } | Kind::Keepalive { .. } => false,
        }
    }

    /// The call's message; empty for another call.
    pub fn message(&self) -> &[u8] {
        match &self.kind {
            Kind::Message { message, .. } => message,
            _ => &[],
        }
    }

    fn random(&self) -> &[u8] {
        match &self.kind {
            Kind::Message { random, .. } => random,
            _ => &[],
        }
    }

    /// The lengths of the reply and the relay buffer.
    fn rooms(&self) -> [usize; 2] {
        match self.kind {
            Kind::Fresh { .. } => [0, 0],
            Kind::Open { reply, .. } => [reply, 0],
            Kind::Message { reply, relay, .. } | Kind::Keepalive { reply, relay, .. } => [reply, relay],
            Kind::Close { relay, .. } => [0, relay],
        }
    }

    /// Whether it names a length that no buffer has.
    pub fn has_length_beyond_memory(&self) -> bool {
        self.rooms().iter().any(|&room| room > LONGEST_BUFFER)
    }
}

/// Everything that a call is lent, each between guard bytes, and the map that it is handed.
#[derive(Clone)]
pub struct Lent {
    pub map: u64,
    pub connections: Guarded,
    pub leases: Guarded,
    pub allowances: Guarded,
    pub message: Guarded,
    pub random: Guarded,
    pub reply: Guarded,
    pub relay: Guarded,
}

impl Lent {
    /// A buffer of a length beyond memory is lent as long as one can be: a call only asks whether it is too short.
    pub fn new(tables: &Tables, map: u64, call: &Call) -> Self {
        let [reply, relay] = call.rooms().map(|room| room.min(LONGEST_BUFFER));
        Self {
            map,
            connections: Guarded::holding(&tables.connections),
            leases: Guarded::holding(&tables.leases),
            allowances: Guarded::holding(&tables.allowances),
            message: Guarded::holding(call.message()),
            random: Guarded::holding(call.random()),
            reply: Guarded::unwritten(reply),
            relay: Guarded::unwritten(relay),
        }
    }

    pub fn tables(&self) -> Tables {
        Tables {
            connections: self.connections.lend().to_vec(),
            leases: self.leases.lend().to_vec(),
            allowances: self.allowances.lend().to_vec(),
        }
    }

    pub fn set_tables(&mut self, tables: &Tables) {
        self.connections.lend_mut().copy_from_slice(&tables.connections);
        self.leases.lend_mut().copy_from_slice(&tables.leases);
        self.allowances.lend_mut().copy_from_slice(&tables.allowances);
    }

    /// All that is lent for reading or writing, with names for it.
    pub fn named(&self) -> [(&'static str, &Guarded); 7] {
        [
            ("connections", &self.connections),
            ("leases", &self.leases),
            ("allowances", &self.allowances),
            ("message", &self.message),
            ("random", &self.random),
            ("reply", &self.reply),
            ("relay", &self.relay),
        ]
    }
}

pub trait Boundary {
    /// Makes the call with what it is lent, which [`Lent::new`] has made for it.
    fn call(&self, call: &Call, lent: &mut Lent) -> Answer;

    /// What the map says of a partner: as the second implementation does, unless a relay has its own way.
    fn connections_of(&self, map: u64, partner: u64) -> PartnerConnections {
        let [number, connections, lowest] = model::connections_of(map, partner).numbers();
        PartnerConnections { number, connections, lowest }
    }

    /// The map of a connection table, likewise.
    fn rebuild(&self, connections: &[u8]) -> Rebuilt {
        let model::Rebuilt { number, map } = model::rebuild(connections);
        Rebuilt { number, map }
    }

    /// The replay of a journal from a start at this time with this term, likewise.
    fn replay(&self, allowances: &mut [u8], journal: &[u8], start: u64, term: u64) -> Replayed {
        replayed(&model::replay(allowances, journal, start, term))
    }

    /// The plain one, likewise.
    fn replay_plain(&self, allowances: &mut [u8], journal: &[u8], start: u64, term: u64) -> Replayed {
        replayed(&model::replay_plain(allowances, journal, start, term))
    }
}

/// What the second implementation says of a journal, as include/crondelith.h has it.
pub fn replayed(verdict: &model::Replayed) -> Replayed {
    let ([number, contradicted], place) = verdict.numbers();
    Replayed { number, contradicted, place }
}

/// The proved relay: the archive.
pub struct Proved;

impl Boundary for Proved {
    fn call(&self, call: &Call, lent: &mut Lent) -> Answer {
        let tables = relay::Tables {
            connections: lent.connections.lend_mut(),
            leases: lent.leases.lend_mut(),
            allowances: lent.allowances.lend_mut(),
        };
        let (message, random) = (lent.message.lend(), lent.random.lend());
        let (reply, relay) = (lent.reply.lend_mut(), lent.relay.lend_mut());
        let (map, now) = (lent.map, call.now);
        match call.kind {
            Kind::Fresh { term } => relay::fresh(tables, map, now, term),
            Kind::Open { connection, .. } => relay::open(tables, map, now, connection, reply),
            Kind::Message { connection, .. } => {
                relay::message(tables, map, now, connection, message, random, reply, relay)
            }
            Kind::Close { connection, .. } => relay::close(tables, map, now, connection, relay),
            Kind::Keepalive { connection, .. } => relay::keepalive(tables, map, now, connection, reply, relay),
        }
    }

    fn connections_of(&self, map: u64, partner: u64) -> PartnerConnections {
        relay::connections_of(map, partner)
    }

    fn rebuild(&self, connections: &[u8]) -> Rebuilt {
        relay::rebuild(connections)
    }

    fn replay(&self, allowances: &mut [u8], journal: &[u8], start: u64, term: u64) -> Replayed {
        relay::replay(allowances, journal, start, term)
    }

    fn replay_plain(&self, allowances: &mut [u8], journal: &[u8], start: u64, term: u64) -> Replayed {
        relay::replay_plain(allowances, journal, start, term)
    }
}

/// The second implementation, its answers put as include/crondelith.h has them.
pub struct Second;

impl Boundary for Second {
    fn call(&self, call: &Call, lent: &mut Lent) -> Answer {
        let mut tables = lent.tables();
        let (message, random) = (lent.message.lend(), lent.random.lend());
        let (reply, relay) = (lent.reply.lend_mut(), lent.relay.lend_mut());
        let (map, now) = (lent.map, call.now);
        let answer = match call.kind {
            Kind::Fresh { term } => model::fresh(&mut tables, map, now, term),
            Kind::Open { connection, .. } => model::open(&mut tables, map, now, connection, reply),
            Kind::Message { connection, .. } => {
                model::message(&mut tables, map, now, connection, message, random, reply, relay)
            }
            Kind::Close { connection, .. } => model::close(&mut tables, map, now, connection, relay),
            Kind::Keepalive { connection, .. } => model::keepalive(&mut tables, map, now, connection, reply, relay),
        };
        lent.set_tables(&tables);
        Answer::from(answer.numbers())
    }
}
