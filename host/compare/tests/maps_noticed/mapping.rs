//! A relay whose ways to keep and to read the map can be replaced one by one.

use compare::relay::boundary::{Boundary, Call, Kind, Lent, Second};
use engine::relay::{Answer, PartnerConnections, Rebuilt, CONNECTIONS as TABLE, NOBODY};
use model::{Relay, State, Tables, CONNECTIONS, PARTNERS};

pub const EACH: usize = CONNECTIONS / PARTNERS;

/// What a call does to its caller's connection.
#[derive(Clone, Copy, Debug, PartialEq, Eq)]
pub enum Effect {
    Opened,
    Closed,
    /// The version isn't accepted.
    Rejected,
    TimedOut,
    /// Another call that is done.
    Kept,
    Refused,
}

/// A call, and what is answered, the map apart.
pub struct Made<'a> {
    pub call: &'a Call,
    pub answer: Answer,
    /// The map that it was handed.
    pub map: u64,
    before: &'a Tables,
    after: &'a Lent,
}

impl Made<'_> {
    pub fn effect(&self) -> Effect {
        match &self.call.kind {
            _ if self.answer.number != 0 => Effect::Refused,
            Kind::Open { .. } => Effect::Opened,
            Kind::Close { .. } => Effect::Closed,
            Kind::Message { .. } if self.answer.disconnect == 1 => Effect::Rejected,
            Kind::Keepalive { .. } if self.answer.disconnect == 1 => Effect::TimedOut,
            _ => Effect::Kept,
        }
    }

    /// Whether the caller's connection ends.
    pub fn ends(&self) -> bool {
        matches!(self.effect(), Effect::Closed | Effect::Rejected | Effect::TimedOut)
    }

    pub fn is_start(&self) -> bool {
        matches!(self.call.kind, Kind::Fresh { .. })
    }

    pub fn is_done(&self) -> bool {
        self.answer.number == 0
    }

    /// Whether it is a done message of this type.
    pub fn is_done_message(&self, message_type: u8) -> bool {
        self.is_done() && self.call.message().first() == Some(&message_type)
    }

    /// The caller's bit; none for a fresh start or where there is no such connection.
    pub fn bit(&self) -> u64 {
        self.call.caller().map_or(0, |caller| 1 << caller)
    }

    /// The bits of the caller's partner.
    pub fn bits_of_partner(&self) -> u64 {
        let first = self.call.caller().map(|caller| caller / EACH * EACH);
        first.map_or(0, |first| (u64::MAX >> (CONNECTIONS - EACH)) << first)
    }

    /// The bit of whom something is relayed to.
    pub fn bit_of_destination(&self) -> u64 {
        if self.answer.destination == NOBODY {
            0
        } else {
            1 << self.answer.destination
        }
    }

    /// The caller's state before the call, on tables of the right sizes.
    pub fn state_before(&self) -> Option<State> {
        let before = Relay::decode(self.before)?;
        Some(before.connections[self.call.caller()?].state())
    }

    /// The map of the tables before the call, and after it.
    pub fn map_before(&self) -> u64 {
        rebuilt(&self.before.connections, |state| state == 1 || state == 2)
    }

    pub fn map_after(&self) -> u64 {
        rebuilt(self.after.connections.lend(), |state| state == 1 || state == 2)
    }

    /// The right map: what it was, but for this bit.
    pub fn right(&self) -> u64 {
        self.with(self.bit())
    }

    /// The map if this were the caller's bit.
    pub fn with(&self, bit: u64) -> u64 {
        match self.effect() {
            _ if self.is_start() && self.is_done() => 0,
            Effect::Opened => self.map | bit,
            Effect::Closed | Effect::Rejected | Effect::TimedOut => self.map & !bit,
            Effect::Kept | Effect::Refused => self.map,
        }
    }
}

/// The map after a call.
pub type After = fn(&Made) -> u64;
/// What a map says of a partner.
pub type Find = fn(u64, u64) -> [u32; 3];
/// The answer and the map of a connection table.
pub type Rebuild = fn(&[u8]) -> (u32, u64);

/// A way to keep and to read the map; for all else it is the second implementation.
#[derive(Clone, Copy)]
pub struct Mapping {
    pub after: After,
    pub find: Find,
    pub rebuild: Rebuild,
}

/// As the papers say.
pub const RIGHT: Mapping = Mapping { after: |made| made.right(), find: found, rebuild: rebuilt_if_whole };

/// The partner's bits, from the lowest.
pub fn bits_of(map: u64, partner: u64) -> u64 {
    map >> (EACH as u64 * partner) & ((1 << EACH) - 1)
}

pub const NO_PARTNER: [u32; 3] = [3, 0, NOBODY];

pub fn found(map: u64, partner: u64) -> [u32; 3] {
    if partner >= PARTNERS as u64 {
        return NO_PARTNER;
    }
    let bits = bits_of(map, partner);
    let place = bits.trailing_ones();
    let lowest = if place as usize == EACH { NOBODY } else { EACH as u32 * partner as u32 + place };
    [0, bits.count_ones(), lowest]
}

/// The map of as many records as the table has, up to all, with those states as not closed.
pub fn rebuilt(table: &[u8], is_taken: fn(u8) -> bool) -> u64 {
    let records = table.chunks(TABLE / CONNECTIONS).take(CONNECTIONS).enumerate();
    records.fold(0, |map, (connection, record)| map | u64::from(is_taken(record[0])) << connection)
}

fn rebuilt_if_whole(table: &[u8]) -> (u32, u64) {
    whole(table, |table| rebuilt(table, |state| state == 1 || state == 2))
}

/// The map that is read so, or the refusal of a table of another size.
pub fn whole(table: &[u8], map: impl Fn(&[u8]) -> u64) -> (u32, u64) {
    if table.len() == TABLE {
        (0, map(table))
    } else {
        (1, 0)
    }
}

impl Boundary for Mapping {
    fn call(&self, call: &Call, lent: &mut Lent) -> Answer {
        let before = lent.tables();
        let answer = Second.call(call, lent);
        let made = Made { call, answer, map: lent.map, before: &before, after: lent };
        Answer { map: (self.after)(&made), ..answer }
    }

    fn connections_of(&self, map: u64, partner: u64) -> PartnerConnections {
        let [number, connections, lowest] = (self.find)(map, partner);
        PartnerConnections { number, connections, lowest }
    }

    fn rebuild(&self, connections: &[u8]) -> Rebuilt {
        let (number, map) = (self.rebuild)(connections);
        Rebuilt { number, map }
    }
}
