//! Which connections aren't closed: "one 64-bit map, a bit per connection that isn't closed". Like the tables it is decoded,
//! here to a list with an entry for each connection, and encoded again.

use crate::checks::Refusal;
use crate::records::{Connection, State};
use crate::relay::{decode_all, partner_of, Relay, CONNECTIONS, PARTNERS};
use crate::NOBODY;

/// A fresh relay's.
pub(crate) const FRESH_MAP: u64 = 0;

/// For each connection whether the map has it as one that isn't closed. It may say anything.
#[derive(Clone, Copy)]
pub(crate) struct Map([bool; CONNECTIONS]);

impl Map {
    /// "bit c, from the lowest, for connection c"
    pub fn decode(number: u64) -> Self {
        Self(std::array::from_fn(|connection| number >> connection & 1 == 1))
    }

    pub fn encode(self) -> u64 {
        self.0.iter().rev().fold(0, |number, &taken| 2 * number + u64::from(taken))
    }

    /// The map that agrees with these records.
    fn of(records: &[Connection]) -> Self {
        Self(std::array::from_fn(|connection| !records[connection].is_closed()))
    }

    /// "A call changes only the bits of connections that it opens or closes": of all others the map says what it said, right
    /// or wrong.
    pub fn after_call(mut self, before: &Relay, after: &Relay) -> Self {
        for (taken, (before, after)) in self.0.iter_mut().zip(before.connections.iter().zip(&after.connections)) {
            if before.is_closed() != after.is_closed() {
                *taken = !after.is_closed();
            }
        }
        self
    }
}

impl Connection {
    fn is_closed(&self) -> bool {
        self.state() == State::Closed
    }
}

impl Relay {
    /// The map that agrees.
    pub fn map(&self) -> u64 {
        Map::of(&self.connections).encode()
    }
}

/// What the map says of a partner.
#[derive(Clone, Copy, Debug, PartialEq, Eq)]
pub struct PartnerConnections {
    /// 0, or 3 if there is no such partner.
    pub number: u32,
    /// How many it has.
    pub connections: usize,
    /// The lowest of its connections that is closed, or [`NOBODY`].
    pub lowest: usize,
}

impl PartnerConnections {
    /// The three numbers in the order above.
    pub fn numbers(self) -> [u32; 3] {
        [self.number, self.connections as u32, self.lowest as u32]
    }
}

/// "how many connections a partner has and the lowest closed number of that partner, or 255 exactly if all eight are taken. A
/// partner number of 8 or more is answered with 3, 0 and 255."
pub fn connections_of(map: u64, partner: u64) -> PartnerConnections {
    let nobody = usize::from(NOBODY);
    if partner >= PARTNERS as u64 {
        return PartnerConnections { number: Refusal::NoSuchConnection as u32, connections: 0, lowest: nobody };
    }
    let (mut connections, mut lowest) = (0, nobody);
    // From the highest on, so that the lowest is named last.
    for (connection, taken) in Map::decode(map).0.into_iter().enumerate().rev() {
        match taken {
            _ if partner_of(connection) as u64 != partner => {}
            true => connections += 1,
            false => lowest = connection,
        }
    }
    PartnerConnections { number: 0, connections, lowest }
}

/// The map of a connection table, by itself.
#[derive(Clone, Copy, Debug, PartialEq, Eq)]
pub struct Rebuilt {
    /// 0, or 1 if the table has another size.
    pub number: u32,
    pub map: u64,
}

/// "one that doesn't agree can be rebuilt, a table of another size being answered with 1 and 0"
pub fn rebuild(connections: &[u8]) -> Rebuilt {
    match decode_all::<Connection>(connections, CONNECTIONS) {
        Some(records) => Rebuilt { number: 0, map: Map::of(&records).encode() },
        None => Rebuilt { number: Refusal::TableSize as u32, map: 0 },
    }
}
