//! The map, checked on a run from its history alone: the calls, each with the map that it was handed, and their answers. From
//! these it knows which connections aren't closed. The table it only hands on, to have its map rebuilt.

use std::collections::BTreeSet;

use engine::relay::{PartnerConnections, Rebuilt, NOBODY};
use model::PARTNERS;

use super::agree::Outcome;
use super::boundary::{Boundary, Call, Kind};
use super::calls::connections_of;
use super::maps::NO_PARTNERS;
use super::monitor::Fault;

/// Follows a run call by call.
#[derive(Default)]
pub struct MapMonitor {
    /// The connections that were opened and have not ended since.
    taken: BTreeSet<usize>,
}

impl MapMonitor {
    /// Checks the next call of the run: it opens or ends its caller's connection, and of the map it was handed changes just
    /// this bit, or none.
    pub fn record(&mut self, call: &Call, outcome: &Outcome) -> Result<(), Fault> {
        let (map, answer) = (outcome.lent.map, &outcome.answer);
        let expected = match call.caller() {
            Some(caller) if answer.number == 0 => {
                let ends = matches!(call.kind, Kind::Close { .. }) || answer.disconnect == 1;
                let opens = matches!(call.kind, Kind::Open { .. });
                let changed = if ends { self.taken.remove(&caller) } else { opens && self.taken.insert(caller) };
                if changed != (opens || ends) {
                    return Err(Fault(format!("{call:?}: opened or ended twice")));
                }
                with_bit(map, caller, opens || !ends && has_bit(map, caller))
            }
            _ => map,
        };
        if answer.map == expected {
            return Ok(());
        }
        Err(Fault(format!("{call:?}: map {map:#x} became {:#x}, not {expected:#x}", answer.map)))
    }

    /// Checks what the relay says at the end of the run: the map of its table is that from history, and so is what that says of
    /// each partner.
    pub fn check_end(&self, subject: &impl Boundary, connections: &[u8]) -> Result<(), Fault> {
        let map = self.taken.iter().fold(0, |map, &connection| with_bit(map, connection, true));
        let rebuilt = subject.rebuild(connections);
        if rebuilt != (Rebuilt { number: 0, map }) {
            return Err(Fault(format!("{rebuilt:?}, but from history the map is {map:#x}")));
        }
        for partner in 0..PARTNERS {
            check_found(subject, map, partner as u64, self.found(partner))?;
        }
        let nobody = PartnerConnections { number: 3, connections: 0, lowest: NOBODY };
        NO_PARTNERS.iter().try_for_each(|&number| check_found(subject, map, number, nobody))
    }

    /// How many connections the partner has from history, and the first of its numbers that is left.
    fn found(&self, partner: usize) -> PartnerConnections {
        let lowest = connections_of(partner).find(|connection| !self.taken.contains(connection));
        let connections = connections_of(partner).filter(|connection| self.taken.contains(connection)).count();
        PartnerConnections {
            number: 0,
            connections: connections as u32,
            lowest: lowest.map_or(NOBODY, |number| number as u32),
        }
    }
}

fn has_bit(map: u64, connection: usize) -> bool {
    map & 1 << connection != 0
}

fn with_bit(map: u64, connection: usize, set: bool) -> u64 {
    map & !(1 << connection) | u64::from(set) << connection
}

fn check_found(subject: &impl Boundary, map: u64, partner: u64, expected: PartnerConnections) -> Result<(), Fault> {
    let found = subject.connections_of(map, partner);
    if found == expected {
        return Ok(());
    }
    Err(Fault(format!("partner {partner} in map {map:#x}: {found:?}, from history {expected:?}")))
}
