//! What the host gets from the map of the connections, and the map of a table, against the second implementation.

use std::hint::black_box;
use std::time::Duration;

use engine::relay;
use server::{CONNECTIONS_EACH, PARTNERS};

use super::measure::{batch, Comparison};
use super::{compare, Aim, Limit, Section};
use crate::Failure;

/// All partners' connections.
const CONNECTIONS: usize = PARTNERS * CONNECTIONS_EACH;
/// The one that is asked about.
const PARTNER: usize = PARTNERS / 2;
/// The state of an open connection, the first byte of its record.
const OPEN: u8 = 2;

pub fn section() -> Result<Section, Failure> {
    let next = compare("the next number, the last one alone being free".into(), &mut NextNumber::last())?;
    let rebuilt = compare("the map of a table".into(), &mut Rebuilding::every_other())?;
    let text = "nothing got from a map or a table slower than by the second implementation";
    let aim = Aim { text, row: None, limit: Limit::Ratio(1.0) };
    Ok(Section { rows: vec![next, rebuilt], aims: vec![aim] })
}

/// How many connections a partner has, and which number is next.
struct NextNumber {
    map: u64,
    expected: [u32; 3],
}

impl NextNumber {
    /// Of the partner only the last number is free.
    fn last() -> Self {
        let last = (PARTNER + 1) * CONNECTIONS_EACH - 1;
        Self { map: !(1 << last), expected: [0, CONNECTIONS_EACH as u32 - 1, last as u32] }
    }
}

impl Comparison for NextNumber {
    fn engine(&mut self) -> Option<Duration> {
        batch(|| {
            let told = relay::connections_of(black_box(self.map), black_box(PARTNER as u64));
            [told.number, told.connections, told.lowest] == self.expected
        })
    }

    fn other(&mut self) -> Option<Duration> {
        batch(|| model::connections_of(black_box(self.map), black_box(PARTNER as u64)).numbers() == self.expected)
    }
}

/// A table of connections and its map.
struct Rebuilding {
    table: Vec<u8>,
    map: u64,
}

impl Rebuilding {
    /// Every other connection is open.
    fn every_other() -> Self {
        let mut table = vec![0; relay::CONNECTIONS];
        table.iter_mut().step_by(2 * relay::CONNECTIONS / CONNECTIONS).for_each(|state| *state = OPEN);
        Self { table, map: (0..CONNECTIONS).step_by(2).fold(0, |map, connection| map | 1 << connection) }
    }
}

impl Comparison for Rebuilding {
    fn engine(&mut self) -> Option<Duration> {
        batch(|| relay::rebuild(black_box(&self.table)) == relay::Rebuilt { number: 0, map: self.map })
    }

    fn other(&mut self) -> Option<Duration> {
        batch(|| model::rebuild(black_box(&self.table)) == model::Rebuilt { number: 0, map: self.map })
    }
}

#[cfg(test)]
mod tests {
    use super::{Comparison, NextNumber, Rebuilding};

    #[test]
    fn both_sides_get_what_is_meant() {
        let (mut next, mut rebuilding) = (NextNumber::last(), Rebuilding::every_other());
        assert!(next.engine().is_some() && next.other().is_some());
        assert!(rebuilding.engine().is_some() && rebuilding.other().is_some());
        next.expected[2] -= 1;
        rebuilding.map ^= 1;
        assert!(next.engine().is_none() && next.other().is_none());
        assert!(rebuilding.engine().is_none() && rebuilding.other().is_none());
    }
}
