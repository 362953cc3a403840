//! What both relays read in maps and in connection tables by themselves, compared, and counts of what was reached.

use std::fmt;

use engine::relay::{self, NOBODY};
use model::{CONNECTIONS, PARTNERS};

use super::boundary::Boundary;
use super::{agree, maps, tables};
use crate::amount;
use crate::difference::Difference;
use crate::random::Random;
use crate::tally::Tally;

/// The connections of a partner, and the bytes of a connection's record.
const EACH: usize = CONNECTIONS / PARTNERS;
const RECORD: usize = relay::CONNECTIONS / CONNECTIONS;

/// Maps of random bits, and tables from anywhere.
const RANDOM_MAPS: u64 = 10_000;
const RANDOM_TABLES: u64 = 500;

/// What was reached: the names of counts with their numbers.
#[derive(Default)]
pub struct Reached(Tally);

/// Compares all of it, until something differs.
pub fn compare(subject: &impl Boundary) -> Result<Reached, Difference> {
    let mut random = amount::random();
    let mut reached = Reached::default();
    reached.patterns(subject, &mut random)?;
    reached.other_maps(subject, &mut random)?;
    reached.states(subject, &mut random)?;
    reached.tables_from_anywhere(subject, &mut random)?;
    reached.sizes(subject, &mut random)?;
    Ok(reached)
}

impl Reached {
    /// Every pattern of each partner's bits, where the bits of all others are 0, are 1 and are any.
    fn patterns(&mut self, subject: &impl Boundary, random: &mut Random) -> Result<(), Difference> {
        for first in (0..CONNECTIONS).step_by(EACH) {
            let own = (u64::MAX >> (CONNECTIONS - EACH)) << first;
            for pattern in 0..1_u64 << EACH {
                for others in [0, u64::MAX, random.number()] {
                    self.ask_all(subject, others & !own | pattern << first)?;
                }
            }
        }
        Ok(())
    }

    /// Maps with a single bit, with all but one, with all up to one, and any.
    fn other_maps(&mut self, subject: &impl Boundary, random: &mut Random) -> Result<(), Difference> {
        for connection in 0..CONNECTIONS {
            let bit = 1 << connection;
            [bit, !bit, bit - 1, !(bit - 1)].into_iter().try_for_each(|map| self.ask_all(subject, map))?;
        }
        (0..amount::rounds(RANDOM_MAPS)).try_for_each(|_| self.ask_all(subject, random.number()))
    }

    /// Asks for each partner, and for numbers that none has.
    fn ask_all(&mut self, subject: &impl Boundary, map: u64) -> Result<(), Difference> {
        for partner in maps::partners() {
            let found = agree::connections_of(subject, map, partner)?;
            let number = if partner < PARTNERS as u64 { "partner" } else { "no partner" };
            self.0.count(number, found.number);
            if found.number == 0 {
                let place = if found.lowest == NOBODY { NOBODY } else { found.lowest % EACH as u32 };
                self.0.count("connections", found.connections);
                self.0.count("lowest place", place);
            }
        }
        Ok(())
    }

    /// Every state of each connection, beside any others.
    fn states(&mut self, subject: &impl Boundary, random: &mut Random) -> Result<(), Difference> {
        for connection in 0..CONNECTIONS {
            let mut table = random.bytes(relay::CONNECTIONS);
            for other in 0..CONNECTIONS {
                table[RECORD * other] = random.choice(&[0, 1, 2, 3, 255]);
            }
            for state in 0..=u8::MAX {
                table[RECORD * connection] = state;
                let bit = agree::rebuild(subject, &table)?.map >> connection & 1;
                self.0.count(name_of_state(state), bit as u32);
            }
        }
        Ok(())
    }

    fn tables_from_anywhere(&mut self, subject: &impl Boundary, random: &mut Random) -> Result<(), Difference> {
        for _ in 0..amount::rounds(RANDOM_TABLES) {
            let table = tables::any(random, 100).connections;
            let rebuilt = agree::rebuild(subject, &table)?;
            self.0.count("table of the right size", rebuilt.number);
            self.ask_all(subject, rebuilt.map)?;
        }
        Ok(())
    }

    /// Tables of every size up to one record more, and of twice the size, with no connection closed and with any bytes.
    fn sizes(&mut self, subject: &impl Boundary, random: &mut Random) -> Result<(), Difference> {
        let longest = 2 * relay::CONNECTIONS;
        for table in [vec![2; longest], random.bytes(longest)] {
            for size in (0..=relay::CONNECTIONS + RECORD).chain([longest - 1, longest]) {
                let rebuilt = agree::rebuild(subject, &table[..size])?;
                let name = match size {
                    relay::CONNECTIONS => "table of the right size",
                    ..relay::CONNECTIONS => "shorter table",
                    _ => "longer table",
                };
                self.0.count(name, rebuilt.number);
            }
        }
        Ok(())
    }

    /// Asserts that all of it was reached, and nothing that can't be.
    pub fn assert_all(&self) {
        println!("{self}");
        self.0.assert_just(&[("partner", &[0]), ("no partner", &[3])]);
        self.0.assert_just(&[("table of the right size", &[0]), ("shorter table", &[1]), ("longer table", &[1])]);
        for place in 0..EACH as u32 {
            self.0.assert_reached("connections", place, true);
            self.0.assert_reached("lowest place", place, true);
        }
        self.0.assert_reached("connections", EACH as u32, true);
        self.0.assert_reached("lowest place", NOBODY, true);
        self.0.assert_just(&STATES);
    }
}

/// The bit of a connection in each state.
const STATES: [(&str, &[u32]); 6] = [
    ("bit of state 0", &[0]),
    ("bit of state 1", &[1]),
    ("bit of state 2", &[1]),
    ("bit of state 3", &[0]),
    ("bit of states 4 to 254", &[0]),
    ("bit of state 255", &[0]),
];

fn name_of_state(state: u8) -> &'static str {
    let place = match state {
        0..4 => state.into(),
        4..255 => 4,
        255 => 5,
    };
    STATES[place].0
}

impl fmt::Display for Reached {
    fn fmt(&self, out: &mut fmt::Formatter) -> fmt::Result {
        self.0.write_rows(out)
    }
}
