//! What a journal's records add up to, for each partner.

use engine::relay::Record;
use server::PARTNERS;

use super::entry::{Entry, DONE, USED_UP};

#[derive(Clone, Copy, Debug, Default, PartialEq, Eq)]
pub struct Figures {
    /// Calls that were done, free ones among them, and the units that they were charged.
    pub done: u64,
    pub charged: u64,
    /// Calls that were refused with 9, and the units that they would have cost.
    pub refused_with_9: u64,
    pub refused_units: u64,
    /// Calls that were refused with another answer.
    pub refused_otherwise: u64,
}

impl Figures {
    /// Those of each partner. Records of no partner are nobody's.
    pub fn of(records: &[Record]) -> [Self; PARTNERS] {
        let mut figures = [Self::default(); PARTNERS];
        for entry in records.iter().map(Entry::from) {
            if let Some(partner) = entry.partner() {
                figures[partner as usize].add(&entry);
            }
        }
        figures
    }

    fn add(&mut self, entry: &Entry) {
        match entry.answer {
            DONE => {
                self.done += 1;
                self.charged += u64::from(entry.charge);
            }
            USED_UP => {
                self.refused_with_9 += 1;
                self.refused_units += u64::from(entry.charge);
            }
            _ => self.refused_otherwise += 1,
        }
    }
}
