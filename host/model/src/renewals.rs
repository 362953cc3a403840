//! Which row a lease request renews: "From now on a request's cookie is considered."

use crate::relay::Relay;

/// The parts of the sentence on the row that is renewed: "a row of the partner has that cookie, an expiry above 0, no
/// counting holder while live, and an id that no other live row has".
#[derive(Clone, Copy, Debug, PartialEq, Eq)]
pub enum Part {
    Cookie,
    Expiry,
    Holder,
    Id,
}

impl Relay {
    /// "the lowest such row" of the partner: the lowest that meets all four parts, whatever those below it lack.
    pub fn row_to_renew(&self, partner: usize, cookie: &[u8], now: u64) -> Option<usize> {
        let mut numbers = self.rows_of(partner).map(|(row, _)| row);
        numbers.find(|&row| self.failed_parts(row, cookie, now).next().is_none())
    }

    /// The parts that the row doesn't meet, in the sentence's order.
    pub fn failed_parts(&self, row: usize, cookie: &[u8], now: u64) -> impl Iterator<Item = Part> {
        let lease = &self.leases[row];
        let all = [
            (Part::Cookie, lease.cookie == cookie),
            (Part::Expiry, lease.expiry > 0),
            (Part::Holder, !self.is_held(row, now)),
            (Part::Id, self.others_with_id(row, now).next().is_none()),
        ];
        all.into_iter().filter(|(_, met)| !met).map(|(part, _)| part)
    }

    /// The opposite of "no counting holder while live": whom a row that isn't live names doesn't matter.
    fn is_held(&self, row: usize, now: u64) -> bool {
        self.leases[row].is_live(now) && self.holder_of(row).is_some()
    }

    /// The other live rows that have the row's id, of all partners: "an id that no other live row has".
    pub fn others_with_id(&self, row: usize, now: u64) -> impl Iterator<Item = usize> + '_ {
        let id = self.leases[row].id;
        let others = self.leases.iter().enumerate().filter(move |&(other, _)| other != row);
        others.filter(move |(_, lease)| lease.is_live(now) && lease.id == id).map(|(other, _)| other)
    }
}
