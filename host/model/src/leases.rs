//! Leases: granting, extending, and who holds one.

use crate::relay::{partner_of, partner_of_row, Relay};
use crate::requests::RandomBytes;

/// The four conditions of a lease, each with what it yields.
#[derive(Clone, Copy, Debug)]
pub struct Offer {
    /// "the connection holds no live row"
    pub holds_none: bool,
    /// "the partner has a row that isn't live": the one that a new lease takes
    pub row: Option<usize>,
    /// "the draw's bytes 0-23 aren't the cookie of a live row of the partner"
    pub cookie_is_new: bool,
    /// "one of the candidates is free": the first
    pub id: Option<u32>,
}

/// The four conditions, in the scope's order.
#[derive(Clone, Copy, Debug, PartialEq, Eq)]
pub enum Condition {
    HoldsNone = 1,
    RowLeft = 2,
    CookieIsNew = 3,
    FreeId = 4,
}

impl Offer {
    /// Those that fail, in the scope's order.
    pub fn failed(self) -> impl Iterator<Item = Condition> {
        let all = [
            (Condition::HoldsNone, self.holds_none),
            (Condition::RowLeft, self.row.is_some()),
            (Condition::CookieIsNew, self.cookie_is_new),
            (Condition::FreeId, self.id.is_some()),
        ];
        all.into_iter().filter(|(_, holds)| !holds).map(|(condition, _)| condition)
    }

    /// The row and id that a new lease takes, if all four hold.
    fn accepted(self) -> Option<(usize, u32)> {
        if self.holds_none && self.cookie_is_new {
            self.row.zip(self.id)
        } else {
            None
        }
    }
}

impl Relay {
    /// How the conditions of a lease stand for this open connection.
    pub fn offer(&self, caller: usize, random: RandomBytes, now: u64) -> Offer {
        let partner = partner_of(caller);
        Offer {
            holds_none: !self.live_rows(partner, now).any(|(row, _)| self.holder_of(row) == Some(caller)),
            row: self.row_of_new_lease(partner, now),
            cookie_is_new: self.live_rows(partner, now).all(|(_, lease)| lease.cookie != random.cookie()),
            id: random.candidates().find(|&id| self.is_free(id, now)),
        }
    }

    /// "new leases take the row with the earliest expiry among those not live, the lowest on a tie"
    fn row_of_new_lease(&self, partner: usize, now: u64) -> Option<usize> {
        let not_live = self.rows_of(partner).filter(|(_, lease)| !lease.is_live(now));
        // Of several with the least key, this gives the first.
        not_live.min_by_key(|(_, lease)| lease.expiry).map(|(row, _)| row)
    }

    /// Grants the lease and gives its id, cookie and expiry, or does nothing: "Whether a lease is accepted is decided
    /// as in 01, cookie or not. If accepted, and [there is such a row, it] is renewed for this connection with its id
    /// and cookie, and no new row is used."
    pub(crate) fn lease(
        &mut self,
        caller: usize,
        cookie: Option<&[u8]>,
        random: RandomBytes,
        now: u64,
    ) -> Option<(u32, [u8; 24], u64)> {
        let (new_row, new_id) = self.offer(caller, random, now).accepted()?;
        let renewed = cookie.and_then(|cookie| self.row_to_renew(partner_of(caller), cookie, now));
        let expiry = self.expiry_from(now);
        let lease = &mut self.leases[renewed.unwrap_or(new_row)];
        if renewed.is_none() {
            (lease.id, lease.cookie) = (new_id, random.cookie());
        }
        (lease.holder, lease.expiry) = (caller as u8, expiry);
        Some((lease.id, lease.cookie, lease.expiry))
    }

    /// Extends the lease and gives its expiry.
    pub(crate) fn extend(&mut self, caller: usize, cookie: &[u8], now: u64) -> Option<u64> {
        let row = self.row_to_extend(caller, cookie, now)?;
        self.leases[row].expiry = self.expiry_from(now);
        Some(self.leases[row].expiry)
    }

    /// The expiry of a lease that is granted now: "Extensions and Item 2's renewals use the same term." So an extension can
    /// make a lease end earlier than it would have.
    fn expiry_from(&self, now: u64) -> u64 {
        now + self.common.term.seconds()
    }

    /// "extended exactly if a live row of the partner, held by this connection, has that cookie (the lowest such row)"
    pub fn row_to_extend(&self, caller: usize, cookie: &[u8], now: u64) -> Option<usize> {
        let mut live = self.live_rows(partner_of(caller), now);
        let extended = live.find(|&(row, lease)| self.holder_of(row) == Some(caller) && lease.cookie == cookie);
        extended.map(|(row, _)| row)
    }

    /// "A holder counts exactly if it is an open connection of the row's partner."
    pub fn holder_of(&self, row: usize) -> Option<usize> {
        let holder = usize::from(self.leases[row].holder);
        (self.is_open(holder) && partner_of(holder) == partner_of_row(row)).then_some(holder)
    }

    /// "sets byte 12 to 255 in the partner's rows that name this connection", live or not; "The lease runs on".
    pub(crate) fn release_leases(&mut self, connection: usize) {
        for lease in self.rows_of_mut(partner_of(connection)) {
            if usize::from(lease.holder) == connection {
                lease.holder = crate::NOBODY;
            }
        }
    }

    /// "one is free if no live row of all 128 has it"
    fn is_free(&self, id: u32, now: u64) -> bool {
        !self.leases.iter().any(|lease| lease.is_live(now) && lease.id == id)
    }
}
