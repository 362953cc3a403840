//! Counts of what lease requests reached: conditions that fail, rows that are renewed or could have been, and rows that
//! new leases take.

use model::{partner_of, partner_of_row, Offer, Part, RandomBytes, Relay, Request, State, LEASES, NOBODY};

use super::agree::Outcome;
use super::boundary::{Call, Kind};
use crate::tally::Tally;

/// The conditions in the scope's order, under which a refusal is counted if it is the only one that fails.
const CONDITIONS: [&str; 4] =
    ["lease: holds one already", "lease: no row left", "lease: cookie is taken", "lease: no id is free"];

/// The same, if a row would be renewed were the lease accepted.
const CONDITIONS_OF_RENEWABLE: [&str; 4] = [
    "renewable: holds one already",
    "renewable: no row left",
    "renewable: cookie is taken",
    "renewable: no id is free",
];

/// Whom a renewed row named: see [`Holder`].
const RENEWED_EXPIRED: [&str; 7] = [
    "renewed expired: nobody's",
    "renewed expired: the caller's",
    "renewed expired: another's",
    "renewed expired: a number's",
    "renewed expired: a closed one's",
    "renewed expired: an awaiting's",
    "renewed expired: a neighbour's",
];
const RENEWED_LIVE: [&str; 7] = [
    "renewed live: nobody's",
    "renewed live: the caller's",
    "renewed live: another's",
    "renewed live: a number's",
    "renewed live: a closed one's",
    "renewed live: an awaiting's",
    "renewed live: a neighbour's",
];

/// What every comparison must have reached.
pub const EVERYWHERE: [&str; 30] = [
    CONDITIONS[0],
    CONDITIONS[1],
    CONDITIONS[2],
    CONDITIONS[3],
    CONDITIONS_OF_RENEWABLE[0],
    CONDITIONS_OF_RENEWABLE[1],
    CONDITIONS_OF_RENEWABLE[2],
    CONDITIONS_OF_RENEWABLE[3],
    "lease: several of these",
    RENEWED_EXPIRED[0],
    RENEWED_EXPIRED[1],
    RENEWED_EXPIRED[2],
    RENEWED_LIVE[0],
    "renewed: at its expiry",
    "renewed: lowest of several",
    "renewed: above one with it",
    "not renewed: a new cookie",
    "not renewed: a neighbour's",
    "not renewed: never leased",
    "not renewed: live and held",
    "not renewed: id live here",
    "not renewed: id live elsewhere",
    "new lease: never leased row",
    "new lease: expired row",
    "new lease: not lowest row",
    "new lease: tie, never leased",
    "new lease: tie, expired",
    "new lease: tie, not lowest",
    "new lease: first candidate",
    "new lease: later candidate",
];

/// What tables from anywhere must have reached beside; runs do hardly or never.
pub const ON_ANY_TABLES: [&str; 10] = [
    RENEWED_EXPIRED[3],
    RENEWED_EXPIRED[4],
    RENEWED_EXPIRED[5],
    RENEWED_EXPIRED[6],
    RENEWED_LIVE[3],
    RENEWED_LIVE[4],
    RENEWED_LIVE[5],
    RENEWED_LIVE[6],
    "renewed: id of one expiring",
    "renewed: id of 2^26 or more",
];

/// What runs must have reached beside: who renewed, compared with who held the row last.
pub const IN_RUNS: [&str; 4] = [
    "came back, live: the same",
    "came back, live: another",
    "came back, expired: the same",
    "came back, expired: another",
];

/// A lease request, and the relay that it is made of.
pub struct Asked<'a> {
    relay: &'a Relay,
    caller: usize,
    cookie: Option<&'a [u8]>,
    random: RandomBytes<'a>,
    now: u64,
}

impl<'a> Asked<'a> {
    /// None for another call.
    pub fn new(relay: &'a Relay, call: &'a Call) -> Option<Self> {
        let Kind::Message { message, random, .. } = &call.kind else {
            return None;
        };
        let Request::Lease { cookie } = Request::decode(message)? else {
            return None;
        };
        Some(Self { relay, caller: call.caller()?, cookie, random: RandomBytes::new(random)?, now: call.now })
    }

    fn partner(&self) -> usize {
        partner_of(self.caller)
    }

    fn is_live(&self, row: usize) -> bool {
        self.relay.leases[row].is_live(self.now)
    }

    /// The row that is renewed, if the lease is accepted.
    pub fn row_to_renew(&self) -> Option<usize> {
        self.relay.row_to_renew(self.partner(), self.cookie?, self.now)
    }

    /// The row of a new lease, if the lease is accepted and none is renewed.
    pub fn new_row(&self) -> Option<usize> {
        self.offer().row
    }

    fn offer(&self) -> Offer {
        self.relay.offer(self.caller, self.random, self.now)
    }

    /// The rows of the partner, or of its neighbours, that meet all parts of the sentence but these.
    fn rows_that_fail<'s>(&'s self, own: bool, parts: &'s [Part]) -> impl Iterator<Item = usize> + 's {
        let cookie = self.cookie.unwrap_or_default();
        let rows = (0..LEASES).filter(move |&row| (partner_of_row(row) == self.partner()) == own);
        rows.filter(move |&row| self.relay.failed_parts(row, cookie, self.now).eq(parts.iter().copied()))
    }

    /// Whether a row of the partner, or of its neighbours, has the cookie.
    fn is_known(&self, own: bool) -> bool {
        let mut rows = (0..LEASES).filter(|&row| (partner_of_row(row) == self.partner()) == own);
        rows.any(|row| Some(&self.relay.leases[row].cookie[..]) == self.cookie)
    }

    /// Counts what a request reached that passes the checks.
    pub fn count(&self, effects: &mut Tally) {
        let offer = self.offer();
        let failed: Vec<_> = offer.failed().collect();
        match (&failed[..], self.row_to_renew()) {
            ([], Some(row)) => self.count_renewed(effects, row),
            ([], None) => self.count_new(effects, offer),
            (&[condition], renewable) => {
                let names = if renewable.is_some() { CONDITIONS_OF_RENEWABLE } else { CONDITIONS };
                effects.count(names[condition as usize - 1], 0);
            }
            _ => effects.count("lease: several of these", 0),
        }
    }

    fn count_renewed(&self, effects: &mut Tally, row: usize) {
        let lease = &self.relay.leases[row];
        let names = if self.is_live(row) { RENEWED_LIVE } else { RENEWED_EXPIRED };
        effects.count(names[self.holder(row) as usize], 0);
        let own = self.relay.rows_of(self.partner());
        let lower_with_cookie = own.filter(|(lower, _)| *lower < row).any(|(_, lower)| lower.cookie == lease.cookie);
        let rows = self.relay.leases.iter().enumerate().filter(|&(other, _)| other != row);
        let id_expires = rows.filter(|(_, other)| other.expiry == self.now).any(|(_, other)| other.id == lease.id);
        count_true(
            effects,
            [
                ("renewed: at its expiry", lease.expiry == self.now),
                ("renewed: lowest of several", self.rows_that_fail(true, &[]).count() > 1),
                ("renewed: above one with it", lower_with_cookie),
                ("renewed: id of one expiring", id_expires),
                ("renewed: id of 2^26 or more", lease.id >= 1 << 26),
            ],
        );
    }

    fn holder(&self, row: usize) -> Holder {
        let holder = self.relay.leases[row].holder;
        let Some(connection) = self.relay.connections.get(usize::from(holder)) else {
            return if holder == NOBODY { Holder::Nobody } else { Holder::Number };
        };
        match connection.state() {
            State::Closed => Holder::Closed,
            State::Awaiting => Holder::Awaiting,
            State::Open if partner_of(holder.into()) != self.partner() => Holder::Neighbour,
            State::Open if usize::from(holder) == self.caller => Holder::Caller,
            State::Open => Holder::Another,
        }
    }

    fn count_new(&self, effects: &mut Tally, offer: Offer) {
        if self.cookie.is_some() {
            self.count_not_renewed(effects);
        }
        let first = self.random.candidates().next() == offer.id;
        effects.count(if first { "new lease: first candidate" } else { "new lease: later candidate" }, 0);
        if let Some(row) = offer.row {
            self.count_row(effects, row);
        }
    }

    /// No row is renewed. If there is one that fails in one part alone, this part is what decides.
    fn count_not_renewed(&self, effects: &mut Tally) {
        let is_own = |&other: &usize| partner_of_row(other) == self.partner();
        let id_live = |own: bool| {
            let mut rows = self.rows_that_fail(true, &[Part::Id]);
            rows.any(|row| self.relay.others_with_id(row, self.now).all(|other| is_own(&other) == own))
        };
        let neighbours = self.rows_that_fail(false, &[]).next().is_some();
        count_true(
            effects,
            [
                ("not renewed: a new cookie", !self.is_known(true) && !self.is_known(false)),
                ("not renewed: a neighbour's", !self.is_known(true) && neighbours),
                ("not renewed: never leased", self.rows_that_fail(true, &[Part::Expiry]).next().is_some()),
                ("not renewed: live and held", self.rows_that_fail(true, &[Part::Holder]).next().is_some()),
                ("not renewed: id live here", id_live(true)),
                ("not renewed: id live elsewhere", id_live(false)),
            ],
        );
    }

    /// The row that a new lease takes, among those that it could have taken.
    fn count_row(&self, effects: &mut Tally, row: usize) {
        let expiry = self.relay.leases[row].expiry;
        let others = self.relay.rows_of(self.partner()).filter(|&(other, _)| other != row && !self.is_live(other));
        let others: Vec<_> = others.collect();
        let is_lowest = others.iter().all(|&(other, _)| other > row);
        let ties = others.iter().any(|(_, other)| other.expiry == expiry);
        count_true(
            effects,
            [
                ("new lease: never leased row", expiry == 0),
                ("new lease: expired row", expiry > 0),
                ("new lease: not lowest row", !is_lowest),
                ("new lease: tie, never leased", ties && expiry == 0),
                ("new lease: tie, expired", ties && expiry > 0),
                ("new lease: tie, not lowest", ties && !is_lowest),
            ],
        );
    }

    /// Counts a renewal by who held the row last.
    pub fn count_return(&self, effects: &mut Tally, last: &LastHolders, outcome: &Outcome) {
        if let ([3, 1, ..], Some(row)) = (outcome.reply(), self.row_to_renew()) {
            let [same, another] = if self.is_live(row) { [IN_RUNS[0], IN_RUNS[1]] } else { [IN_RUNS[2], IN_RUNS[3]] };
            effects.count(if usize::from(last.0[row]) == self.caller { same } else { another }, 0);
        }
    }
}

/// Whom a row names as its holder, as far as there is a difference. The last four don't count.
#[derive(Clone, Copy)]
enum Holder {
    Nobody,
    /// The caller, or another open connection of the partner.
    Caller,
    Another,
    /// A number that no connection has.
    Number,
    Closed,
    Awaiting,
    /// An open connection of another partner.
    Neighbour,
}

fn count_true<const N: usize>(effects: &mut Tally, names: [(&'static str, bool); N]) {
    for (name, _) in names.into_iter().filter(|&(_, reached)| reached) {
        effects.count(name, 0);
    }
}

/// Who held each row last in a run; where a connection has closed, its rows no longer say.
pub struct LastHolders([u8; LEASES]);

impl Default for LastHolders {
    fn default() -> Self {
        Self([NOBODY; LEASES])
    }
}

impl LastHolders {
    /// Notes whom the rows name after a call.
    pub fn note(&mut self, relay: &Relay) {
        for (last, lease) in self.0.iter_mut().zip(&relay.leases) {
            if lease.holder != NOBODY {
                *last = lease.holder;
            }
        }
    }
}
