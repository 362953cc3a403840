//! A relay whose ways to lease can be replaced one by one.

use compare::relay::boundary::{Boundary, Call, Lent, Second};
use compare::relay::runs::decoded;
use engine::relay::Answer;
use model::{partner_of, partner_of_row, Condition, Lease, Offer, Part, RandomBytes, Relay, Request, LEASES};

/// A lease row's bytes.
pub type Row = [u8; 40];

/// A lease request that passes the checks, and the relay before it.
pub struct Asked {
    pub relay: Relay,
    pub caller: usize,
    pub cookie: Option<Vec<u8>>,
    random: Vec<u8>,
    pub now: u64,
}

impl Asked {
    /// None for another call.
    fn new(relay: Relay, call: &Call, lent: &Lent) -> Option<Self> {
        let Request::Lease { cookie } = Request::decode(call.message())? else {
            return None;
        };
        let (cookie, random) = (cookie.map(<[u8]>::to_vec), lent.random.lend().to_vec());
        Some(Self { relay, caller: call.caller()?, cookie, random, now: call.now })
    }

    pub fn random(&self) -> RandomBytes<'_> {
        RandomBytes::new(&self.random).expect("a call that passes the checks")
    }

    pub fn offer(&self) -> Offer {
        self.relay.offer(self.caller, self.random(), self.now)
    }

    /// The expiry of what is leased now.
    pub fn expiry(&self) -> u64 {
        self.now + self.relay.common.term.seconds()
    }

    pub fn lease(&self, row: usize) -> &Lease {
        &self.relay.leases[row]
    }

    pub fn is_live(&self, row: usize) -> bool {
        self.lease(row).is_live(self.now)
    }

    pub fn is_own(&self, row: usize) -> bool {
        partner_of_row(row) == partner_of(self.caller)
    }

    pub fn has_cookie(&self, row: usize) -> bool {
        self.cookie.as_deref() == Some(&self.lease(row).cookie)
    }

    /// Whether its expiry is so many seconds ahead.
    pub fn expires_in(&self, row: usize, seconds: u64) -> bool {
        self.lease(row).expiry == self.now + seconds
    }

    /// Whether a holder, live or not, counts.
    pub fn is_held(&self, row: usize) -> bool {
        self.relay.holder_of(row).is_some()
    }

    pub fn others_with_id(&self, row: usize) -> impl Iterator<Item = usize> + '_ {
        self.relay.others_with_id(row, self.now)
    }

    /// What the row lacks to be renewed, whosever it is; without a cookie all lack that.
    pub fn failed_parts(&self, row: usize) -> Vec<Part> {
        self.relay.failed_parts(row, self.cookie.as_deref().unwrap_or_default(), self.now).collect()
    }

    pub fn is_renewable(&self, row: usize) -> bool {
        self.is_own(row) && self.failed_parts(row).is_empty()
    }

    /// Whether a row of the partner lacks this alone, or nothing.
    pub fn lacks_at_most(&self, row: usize, part: Part) -> bool {
        let asked_with_cookie = self.cookie.is_some();
        asked_with_cookie && self.is_own(row) && self.failed_parts(row).iter().all(|&failed| failed == part)
    }

    /// Whether the scope's conditions hold, but for this one if a row is to be renewed.
    pub fn accepted_without(&self, condition: Condition, renewed: Option<usize>) -> bool {
        self.offer().failed().all(|failed| failed == condition && renewed.is_some())
    }
}

pub type IsRenewable = fn(&Asked, usize) -> bool;
pub type ChooseRow = fn(&Asked, &[usize]) -> usize;
pub type IsAccepted = fn(&Asked, Option<usize>) -> bool;
pub type Spoil = fn(&Asked, usize, &mut [Row], &mut [u8]);

/// A way to lease; for all else it is the second implementation.
#[derive(Clone, Copy)]
pub struct Leasing {
    /// Whether a row can be renewed.
    pub renewable: IsRenewable,
    /// The one that is renewed, of those that can be.
    pub renewed: ChooseRow,
    /// Whether the lease is accepted, given the row to renew.
    pub accepted: IsAccepted,
    /// The row of a new lease, of the partner's that aren't live.
    pub new: ChooseRow,
    /// What else happens to the rows and the reply where a row is renewed.
    pub spoil: Spoil,
}

/// As the papers say.
pub const RIGHT: Leasing = Leasing {
    renewable: |asked, row| asked.is_renewable(row),
    renewed: |_, rows| rows[0],
    accepted: |asked, _| asked.offer().failed().next().is_none(),
    new: |asked, rows| *rows.iter().min_by_key(|&&row| asked.lease(row).expiry).expect("a row left"),
    spoil: |_, _, _, _| {},
};

impl Leasing {
    fn lease(&self, asked: &Asked, rows: &mut [Row]) -> Vec<u8> {
        let renewable: Vec<usize> = (0..LEASES).filter(|&row| (self.renewable)(asked, row)).collect();
        let renewed = (!renewable.is_empty()).then(|| (self.renewed)(asked, &renewable));
        if !(self.accepted)(asked, renewed) {
            return vec![3, 0];
        }
        let row = renewed.unwrap_or_else(|| self.write_new(asked, rows));
        rows[row][..8].copy_from_slice(&asked.expiry().to_be_bytes());
        rows[row][12] = asked.caller as u8;
        let mut reply = [&[3, 1], &rows[row][8..12], &rows[row][16..], &rows[row][..8]].concat();
        if renewed.is_some() {
            (self.spoil)(asked, row, rows, &mut reply);
        }
        reply
    }

    /// Gives the row of a new lease, with id and cookie.
    pub fn write_new(&self, asked: &Asked, rows: &mut [Row]) -> usize {
        let not_live: Vec<usize> = (0..LEASES).filter(|&row| asked.is_own(row) && !asked.is_live(row)).collect();
        let row = (self.new)(asked, &not_live);
        let id = asked.offer().id.expect("a free candidate");
        rows[row][8..12].copy_from_slice(&id.to_be_bytes());
        rows[row][16..].copy_from_slice(&asked.random().cookie());
        row
    }
}

impl Boundary for Leasing {
    fn call(&self, call: &Call, lent: &mut Lent) -> Answer {
        let before = lent.clone();
        let mut answer = Second.call(call, lent);
        let asked = (answer.number == 0).then(|| Asked::new(decoded(&before.tables()), call, lent));
        if let Some(asked) = asked.flatten() {
            (lent.leases, lent.reply) = (before.leases, before.reply);
            let reply = self.lease(&asked, lent.leases.lend_mut().as_chunks_mut().0);
            lent.reply.lend_mut()[..reply.len()].copy_from_slice(&reply);
            answer.reply = reply.len() as u32;
        }
        answer
    }
}
