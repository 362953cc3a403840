//! Leases: new ones, renewed ones, and those with the longest searches.

use std::ops::Range;

use codec::{Message, COOKIE_LENGTH};
use engine::relay::{BUFFER, NOBODY};
use server::{LeaseTerm, CONNECTIONS_EACH, PARTNERS};

use super::super::relays::{Kind, Lent};
use super::{call, message, nothing, random_bytes, reply, Case, CALLER, FREE, REFILL_SECONDS, START};

/// The last partner's last connection. Its partner's lease rows are the last: a search for an id gets to them at its end.
const NEIGHBOUR: u64 = (PARTNERS * CONNECTIONS_EACH - 1) as u64;

/// The caller's.
const PARTNER: usize = CALLER as usize / CONNECTIONS_EACH;

/// Ends a lease.
const LEASE_SECONDS: u64 = LeaseTerm::USUAL.seconds() + 1;

/// Candidates that are taken, all but one.
const TAKEN: usize = 13;
/// The first of the neighbour's ids, in the longest searches that of the last row. The others follow, each in the row before.
const LAST_ROW: u32 = FREE + 1;
/// An id that a lease has had and nobody else has.
const KEPT: u32 = 99;

/// How the reply of an accepted lease begins, with the id that shows whether its search was the one meant.
const NEW: &[u8] = &[3, 1, 0, 0, 0, FREE as u8];
const RENEWED: &[u8] = &[3, 1, 0, 0, 0, KEPT as u8];

pub fn all() -> Option<Vec<Case>> {
    Some(vec![
        lease("lease, first candidate free", 0)?,
        thirteen_taken()?,
        earliest_last(0)?,
        earliest_last(TAKEN)?,
        others_live(Asked::Nothing)?,
        renewed()?,
        others_live(Asked::ForOneRow)?,
        others_live(Asked::ForEveryRow)?,
        last_renewable()?,
        extension()?,
    ])
}

/// What adds to the longest search for an id, each with a lease that hasn't got it: the search for the row of a new lease, and
/// for one to renew.
pub fn longest() -> Option<[(Case, Case); 2]> {
    Some([(earliest_last(TAKEN)?, thirteen_taken()?), (others_live(Asked::ForOneRow)?, others_live(Asked::Nothing)?)])
}

/// The same where every row of the partner has the cookie that is asked with. No partner can bring that about: a cookie is drawn
/// for each new lease.
pub fn made_by_hand() -> Option<[(Case, Case); 2]> {
    Some([(others_live(Asked::ForEveryRow)?, others_live(Asked::Nothing)?), (last_renewable()?, thirteen_taken()?)])
}

/// Which of the partner's rows have the cookie that is asked with.
#[derive(Clone, Copy, PartialEq, Eq)]
enum Asked {
    Nothing,
    ForOneRow,
    ForEveryRow,
}

fn thirteen_taken() -> Option<Case> {
    lease("lease, thirteen candidates taken", TAKEN)
}

/// A lease, with so many candidates before the free one. All others are ids of a neighbour's leases.
fn lease(what: &'static str, taken: usize) -> Option<Case> {
    let prepared = Lent::with_neighbour(taken)?;
    request(what, prepared, Message::LeaseRequest, NEW)
}

/// All rows of the partner have had a lease, and the lower the row the later it ended, so that the last one is taken. That
/// one's lease then ends last of all, and the row before it is the next: the order stays, from another row on.
fn earliest_last(taken: usize) -> Option<Case> {
    let mut prepared = Lent::with_neighbour(taken)?;
    prepared.change(|relay| {
        let ends = (0..START).rev();
        relay.rows_of_mut(PARTNER).zip(ends).for_each(|(lease, end)| lease.expiry = end);
    })?;
    let what = match taken {
        TAKEN => "lease, thirteen candidates taken, the earliest row last",
        _ => "lease, the earliest row last",
    };
    request(what, prepared, Message::LeaseRequest, NEW)
}

/// A connection comes back with its cookie after its lease has ended.
fn renewed() -> Option<Case> {
    let mut prepared = Lent::with_neighbour(0)?;
    let random = prepared.random;
    prepared.lease(CALLER, KEPT)?;
    let asked = random_bytes([KEPT]);
    prepared.random = random;
    let again = Message::LeaseRequestWithCookie { cookie: asked.get(..COOKIE_LENGTH)? };
    request("lease, renewed", prepared, again, RENEWED)
}

/// All rows of the partner have the cookie, and their leases have ended; but the id of each except the last is live in the
/// last row of the table.
fn last_renewable() -> Option<Case> {
    let (mut prepared, asked) = Lent::with_last_rows_live()?;
    prepared.change(|relay| {
        relay.rows_of_mut(PARTNER).for_each(|lease| {
            (lease.expiry, lease.id, lease.holder, lease.cookie) = (START, LAST_ROW, NOBODY as u8, asked);
        });
        relay.rows_of_mut(PARTNER).last().into_iter().for_each(|lease| lease.id = KEPT);
    })?;
    let again = Message::LeaseRequestWithCookie { cookie: &asked };
    request("lease with the cookie of every row, thirteen candidates taken, the last renewed", prepared, again, RENEWED)
}

/// All rows of the partner but the last have leases that run without a holder. None is renewed, since the id of each is also live far
/// down the table; none of them is a candidate.
fn others_live(asked: Asked) -> Option<Case> {
    let (mut prepared, cookie) = Lent::with_last_rows_live()?;
    prepared.change(|relay| {
        let rows = relay.rows_of_mut(PARTNER).enumerate().zip(taken_ids().end..);
        rows.for_each(|((place, lease), id)| {
            let has_cookie = place == 0 || asked == Asked::ForEveryRow;
            lease.cookie = if has_cookie { cookie } else { [place as u8 ^ cookie[0]; COOKIE_LENGTH] };
            (lease.expiry, lease.id, lease.holder) = (model::TIME_LIMIT, id, NOBODY as u8);
        });
        relay.rows_of_mut(PARTNER).last().into_iter().for_each(|lease| lease.expiry = START);
    })?;
    let again = Message::LeaseRequestWithCookie { cookie: &cookie };
    let (what, lease) = match asked {
        Asked::Nothing => ("lease, thirteen candidates taken, the other rows live", Message::LeaseRequest),
        Asked::ForOneRow => ("lease with a cookie, thirteen candidates taken, the id is live elsewhere", again),
        Asked::ForEveryRow => ("lease with the cookie of every row, thirteen candidates taken, none renewed", again),
    };
    request(what, prepared, lease, NEW)
}

/// A lease request, each time after the lease has ended.
fn request(what: &'static str, prepared: Lent, lease: Message, reply_start: &'static [u8]) -> Option<Case> {
    let calls = vec![message(CALLER, lease, reply(38))?];
    Some(Case { what, calls, seconds: LEASE_SECONDS, prepared, reply_start })
}

fn extension() -> Option<Case> {
    let mut prepared = Lent::fresh(BUFFER)?;
    prepared.open(CALLER)?;
    prepared.lease(CALLER, FREE)?;
    let cookie = prepared.random.get(..COOKIE_LENGTH)?;
    let request = message(CALLER, Message::ExtensionRequest { cookie }, reply(10))?;
    Some(Case {
        what: "lease extension",
        calls: vec![request],
        seconds: REFILL_SECONDS,
        prepared,
        reply_start: &[5, 1],
    })
}

impl Lent {
    /// The caller is open, and each candidate but the one in this place is the id of a neighbour's lease.
    fn with_neighbour(taken: usize) -> Option<Self> {
        let mut prepared = Self::fresh(BUFFER)?;
        prepared.open(CALLER)?;
        prepared.lease_thirteen()?;
        prepared.prolong_leases()?;
        let mut candidates = taken_ids().collect::<Vec<_>>();
        candidates.insert(taken, FREE);
        prepared.random = random_bytes(candidates);
        Some(prepared)
    }

    /// Takes ids in another partner's rows. A connection may lease again after it was closed, and its lease runs on.
    fn lease_thirteen(&mut self) -> Option<()> {
        taken_ids().try_for_each(|id| {
            self.open(NEIGHBOUR)?;
            self.lease(NEIGHBOUR, id)?;
            self.make(&call(NEIGHBOUR, Kind::Close, nothing()))
        })
    }

    /// Thirteen candidates are taken, by ids in the last rows of the table, and as many rows as a partner has are live before
    /// those. And a cookie that differs from the drawn one in its last byte only.
    fn with_last_rows_live() -> Option<(Self, [u8; COOKIE_LENGTH])> {
        let mut prepared = Self::with_neighbour(TAKEN)?;
        prepared.change(|relay| {
            let each = relay.leases.len() / PARTNERS;
            let rows = relay.leases.iter_mut().rev().take(TAKEN + each);
            rows.zip(LAST_ROW..).for_each(|(lease, id)| (lease.expiry, lease.id) = (model::TIME_LIMIT, id));
        })?;
        let mut cookie = *prepared.random.first_chunk()?;
        cookie.last_mut().into_iter().for_each(|byte| *byte ^= 1);
        Some((prepared, cookie))
    }
}

fn taken_ids() -> Range<u32> {
    LAST_ROW..LAST_ROW + TAKEN as u32
}
