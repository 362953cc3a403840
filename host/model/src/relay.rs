//! The relay as typed records, and how it stands in the three tables.

use std::ops::Range;

use crate::records::{Allowance, Common, Connection, Lease, Record, State};
use crate::terms::StoredTerm;
use crate::LEVEL_LIMIT;

pub const PARTNERS: usize = 8;
pub const CONNECTIONS: usize = 64;
pub const LEASES: usize = 128;
/// The bytes of the allowance table: each partner's, and one record beside.
pub(crate) const ALLOWANCES: usize = PARTNERS * Allowance::LENGTH + Common::LENGTH;

/// The scope's board: three tables of bytes, here of any lengths.
#[derive(Clone, Debug, PartialEq, Eq)]
pub struct Tables {
    pub connections: Vec<u8>,
    pub leases: Vec<u8>,
    pub allowances: Vec<u8>,
}

#[derive(Clone, Debug, PartialEq, Eq)]
pub struct Relay {
    pub connections: Vec<Connection>,
    pub leases: Vec<Lease>,
    /// Each partner's.
    pub allowances: Vec<Allowance>,
    /// What stands behind them in their table.
    pub common: Common,
}

impl Relay {
    /// "the eight partners' levels 262,144, [..] every moment t", and the ninth level, once 0, "keeps the term"
    pub fn fresh(now: u64, term: StoredTerm) -> Self {
        Self {
            connections: vec![Connection::fresh(State::Closed); CONNECTIONS],
            leases: vec![Lease::fresh(); LEASES],
            allowances: vec![Allowance { level: LEVEL_LIMIT, updated: now }; PARTNERS],
            common: Common { term, clock: now },
        }
    }

    /// None where a table has another size than "4,096, 5,120 or 144 bytes".
    pub fn decode(tables: &Tables) -> Option<Self> {
        let (allowances, common) = tables.allowances.split_at_checked(PARTNERS * Allowance::LENGTH)?;
        Some(Self {
            connections: decode_all(&tables.connections, CONNECTIONS)?,
            leases: decode_all(&tables.leases, LEASES)?,
            allowances: decode_all(allowances, PARTNERS)?,
            common: decode_all(common, 1)?.pop()?,
        })
    }

    pub fn encode(&self) -> Tables {
        let allowances = encode_allowances(&self.allowances, &self.common);
        Tables { connections: encode_all(&self.connections), leases: encode_all(&self.leases), allowances }
    }

    /// The scope's latest reading.
    pub fn clock(&self) -> u64 {
        self.common.clock
    }

    /// "On 0 the clock cell takes the reading"; the term beside it stays.
    pub fn set_clock(&mut self, now: u64) {
        self.common.clock = now;
    }

    pub fn is_open(&self, connection: usize) -> bool {
        self.connections.get(connection).is_some_and(|record| record.state() == State::Open)
    }

    /// The lease rows of a partner with their numbers, lowest first.
    pub fn rows_of(&self, partner: usize) -> impl Iterator<Item = (usize, &Lease)> {
        rows(partner).zip(&self.leases[rows(partner)])
    }

    pub fn live_rows(&self, partner: usize, now: u64) -> impl Iterator<Item = (usize, &Lease)> {
        self.rows_of(partner).filter(move |(_, lease)| lease.is_live(now))
    }

    pub fn rows_of_mut(&mut self, partner: usize) -> impl Iterator<Item = &mut Lease> {
        self.leases[rows(partner)].iter_mut()
    }
}

/// "Connection c belongs to partner c / 8 (whole part)."
pub fn partner_of(connection: usize) -> usize {
    connection / (CONNECTIONS / PARTNERS)
}

/// "Partner p owns lease rows 16p to 16p+15."
pub fn partner_of_row(row: usize) -> usize {
    row / (LEASES / PARTNERS)
}

/// The rows for which [`partner_of_row`] gives this partner.
fn rows(partner: usize) -> Range<usize> {
    let each = LEASES / PARTNERS;
    each * partner..each * (partner + 1)
}

pub(crate) fn decode_all<R: Record>(table: &[u8], records: usize) -> Option<Vec<R>> {
    (table.len() == records * R::LENGTH).then(|| table.chunks_exact(R::LENGTH).map(R::decode).collect())
}

/// The allowance table.
pub(crate) fn encode_allowances(allowances: &[Allowance], common: &Common) -> Vec<u8> {
    let mut table = encode_all(allowances);
    common.encode(&mut table);
    table
}

fn encode_all<R: Record>(records: &[R]) -> Vec<u8> {
    let mut table = Vec::with_capacity(records.len() * R::LENGTH);
    for record in records {
        record.encode(&mut table);
    }
    table
}
