//! A relay whose way to make a call's record can be replaced.

use compare::relay::boundary::{Boundary, Call, Kind, Lent, Second};
use compare::relay::prices::{cost, row_of};
use compare::relay::records;
use engine::relay::{Answer, Record, RECORD};
use model::{partner_of, Entry, Relay, Tables};

pub const NO_RECORD: Record = [0; RECORD];

/// A call, with its answer, and the tables before it.
pub struct Made<'a> {
    pub call: &'a Call,
    pub answer: Answer,
    pub before: &'a Tables,
    /// The first bytes of the relay buffer, if the call puts any there.
    pub relayed: Option<u8>,
}

impl Made<'_> {
    pub fn number(&self) -> u32 {
        self.answer.number
    }

    pub fn is_done(&self) -> bool {
        self.number() == 0
    }

    pub fn is_start(&self) -> bool {
        matches!(self.call.kind, Kind::Fresh { .. })
    }

    pub fn is_message(&self) -> bool {
        matches!(self.call.kind, Kind::Message { .. })
    }

    /// The bytes received.
    pub fn received(&self) -> u64 {
        self.call.message().len() as u64
    }

    pub fn relay(&self) -> Option<Relay> {
        Relay::decode(self.before)
    }

    /// What the caller's partner had; 0 where nobody asks.
    pub fn level(&self) -> u64 {
        let partner = self.call.caller().filter(|_| self.has_record()).map(partner_of);
        let allowance = partner.and_then(|partner| self.relay()?.allowances.get(partner).cloned());
        allowance.map_or(0, |allowance| allowance.level_at(self.call.now))
    }

    /// What a done charged call cost, or one refused with 9 would have.
    pub fn charge(&self) -> u64 {
        match self.number() {
            0 if self.call.is_charged() => cost(self.call.message(), &self.answer),
            9 => self.relay().and_then(|relay| row_of(&relay, self.call)).map_or(0, |row| row.price),
            _ => 0,
        }
    }

    /// Whether the call has a record.
    pub fn has_record(&self) -> bool {
        !self.is_start() && !matches!(self.number(), 1..=3)
    }

    /// The record, as the papers say.
    pub fn right(&self) -> Record {
        if self.has_record() {
            records::of(self.call, self.number(), self.charge())
        } else {
            NO_RECORD
        }
    }

    /// The record with other numbers.
    pub fn with(&self, change: impl FnOnce(&mut Entry)) -> Record {
        self.with_if(true, change)
    }

    /// The record, with other numbers where this applies.
    pub fn with_if(&self, applies: bool, change: impl FnOnce(&mut Entry)) -> Record {
        let mut entry = self.entry();
        if !self.has_record() || !applies {
            return self.right();
        }
        change(&mut entry);
        entry.bytes()
    }

    /// The record with another charge, where this applies.
    pub fn charged_if(&self, applies: bool, charge: u64) -> Record {
        self.with_if(applies, |entry| entry.charge = charge as u32)
    }

    fn entry(&self) -> Entry {
        model::Record::decode(&self.right())
    }
}

/// The record of a call.
pub type Recorded = fn(&Made) -> Record;

/// A way to make records; for all else it is the second implementation.
#[derive(Clone, Copy)]
pub struct Recording(pub Recorded);

/// As the papers say.
pub const RIGHT: Recording = Recording(|made| made.right());

impl Boundary for Recording {
    fn call(&self, call: &Call, lent: &mut Lent) -> Answer {
        let before = lent.tables();
        let answer = Second.call(call, lent);
        let relayed = lent.relay.lend()[..answer.relay as usize].first().copied();
        Answer { record: (self.0)(&Made { call, answer, before: &before, relayed }), ..answer }
    }
}
