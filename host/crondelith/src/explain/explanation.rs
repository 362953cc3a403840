//! What is told of a call: the engine's reason, and what follows from it.

use engine::reasons::{Reason, ESTABLISH, LEASE};
use frames::MESSAGE_LIMIT;
use server::{Refusal, Tables};

use super::call::{Call, Due};
use super::words;

pub struct Explanation {
    pub call: Call,
    /// That of the tables: the time of the last call that was done.
    pub clock: u64,
    pub reason: Reason,
    /// What the partner has at the call's time, if there is such a partner.
    pub level: Option<u64>,
    /// When a call that can't be paid now can be.
    pub payable_at: Option<u64>,
    /// What a keepalive check would do.
    pub due: Option<Due>,
    /// When a lease that was given at that time would end.
    pub expiration: Option<u64>,
}

/// What a charged call costs, and what its partner has.
#[derive(Clone, Copy, Debug, PartialEq, Eq)]
pub struct Allowance {
    pub cost: u64,
    pub level: u64,
    pub after: After,
}

#[derive(Clone, Copy, Debug, PartialEq, Eq)]
pub enum After {
    /// The partner can pay, and keeps this.
    Left(u64),
    /// It is short of this.
    Short(u64),
}

/// What decides a call that is done.
#[derive(Clone, Copy, Debug, PartialEq, Eq)]
pub enum Decision {
    /// A lease, with the first condition that fails, or 0.
    Lease(u32),
    /// A session with this id's holder, with the status.
    Establish { id: u32, status: u32 },
}

impl Explanation {
    pub fn new(call: Call, tables: &Tables) -> Self {
        let reason = call.reason(tables.view());
        let level = call.partner().map(|partner| tables.level(partner as usize, call.time));
        let payable_at = reason.shortfall().and_then(|_| call.payable_at(tables));
        let due = call.due(tables).filter(|_| reason.check == 0);
        let is_lease = (reason.request, reason.condition) == (LEASE, 0);
        let expiration = is_lease.then(|| call.time + tables.lease_term().seconds());
        Self { call, clock: tables.clock(), reason, level, payable_at, due, expiration }
    }

    /// The check that stops the call, if any.
    pub fn refusal(&self) -> Option<Refusal> {
        (self.reason.check != 0).then_some(Refusal(self.reason.check))
    }

    /// The engine tells what is left, or missing: with the level, that is what the call costs.
    pub fn allowance(&self) -> Option<Allowance> {
        let level = self.level.filter(|_| self.reason.charged == 1)?;
        let units = self.reason.headroom.unsigned_abs();
        let (cost, after) = match self.reason.shortfall() {
            Some(_) => (level + units, After::Short(units)),
            None => (level - units, After::Left(units)),
        };
        Some(Allowance { cost, level, after })
    }

    /// Whether the call is one that nobody pays for. A check before the allowance's leaves it open.
    pub fn is_free(&self) -> Option<bool> {
        match (self.reason.check, self.reason.charged) {
            (_, 1) => Some(false),
            (0, _) => Some(true),
            _ => None,
        }
    }

    pub fn decision(&self) -> Option<Decision> {
        let Reason { request, condition, .. } = self.reason;
        match request {
            LEASE => Some(Decision::Lease(condition)),
            ESTABLISH => Some(Decision::Establish { id: self.id()?, status: condition }),
            _ => None,
        }
    }

    /// The id of a request to establish a session.
    fn id(&self) -> Option<u32> {
        match codec::decode(self.call.message()?) {
            Some(codec::Message::EstablishRequest { id }) => Some(id),
            _ => None,
        }
    }

    /// What a running relay does then with a message. The first five checks are about what it brings itself; and what no
    /// frame holds never comes to it.
    fn consequence(&self) -> Option<server::Consequence> {
        let refusal = self.refusal().filter(|Refusal(check)| *check > 5)?;
        let message = self.call.message().filter(|message| message.len() <= MESSAGE_LIMIT);
        message.map(|_| refusal.consequence())
    }

    /// What a running relay does then, in words.
    pub fn follows(&self) -> Option<String> {
        let consequence = self.consequence().map(|consequence| consequence.to_string());
        consequence.or_else(|| self.due.map(|due| words::due(due).into()))
    }
}
