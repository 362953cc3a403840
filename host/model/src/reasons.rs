//! Why is a call turned away, or what decides it? Each function takes what the call of its name takes, of buffers the
//! lengths alone, and "changes nothing".

use crate::checks::{check, Action, Call, Kind, Passed, Refusal};
use crate::leases::Condition;
use crate::plan::Plan;
use crate::relay::{Relay, Tables};
use crate::requests::Request;

#[derive(Clone, Copy, Debug, PartialEq, Eq)]
pub struct Reason {
    pub outcome: Outcome,
    /// "Where checks 1 to 8 pass and the call is charged, and only there, [..] level minus charge, negative by exactly
    /// the shortfall"
    pub headroom: Option<i64>,
}

#[derive(Clone, Copy, Debug, PartialEq, Eq)]
pub enum Outcome {
    /// "the first check that stops the call"
    Stopped(Refusal),
    /// A done lease: "which of the four lease conditions failed first in 01's order", or none if all held.
    Lease { failed: Option<Condition> },
    /// A done establish.
    Establish { status: u8 },
    /// Any other call that is done.
    Done,
}

impl Reason {
    /// The check, the request, the condition, whether there is a headroom, and the headroom, as include/crondelith.h
    /// has them.
    pub fn numbers(self) -> ([u32; 4], i64) {
        let (check, request, condition) = match self.outcome {
            Outcome::Stopped(refusal) => (refusal as u32, 0, 0),
            Outcome::Lease { failed } => (0, 1, failed.map_or(0, |condition| condition as u32)),
            Outcome::Establish { status } => (0, 2, status.into()),
            Outcome::Done => (0, 0, 0),
        };
        ([check, request, condition, self.headroom.is_some().into()], self.headroom.unwrap_or(0))
    }
}

/// Opening a connection.
pub fn open(tables: &Tables, now: u64, connection: u64, reply_length: u64) -> Reason {
    explain(tables, Call { now, connection, kind: Kind::Open { reply_length } })
}

/// A message from a connection.
pub fn message(
    tables: &Tables,
    now: u64,
    connection: u64,
    message: &[u8],
    random: &[u8],
    reply_length: u64,
    relay_length: u64,
) -> Reason {
    explain(tables, Call { now, connection, kind: Kind::Message { message, random, reply_length, relay_length } })
}

/// Closing a connection.
pub fn close(tables: &Tables, now: u64, connection: u64, relay_length: u64) -> Reason {
    explain(tables, Call { now, connection, kind: Kind::Close { relay_length } })
}

/// Finding out whether a connection is dead.
pub fn keepalive(tables: &Tables, now: u64, connection: u64, reply_length: u64, relay_length: u64) -> Reason {
    explain(tables, Call { now, connection, kind: Kind::Keepalive { reply_length, relay_length } })
}

fn explain(tables: &Tables, call: Call) -> Reason {
    match check(tables, &call) {
        Err(refusal) => Reason { outcome: Outcome::Stopped(refusal), headroom: None },
        Ok((relay, passed)) => {
            let plan = relay.plan(&passed);
            Reason { outcome: relay.outcome(&passed, &plan), headroom: plan.headroom }
        }
    }
}

impl Relay {
    /// What decided a call that isn't paid for stands in its price alone.
    fn outcome(&self, passed: &Passed, plan: &Plan) -> Outcome {
        if let Err(refusal) = plan.level_left() {
            return Outcome::Stopped(refusal);
        }
        let Passed { caller, now, .. } = *passed;
        match passed.action {
            // "Whether a lease is accepted is decided as in 01, cookie or not."
            Action::Request(Request::Lease { .. }, random) => {
                Outcome::Lease { failed: self.offer(caller, random, now).failed().next() }
            }
            Action::Request(Request::Establish { id }, _) => {
                Outcome::Establish { status: self.holder_to_join(caller, id, now).err().unwrap_or(0) }
            }
            _ => Outcome::Done,
        }
    }
}
