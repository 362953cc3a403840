//! The C boundary of explanations as a trait, and the two implementations behind it.

use engine::reasons::{self, Reason};

use crate::relay::boundary::{Call, Kind, Lent, Proved, Second};

pub trait Explain {
    /// Explains the call with what it is lent, which [`Lent::new`] has made for it. Of its buffers it has the lengths
    /// alone.
    fn explain(&self, call: &Call, lent: &mut Lent) -> Reason;
}

impl Explain for Proved {
    fn explain(&self, call: &Call, lent: &mut Lent) -> Reason {
        let tables = reasons::Tables {
            connections: lent.connections.lend(),
            leases: lent.leases.lend(),
            allowances: lent.allowances.lend(),
        };
        let (message, random) = (lent.message.lend(), lent.random.lend());
        match call.kind {
            Kind::Fresh { .. } => no_call(),
            Kind::Open { connection, reply } => reasons::open(tables, call.now, connection, reply as u64),
            Kind::Message { connection, reply, relay, .. } => {
                reasons::message(tables, call.now, connection, message, random, reply as u64, relay as u64)
            }
            Kind::Close { connection, relay } => reasons::close(tables, call.now, connection, relay as u64),
            Kind::Keepalive { connection, reply, relay } => {
                reasons::keepalive(tables, call.now, connection, reply as u64, relay as u64)
            }
        }
    }
}

/// The second implementation, its reasons put as include/crondelith.h has them.
impl Explain for Second {
    fn explain(&self, call: &Call, lent: &mut Lent) -> Reason {
        use model::reasons::{close, keepalive, message, open};
        let (tables, now) = (&lent.tables(), call.now);
        let (bytes, random) = (lent.message.lend(), lent.random.lend());
        let reason = match call.kind {
            Kind::Fresh { .. } => no_call(),
            Kind::Open { connection, reply } => open(tables, now, connection, reply as u64),
            Kind::Message { connection, reply, relay, .. } => {
                message(tables, now, connection, bytes, random, reply as u64, relay as u64)
            }
            Kind::Close { connection, relay } => close(tables, now, connection, relay as u64),
            Kind::Keepalive { connection, reply, relay } => {
                keepalive(tables, now, connection, reply as u64, relay as u64)
            }
        };
        let ([check, request, condition, charged], headroom) = reason.numbers();
        Reason { check, request, condition, charged, headroom }
    }
}

fn no_call() -> ! {
    panic!("making a fresh relay is no call to explain")
}
