//! The record that a call has in the journal, for a relay that answers in a way of its own.

use engine::relay::{Record, RECORD};
use model::Entry;

use super::boundary::{Call, Kind};

/// The record of a call that is answered so, if so much was charged, or would have been.
pub fn of(call: &Call, answer: u32, charge: u64) -> Record {
    entry(call, answer, charge).map_or([0; RECORD], |entry| entry.bytes())
}

/// The same as numbers; none for a fresh start, or where there is no such connection.
fn entry(call: &Call, answer: u32, charge: u64) -> Option<Entry> {
    let (number, kind) = match &call.kind {
        Kind::Fresh { .. } => return None,
        Kind::Open { .. } => (0, 0),
        Kind::Message { message, .. } => (1, message.first().copied().unwrap_or(0)),
        Kind::Close { .. } => (2, 0),
        Kind::Keepalive { .. } => (3, 0),
    };
    let connection = call.caller()? as u8;
    Some(Entry { time: call.now, connection, call: number, kind, answer: answer as u8, charge: charge as u32 })
}
