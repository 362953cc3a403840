//! One call made of both relays, or one question about a map or a table.

use engine::relay::{Answer, PartnerConnections, Rebuilt, RECORD};
use model::Tables;

use super::boundary::{Boundary, Call, Kind, Lent, Second};
use crate::difference::{same, same_bytes, shown, Difference};
use crate::guarded::Guarded;

/// The answer to a call, and all that was lent, afterwards.
pub struct Outcome {
    pub answer: Answer,
    pub lent: Lent,
}

impl Outcome {
    /// The bytes for the caller's connection.
    pub fn reply(&self) -> &[u8] {
        &self.lent.reply.lend()[..self.answer.reply as usize]
    }

    /// The bytes for the destination.
    pub fn relay(&self) -> &[u8] {
        &self.lent.relay.lend()[..self.answer.relay as usize]
    }
}

/// Makes the call on copies of the tables, and compares the answer, with the map and the record in it, and every byte that was
/// lent. A refused call must also have changed none, and have given back the map.
pub fn call(subject: &impl Boundary, tables: &Tables, map: u64, call: &Call) -> Result<Outcome, Difference> {
    let before = Lent::new(tables, map, call);
    let (mut ours, mut expected) = (before.clone(), before.clone());
    let expected_answer = Second.call(call, &mut expected);
    let answer = subject.call(call, &mut ours);
    let described = || format!("with map {map:#x} {}", describe(call, tables));
    same(described, &answer, &expected_answer)?;
    same_lent(described, &ours, &expected)?;
    if answer.number != 0 {
        same_lent(described, &ours, &before)?;
        same(described, &answer.map, &map)?;
    }
    if matches!(answer.number, 1..=3) || matches!(call.kind, Kind::Fresh { .. }) {
        same(described, &answer.record, &[0; RECORD])?;
    }
    Ok(Outcome { answer, lent: ours })
}

/// What both find the map to say of the partner.
pub fn connections_of(subject: &impl Boundary, map: u64, partner: u64) -> Result<PartnerConnections, Difference> {
    let found = subject.connections_of(map, partner);
    same(|| format!("partner {partner} in map {map:#x}"), &found, &Second.connections_of(map, partner))?;
    Ok(found)
}

/// The map that both find the connection table to have, which must stay as it was.
pub fn rebuild(subject: &impl Boundary, connections: &[u8]) -> Result<Rebuilt, Difference> {
    let before = Guarded::holding(connections);
    let lent = before.clone();
    let rebuilt = subject.rebuild(lent.lend());
    let described = || format!("the map of {connections:?}");
    same(described, &rebuilt, &Second.rebuild(connections))?;
    same_bytes(described, &lent, &before)?;
    Ok(rebuilt)
}

pub(crate) fn same_lent(call: impl Fn() -> String, ours: &Lent, expected: &Lent) -> Result<(), Difference> {
    for ((name, ours), (_, expected)) in ours.named().into_iter().zip(expected.named()) {
        same_bytes(|| format!("{}: in {name}", call()), ours, expected)?;
    }
    Ok(())
}

/// The call and the tables before it, enough to make it again.
pub(crate) fn describe(call: &Call, tables: &Tables) -> String {
    let kind = match &call.kind {
        Kind::Message { connection, message, random, reply, relay } => format!(
            "message of connection {connection}, {}, random {random:?}, buffers of {reply} and {relay}",
            shown(message)
        ),
        other => format!("{other:?}"),
    };
    format!("at {} {kind}\non {tables:?}\n", call.now)
}
