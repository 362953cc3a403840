//! The records that the journal is made of: "Each call's answer also has a record of 16 bytes".

use crate::checks::{Call, Kind, Refusal};
use crate::records::{take, Record};

/// A record of the journal, its fields as numbers. One from anywhere may have any.
#[derive(Clone, Copy, Debug, PartialEq, Eq)]
pub struct Entry {
    pub time: u64,
    pub connection: u8,
    /// "0 open, 1 message, 2 close, 3 keepalive check"
    pub call: u8,
    /// "type byte or 0"
    pub kind: u8,
    pub answer: u8,
    pub charge: u32,
}

impl Record for Entry {
    const LENGTH: usize = 16;

    /// "most significant byte first"
    fn decode(mut bytes: &[u8]) -> Self {
        let time = u64::from_be_bytes(take(&mut bytes));
        let [connection, call, kind, answer] = take(&mut bytes);
        Self { time, connection, call, kind, answer, charge: u32::from_be_bytes(take(&mut bytes)) }
    }

    fn encode(&self, to: &mut Vec<u8>) {
        to.extend(self.time.to_be_bytes());
        to.extend([self.connection, self.call, self.kind, self.answer]);
        to.extend(self.charge.to_be_bytes());
    }
}

/// The bytes of a call's record: of one that isn't in the journal "all zero".
pub(crate) type EntryBytes = [u8; Entry::LENGTH];

/// "A fresh start has no record."
pub(crate) const NO_ENTRY: EntryBytes = [0; Entry::LENGTH];

impl Entry {
    /// The record of a call with this outcome, which was charged so much, or, refused with 9, would have been: "all zero on 1
    /// to 3".
    pub(crate) fn of(call: &Call, refusal: Option<Refusal>, charge: u64) -> EntryBytes {
        if matches!(refusal, Some(Refusal::TableSize | Refusal::Time | Refusal::NoSuchConnection)) {
            return NO_ENTRY;
        }
        let (number, kind) = match call.kind {
            Kind::Open { .. } => (0, 0),
            // "the first byte of a non-empty message as it came"
            Kind::Message { message, .. } => (1, message.first().copied().unwrap_or(0)),
            Kind::Close { .. } => (2, 0),
            Kind::Keepalive { .. } => (3, 0),
        };
        let answer = refusal.map_or(0, |refusal| refusal as u8);
        // Past check 3 a connection's number is below 64, and a price below 2^18.
        let (connection, charge) = (call.connection as u8, charge as u32);
        Self { time: call.now, connection, call: number, kind, answer, charge }.bytes()
    }

    pub fn bytes(&self) -> [u8; Self::LENGTH] {
        let mut bytes = Vec::new();
        self.encode(&mut bytes);
        bytes.try_into().expect("the fields have as many bytes")
    }
}
