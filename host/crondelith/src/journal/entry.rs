//! A record of the journal with its fields read, and what they mean in words.

use std::fmt;

use engine::relay::Record;
use server::Refusal;

use crate::explain::{partner_of, type_name};
use crate::words::{connection, date, units};

/// The calls by their numbers: their names for programs and for people.
pub const CALLS: [(&str, &str); 4] =
    [("open", "open"), ("message", "message"), ("close", "close"), ("keepalive", "keepalive check")];
const MESSAGE: u8 = 1;
const CLOSE: u8 = 2;
const KEEPALIVE: u8 = 3;
/// A session's end, the one message that is free.
const SESSION_END: u8 = 9;

/// The answer of a call that is done.
pub const DONE: u8 = 0;
/// The answer of one that costs more than its partner has.
pub const USED_UP: u8 = 9;

#[derive(Clone, Copy, Debug, PartialEq, Eq)]
pub struct Entry {
    pub time: u64,
    pub connection: u8,
    pub call: u8,
    /// The first byte of a message; else 0.
    pub type_byte: u8,
    pub answer: u8,
    /// What a done call was charged, or one that is refused with 9 would cost.
    pub charge: u32,
}

impl From<&Record> for Entry {
    fn from(&[t0, t1, t2, t3, t4, t5, t6, t7, connection, call, type_byte, answer, c0, c1, c2, c3]: &Record) -> Self {
        let time = u64::from_be_bytes([t0, t1, t2, t3, t4, t5, t6, t7]);
        Self { time, connection, call, type_byte, answer, charge: u32::from_be_bytes([c0, c1, c2, c3]) }
    }
}

impl Entry {
    /// The partner that the connection belongs to, if there is such a connection.
    pub fn partner(&self) -> Option<u64> {
        partner_of(self.connection.into())
    }

    /// The call's name for programs, if there is such a call.
    pub fn call_name(&self) -> Option<&'static str> {
        CALLS.get(usize::from(self.call)).map(|(name, _)| *name)
    }

    /// The name of the message's type, if it is a message and peers send such.
    pub fn type_name(&self) -> Option<&'static str> {
        type_name(self.type_byte).filter(|_| self.call == MESSAGE)
    }

    /// The check that refused the call, if any.
    pub fn refusal(&self) -> Option<Refusal> {
        (self.answer != DONE).then_some(Refusal(self.answer.into()))
    }

    /// Whether nobody pays for such a call.
    pub fn is_free(&self) -> bool {
        matches!((self.call, self.type_byte), (CLOSE | KEEPALIVE, _) | (MESSAGE, SESSION_END))
    }

    /// What was called, in words.
    fn call(&self) -> String {
        let connection = connection(self.connection.into(), self.partner());
        match (CALLS.get(usize::from(self.call)), self.type_byte) {
            (Some((_, name)), _) if self.call == MESSAGE => format!("{name} {} from {connection}", self.type_words()),
            (Some((_, name)), 0) => format!("{name} of {connection}"),
            // The relay writes 0 there, and nothing depends on it.
            (Some((_, name)), byte) => format!("{name} of {connection}, with type byte {byte}"),
            (None, byte) => format!("call {} of {connection}, with type byte {byte}", self.call),
        }
    }

    fn type_words(&self) -> String {
        match (self.type_byte, self.type_name()) {
            // An empty message has no type, and its record 0.
            (0, _) => "of type 0, or empty,".into(),
            (byte, Some(name)) => format!("of type {byte} ({name})"),
            (byte, None) => format!("of type {byte}"),
        }
    }

    /// What it was answered, in words. A refused call is charged nothing, which isn't told.
    fn answer(&self) -> String {
        let charge = units(self.charge.into());
        let Some(refusal @ Refusal(number)) = self.refusal() else {
            return if self.charge == 0 { "done, charged nothing".into() } else { format!("done, charged {charge}") };
        };
        let refused = format!("refused with {number}, {}", refusal.reason());
        match (self.answer, self.charge) {
            (USED_UP, _) => format!("{refused}; it would cost {charge}"),
            (_, 0) => refused,
            (..) => format!("{refused}, charged {charge}"),
        }
    }
}

impl fmt::Display for Entry {
    fn fmt(&self, to: &mut fmt::Formatter) -> fmt::Result {
        write!(to, "{}: {}: {}", date(self.time), self.call(), self.answer())
    }
}
