//! Where two implementations differ.

use std::fmt;

use crate::guarded::Guarded;

/// The call, and what differs.
pub struct Difference(String);

impl fmt::Debug for Difference {
    fn fmt(&self, out: &mut fmt::Formatter) -> fmt::Result {
        out.write_str(&self.0)
    }
}

pub fn same<T: PartialEq + fmt::Debug>(call: impl Fn() -> String, ours: &T, expected: &T) -> Result<(), Difference> {
    if ours == expected {
        return Ok(());
    }
    Err(Difference(format!("{}: {ours:?}, expected {expected:?}", call())))
}

pub fn same_bytes(call: impl Fn() -> String, ours: &Guarded, expected: &Guarded) -> Result<(), Difference> {
    match ours.first_difference(expected) {
        None => Ok(()),
        Some(place) => Err(Difference(format!("{}: an unexpected byte at {place} of a lent buffer", call()))),
    }
}

/// The bytes of a message, long data cut short.
pub fn shown(message: &[u8]) -> String {
    format!("{} bytes {:?}", message.len(), &message[..message.len().min(70)])
}
