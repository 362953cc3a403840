//! What a partner got from the relay.

use std::fmt;

#[derive(Clone, Copy, Debug, Default, PartialEq, Eq)]
pub struct Statistics {
    /// Opens, messages and closes that were accepted, and closes for want of an answer.
    pub done: u64,
    /// Opens and messages that had to wait for the allowance.
    pub waited: u64,
    /// Messages dropped for want of a session.
    pub dropped: u64,
    /// Bytes of the accepted messages.
    pub bytes: u64,
}

impl fmt::Display for Statistics {
    fn fmt(&self, to: &mut fmt::Formatter) -> fmt::Result {
        let Self { done, waited, dropped, bytes } = self;
        write!(to, "{done} calls done, {waited} made to wait, {dropped} dropped, {bytes} bytes")
    }
}
