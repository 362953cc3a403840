//! Dead connections: "The paper's TCP keepalive, with a KeepaliveTimeout of 30 seconds."

use crate::records::Connection;

/// A connection is asked when nothing was sent to it for so many seconds.
pub const KEEPALIVE_TIMEOUT: u64 = 30;
/// It is dead when a keepalive was unanswered for so many.
pub const ANSWER_TIMEOUT: u64 = 60;

/// What a connection's record calls for.
#[derive(Clone, Copy, Debug, PartialEq, Eq)]
pub enum Due {
    Nothing,
    /// A keepalive is sent.
    Ask,
    /// The connection is dead.
    Close,
}

impl Connection {
    /// "byte 2 other than 1 as none unanswered"
    pub fn is_unanswered(&self) -> bool {
        self.unanswered == 1
    }

    /// "unanswered for 60 seconds or more, the connection is closed [..]; else, none unanswered and nothing sent for 30
    /// seconds or more, a Keepalive [..]. Otherwise nothing is sent"
    pub fn due(&self, now: u64) -> Due {
        // "A stored reading after the present one counts as no time passed"
        let passed_since = |time: u64| now.saturating_sub(time);
        if self.is_unanswered() && passed_since(self.asked) >= ANSWER_TIMEOUT {
            Due::Close
        } else if !self.is_unanswered() && passed_since(self.sent) >= KEEPALIVE_TIMEOUT {
            Due::Ask
        } else {
            Due::Nothing
        }
    }

    /// "sets byte 2 and both readings": the other one as every message sent does.
    pub(crate) fn set_asked(&mut self, now: u64) {
        (self.unanswered, self.asked) = (1, now);
    }
}
