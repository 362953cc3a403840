//! Kinds of states, messages and ends, for counts of what was reached.

use codec::frames::{parse, End, MESSAGE_LIMIT};

use crate::forms;

/// The states that bytes lead to.
pub const STATES: [&str; 4] = ["fresh", "half a length", "before the type", "within a message"];
pub const REFUSED: &str = "refused";
/// What no bytes lead to, by what is wrong about it.
pub const NO_STATES: [&str; 7] = [
    "0 taken, of a size",
    "1 taken, no first byte",
    "1 taken, size too large",
    "length 0",
    "size too large",
    "just all taken",
    "more than all taken",
];

/// The kind of a state.
pub fn state(taken: u32, size: u32) -> &'static str {
    match (taken, size) {
        (0, 0) => STATES[0],
        (0, 1) => REFUSED,
        (0, _) => NO_STATES[0],
        (1, 65_536..) => NO_STATES[2],
        (1, _) if size.is_multiple_of(256) => STATES[1],
        (1, _) => NO_STATES[1],
        (_, 0) => NO_STATES[3],
        (_, 65_536..) => NO_STATES[4],
        (2, _) => STATES[2],
        _ if taken < size + 2 => STATES[3],
        _ if taken == size + 2 => NO_STATES[5],
        _ => NO_STATES[6],
    }
}

/// What a frame can hold beside the messages of the protocol.
pub const OTHER_MESSAGES: [&str; 4] = ["empty", "none of the protocol's", "unknown type", "the longest"];

/// The kind of a message.
pub fn message(message: &[u8]) -> &'static str {
    match message.len() {
        MESSAGE_LIMIT => OTHER_MESSAGES[3],
        _ if codec::decode(message).is_some() || !forms::TYPES.contains(&forms::type_name(message)) => {
            forms::type_name(message)
        }
        _ => OTHER_MESSAGES[1],
    }
}

/// How streams end.
pub const BETWEEN: &str = "between frames";
pub const WITHIN: &str = "within a frame";
pub const LENGTH_0: &str = "by length 0";
pub const ANOTHER_TYPE: &str = "by another type";

/// The kind of a stream's end.
pub fn end(stream: &[u8]) -> &'static str {
    match parse(stream) {
        (_, End::Within(0)) => BETWEEN,
        (_, End::Within(_)) => WITHIN,
        (messages, End::Refused(after)) => {
            let complete: usize = messages.iter().map(|message| message.len() + 3).sum();
            match after - complete {
                2 => LENGTH_0,
                _ => ANOTHER_TYPE,
            }
        }
    }
}
