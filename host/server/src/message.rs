//! The types of the messages that the host treats apart: a message's first byte.

pub const LEASE_REQUEST: u8 = 2;
pub const EXTENSION_REQUEST: u8 = 4;
pub const ESTABLISH_REQUEST: u8 = 6;
pub const SESSION_END: u8 = 9;
pub const DATA_SEND: u8 = 11;
