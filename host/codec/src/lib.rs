//! The messages of the ScreenView server protocol (SVSC), written from section 4 of its paper (July 2022) and the
//! table of the project's scope, "Messages, by first byte"; and their frames on a TCP stream, [`frames`], written from
//! section 3.1 and the project's request 9. It shares nothing with the proved codec and framing but these papers: that is
//! what makes comparing them worth something.

mod cursor;
mod decode;
mod encode;
pub mod frames;
mod message;

pub use decode::decode;
pub use encode::{encode, write, Refusal};
pub use message::{Message, Session, COOKIE_LENGTH, DATA_LIMIT, SESSION_FIELD_LENGTH, VERSION_LIMIT};
