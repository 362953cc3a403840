//! Messages on a TCP stream. The engine reads and writes their frames, as in section 3.1 of the ScreenView paper (July
//! 2022); here are the buffers for it, and the words for what it refuses.

mod error;
mod input_buffer;
mod reader;
mod state;

use engine::frames::{write, DONE, FRAME_LIMIT};

pub use engine::frames::MESSAGE_LIMIT;
pub use error::{is_timeout, Error, Refusal};
pub use input_buffer::{InputBuffer, CAPACITY, CHUNK};
pub use reader::Reader;

/// By so many bytes a frame is longer than its message.
pub const OVERHEAD: usize = FRAME_LIMIT - MESSAGE_LIMIT;

/// Appends the message's frame. None for a message above [`MESSAGE_LIMIT`], which has none; nothing is appended then.
pub fn append(message: &[u8], to: &mut Vec<u8>) -> Option<()> {
    let start = to.len();
    to.resize(start + message.len() + OVERHEAD, 0);
    let written = write(&mut to[start..], message);
    to.truncate(start + written.length as usize);
    (written.number == DONE).then_some(())
}
