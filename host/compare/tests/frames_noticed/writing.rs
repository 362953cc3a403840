//! A writer whose rules can be replaced one by one.

use compare::frames::boundary::{Boundary, Second};
use engine::frames::{Step, Written, DONE, MESSAGE_LIMIT, REFUSED, SHORT};

/// A writer by these rules; it reads as the second implementation does.
#[derive(Clone, Copy)]
pub struct Writing {
    pub is_too_long: fn(usize) -> bool,
    /// Whether a frame of this message's length is too long for this room.
    pub is_short: fn(usize, usize) -> bool,
    pub is_short_first: bool,
    /// The header, by the message's length.
    pub header: fn(usize) -> Vec<u8>,
    /// The length that is told.
    pub length: fn(usize) -> usize,
    pub refused_length: fn(usize) -> usize,
    /// What happens to the buffer of a refused message.
    pub refused_written: fn(&mut [u8], &[u8]),
    /// What happens to the rest of the buffer.
    pub rest: fn(&mut [u8]),
}

/// As the papers say.
pub const RIGHT: Writing = Writing {
    is_too_long: |length| length > MESSAGE_LIMIT,
    is_short: |room, length| room < length + 3,
    is_short_first: false,
    header: |length| [&(length as u16 + 1).to_be_bytes()[..], &[1]].concat(),
    length: |length| length + 3,
    refused_length: |_| 0,
    refused_written: |_, _| {},
    rest: |_| {},
};

impl Writing {
    fn number(&self, room: usize, length: usize) -> u32 {
        match ((self.is_too_long)(length), (self.is_short)(room, length)) {
            (false, false) => DONE,
            (true, true) if self.is_short_first => SHORT,
            (true, _) => REFUSED,
            _ => SHORT,
        }
    }
}

impl Boundary for Writing {
    fn read(&self, taken: u32, size: u32, message: &mut [u8], chunk: &[u8]) -> Step {
        Second.read(taken, size, message, chunk)
    }

    fn write(&self, frame: &mut [u8], message: &[u8]) -> Written {
        let number = self.number(frame.len(), message.len());
        if number != DONE {
            (self.refused_written)(frame, message);
            return Written { number, length: (self.refused_length)(message.len()) as u32 };
        }
        let bytes = [(self.header)(message.len()).as_slice(), message].concat();
        let written = bytes.len().min(frame.len());
        frame[..written].copy_from_slice(&bytes[..written]);
        (self.rest)(&mut frame[written..]);
        Written { number, length: (self.length)(message.len()) as u32 }
    }
}
