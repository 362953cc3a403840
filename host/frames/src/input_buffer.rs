//! What has come on a stream and hasn't been taken yet.

use std::io::{self, Read};

use engine::{aligned_start, DATA_ALIGNMENT};

use crate::state::{State, Step};
use crate::{Refusal, MESSAGE_LIMIT, OVERHEAD};

/// Bytes of a buffer's memory: two frames of the largest size, in whole pages.
pub const CAPACITY: usize = (2 * (OVERHEAD + MESSAGE_LIMIT)).next_multiple_of(4096);
/// Bytes of it that are read at a time. The message comes before them.
pub const CHUNK: usize = CAPACITY - DATA_ALIGNMENT - MESSAGE_LIMIT;

/// The first message of a stream, as far as it has come, and a chunk of what is behind it. It has memory only while there are
/// bytes to keep: how much of a frame's header has come is known without.
#[derive(Default)]
pub struct InputBuffer {
    /// The message and then the chunk: [`CAPACITY`] bytes, or none.
    memory: Box<[u8]>,
    /// Where the message begins, so that its data, after a type byte, is aligned for the engine.
    front: usize,
    /// The bytes of the chunk from `start` to `end` wait for their step.
    start: usize,
    end: usize,
    state: State,
    /// The length of the message, once it is whole.
    message: Option<usize>,
    refusal: Option<Refusal>,
}

impl InputBuffer {
    /// Reads once, while there is neither a whole message nor a refusal: then every byte that has come is in the message.
    /// Memory is asked for if it has none. Gives how many bytes were read; up to [`CHUNK`].
    pub fn read_from(&mut self, stream: &mut impl Read, memory: impl FnOnce() -> Box<[u8]>) -> io::Result<usize> {
        debug_assert!(
            self.message.is_none() && self.refusal.is_none() && self.start == self.end,
            "bytes would be lost"
        );
        if self.memory.is_empty() {
            self.memory = memory();
            self.front = aligned_start(&self.memory, 1);
        }
        let count = stream.read(self.parts().1)?;
        (self.start, self.end) = (0, count);
        self.step();
        Ok(count)
    }

    /// The first message, once it is whole.
    #[inline]
    pub fn message(&self) -> Option<&[u8]> {
        self.message.map(|length| &self.memory[self.front..][..length])
    }

    /// Passes over the first message, if it is whole.
    #[inline]
    pub fn take(&mut self) {
        if self.message.take().is_some() {
            self.step();
        }
    }

    /// Why what comes next is no frame, if so.
    pub fn refusal(&self) -> Option<Refusal> {
        self.refusal
    }

    /// Whether no byte waits, not even of half a frame.
    pub fn is_empty(&self) -> bool {
        self.state.is_fresh() && !self.has_bytes()
    }

    /// Whether there are bytes in its memory.
    fn has_bytes(&self) -> bool {
        self.message.is_some() || self.start < self.end || self.state.has_message_bytes()
    }

    /// Gives the memory back if no byte waits in it.
    pub fn release(&mut self) -> Option<Box<[u8]>> {
        let is_unused = !self.memory.is_empty() && !self.has_bytes();
        is_unused.then(|| std::mem::take(&mut self.memory))
    }

    /// Drops all that waits, and gives the memory back.
    pub fn discard(&mut self) -> Option<Box<[u8]>> {
        let memory = std::mem::take(self).memory;
        (!memory.is_empty()).then_some(memory)
    }

    /// Takes bytes of the chunk into the message: all of them, or those up to the end of its frame.
    #[inline]
    fn step(&mut self) {
        if self.start == self.end || self.refusal.is_some() {
            return;
        }
        let mut state = self.state;
        let waiting = self.start..self.end;
        let (message, chunk) = self.parts();
        match state.step(message, &chunk[waiting]) {
            Ok(Step { used, message }) => {
                self.start += used;
                self.message = message;
            }
            Err(refusal) => self.refusal = Some(refusal),
        }
        self.state = state;
    }

    /// Room for the longest message, and for a chunk.
    fn parts(&mut self) -> (&mut [u8], &mut [u8]) {
        self.memory[self.front..][..MESSAGE_LIMIT + CHUNK].split_at_mut(MESSAGE_LIMIT)
    }
}
