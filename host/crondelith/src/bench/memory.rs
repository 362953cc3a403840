//! A message, or a frame, and a buffer at chosen places of one piece of memory.
//!
//! Where an allocation lies is chance, and what a copy takes may depend on it: on whether its stores cross the ends of
//! the cache's lines, and on how far apart the two places are in their pages, if `rep movsb` makes it.

use std::ops::Range;

const PAGE: usize = 4_096;

/// Where in a page the data begins: the second byte of what is copied from, and of what is copied to.
pub struct Place {
    pub text: &'static str,
    /// The message's.
    from: usize,
    /// The buffer's.
    to: usize,
}

/// As a host should lend them.
pub const ALIGNED: Place = Place { text: "data at multiples of 64", from: 64, to: 2_048 };
pub const BUFFER_OFF: Place = Place { text: "data one byte beyond in the buffer", from: 64, to: 2_049 };
pub const MESSAGE_OFF: Place = Place { text: "data one byte beyond in the message", from: 65, to: 2_048 };
/// What a plain copy takes here depends on how the C library makes it.
pub const NEAR: Place =
    Place { text: "data 8 bytes further in the buffer's page than in the message's", from: 56, to: 64 };

pub struct Memory {
    bytes: Vec<u8>,
    message: Range<usize>,
    buffer: Range<usize>,
}

impl Memory {
    /// A copy of the message, and behind it, in pages of its own, a buffer of this length that holds zeros.
    pub fn new(message: &[u8], length: usize, place: &Place) -> Option<Self> {
        // A page more at either end: one until the first begins, and one in which the data may begin late.
        let own = |length: usize| length.next_multiple_of(PAGE) + PAGE;
        let mut bytes = vec![0; PAGE + own(message.len()) + own(length)];
        let page = bytes.as_ptr().align_offset(PAGE).min(PAGE);
        let (from, to) = (page + place.from - 1, page + own(message.len()) + place.to - 1);
        bytes.get_mut(from..from + message.len())?.copy_from_slice(message);
        (to + length <= bytes.len()).then_some(Self {
            bytes,
            message: from..from + message.len(),
            buffer: to..to + length,
        })
    }

    /// The message, and the buffer.
    pub fn lend(&mut self) -> (&[u8], &mut [u8]) {
        let (before, behind) = self.bytes.split_at_mut(self.buffer.start);
        (&before[self.message.clone()], &mut behind[..self.buffer.len()])
    }

    /// Clears the buffer, so that what an earlier batch wrote can't pass for what the next one should.
    pub fn clear(&mut self) {
        self.lend().1.fill(0);
    }
}

#[cfg(test)]
mod tests {
    use super::{Memory, ALIGNED, BUFFER_OFF, MESSAGE_OFF, NEAR, PAGE};

    #[test]
    fn the_data_begins_at_the_places_that_are_named() {
        for (place, from, to) in
            [(ALIGNED, 64, 2_048), (BUFFER_OFF, 64, 2_049), (MESSAGE_OFF, 65, 2_048), (NEAR, 56, 64)]
        {
            for length in [2, 4_096, 65_534] {
                let mut memory = Memory::new(&vec![7; length], length.max(64), &place).expect("memory");
                let (message, buffer) = memory.lend();
                assert_eq!(message[1..].as_ptr() as usize % PAGE, from);
                assert_eq!(buffer[1..].as_ptr() as usize % PAGE, to);
                assert!(message.iter().all(|&byte| byte == 7) && buffer.iter().all(|&byte| byte == 0));
            }
        }
    }
}
