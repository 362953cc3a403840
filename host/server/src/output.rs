//! What waits to be written to a peer.
//!
//! A message that the engine has accepted is always taken, so that the order of the engine's calls is the order on the
//! wire and nothing is lost. The bound is kept by the connections that fill an output: from one whose last message left
//! an output at the bound no further message is taken until the output is below it, and TCP slows its peer. So an output
//! holds at most the bound, a message of the peer in session and a short one of each other connection of the partner;
//! more, if these come and go. Then the output's own connection is given up.

use std::io::{self, Write};

use engine::frames::{write, FRAME_LIMIT};
use frames::{MESSAGE_LIMIT, OVERHEAD};

use crate::buffer_pool::BufferPool;

/// Bytes, from which on those who fill the output wait.
pub const BOUND: usize = 98_304;
/// More can't wait, unless connections add to the output and leave, over and over.
const EXCESS: usize = 2 * BOUND + MESSAGE_LIMIT;
/// Room for the bound and a frame of the largest size. More is needed only if several fill an output at once.
pub const CAPACITY: usize = BOUND + FRAME_LIMIT;

/// Frames that wait to be written, in their order.
#[derive(Default)]
pub struct Output {
    /// Empty while nothing waits.
    buffer: Box<[u8]>,
    start: usize,
    end: usize,
}

impl Output {
    /// Bytes that wait.
    pub fn len(&self) -> usize {
        self.end - self.start
    }

    pub fn is_empty(&self) -> bool {
        self.len() == 0
    }

    pub fn is_full(&self) -> bool {
        self.len() >= BOUND
    }

    pub fn is_excessive(&self) -> bool {
        self.len() > EXCESS
    }

    /// Adds the message's frame.
    pub fn append(&mut self, message: &[u8], spare: &mut BufferPool) {
        self.make_room(message.len() + OVERHEAD, spare);
        // The engine sends no message too long for a frame.
        self.end += write(&mut self.buffer[self.end..], message).length as usize;
    }

    /// Writes as much as the stream takes. Gives how much that was.
    pub fn write_to(&mut self, stream: &mut impl Write, spare: &mut BufferPool) -> io::Result<usize> {
        let before = self.len();
        while !self.is_empty() {
            match stream.write(&self.buffer[self.start..self.end]) {
                Ok(0) => return Err(io::ErrorKind::WriteZero.into()),
                Ok(count) => self.start += count,
                Err(error) if error.kind() == io::ErrorKind::WouldBlock => break,
                Err(error) if error.kind() == io::ErrorKind::Interrupted => {}
                Err(error) => return Err(error),
            }
        }
        let written = before - self.len();
        self.release(spare);
        Ok(written)
    }

    /// Forgets what waits.
    pub fn clear(&mut self, spare: &mut BufferPool) {
        self.start = self.end;
        self.release(spare);
    }

    /// Gives the buffer back if nothing waits.
    fn release(&mut self, spare: &mut BufferPool) {
        if self.is_empty() && !self.buffer.is_empty() {
            spare.give(std::mem::take(self).buffer);
        }
    }

    fn make_room(&mut self, length: usize, spare: &mut BufferPool) {
        if self.is_empty() {
            if self.buffer.is_empty() {
                self.buffer = spare.take();
            }
            (self.start, self.end) = (0, 0);
        }
        if self.buffer.len() - self.end < length {
            self.move_to_front(length);
        }
    }

    /// Moves what waits to the front, of a larger buffer where this one can't hold so many bytes more.
    fn move_to_front(&mut self, length: usize) {
        let waiting = self.start..self.end;
        let needed = waiting.len() + length;
        (self.start, self.end) = (0, waiting.len());
        if needed <= self.buffer.len() {
            self.buffer.copy_within(waiting, 0);
        } else {
            let mut larger = vec![0; needed.next_multiple_of(CAPACITY)].into_boxed_slice();
            larger[..waiting.len()].copy_from_slice(&self.buffer[waiting]);
            self.buffer = larger;
        }
    }
}

#[cfg(test)]
mod tests {
    use std::io::{self, Write};

    use super::{Output, CAPACITY};
    use crate::buffer_pool::BufferPool;

    /// A message's frame, by section 3.1.
    fn frame(message: &[u8]) -> Vec<u8> {
        let [high, low] = (message.len() as u16 + 1).to_be_bytes();
        [&[high, low, 1], message].concat()
    }

    /// Takes so many bytes at a time, and then no more for once.
    struct Stream {
        taken: Vec<u8>,
        at_a_time: usize,
        full: bool,
    }

    impl Write for Stream {
        fn write(&mut self, bytes: &[u8]) -> io::Result<usize> {
            if std::mem::replace(&mut self.full, true) {
                self.full = false;
                return Err(io::ErrorKind::WouldBlock.into());
            }
            let count = bytes.len().min(self.at_a_time);
            self.taken.extend(&bytes[..count]);
            Ok(count)
        }

        fn flush(&mut self) -> io::Result<()> {
            Ok(())
        }
    }

    #[test]
    fn what_is_added_is_written_in_order_whatever_is_taken_at_a_time() {
        let mut spare = BufferPool::new(CAPACITY);
        let (mut output, mut expected) = (Output::default(), Vec::new());
        let mut stream = Stream { taken: Vec::new(), at_a_time: 50_000, full: false };
        for round in 0..60_u8 {
            let message = vec![round; 65_534 / (1 + usize::from(round % 4))];
            expected.extend(frame(&message));
            output.append(&message, &mut spare);
            assert_eq!(output.is_full(), output.len() >= 98_304);
            output.write_to(&mut stream, &mut spare).expect("a write");
        }
        while !output.is_empty() {
            output.write_to(&mut stream, &mut spare).expect("a write");
        }
        assert!(stream.taken == expected, "other bytes");
        assert!(output.buffer.is_empty(), "a drained output has no buffer");
    }

    /// Nothing is taken until more waits than a buffer holds, and then so little that what waits is moved to the front.
    #[test]
    fn what_waits_outgrows_its_buffer_and_moves_to_its_front() {
        let mut spare = BufferPool::new(CAPACITY);
        let (mut output, mut expected) = (Output::default(), Vec::new());
        let mut stream = Stream { taken: Vec::new(), at_a_time: 60_000, full: false };
        let mut sizes = Vec::new();
        for round in 0..40_u8 {
            let message = (0..60_001).map(|place| (place % 249) as u8 ^ round).collect::<Vec<_>>();
            expected.extend(frame(&message));
            output.append(&message, &mut spare);
            sizes.push(output.buffer.len());
            if round > 4 {
                output.write_to(&mut stream, &mut spare).expect("a write");
            }
        }
        assert!(sizes.last() > sizes.first() && sizes[20..].windows(2).all(|two| two[0] == two[1]), "{sizes:?}");
        while !output.is_empty() {
            output.write_to(&mut stream, &mut spare).expect("a write");
        }
        assert!(stream.taken == expected, "other bytes");
    }

    /// Also where what waits and what comes fill the buffer to the byte. Only what doesn't fit makes it larger.
    #[test]
    fn there_is_as_much_room_as_is_needed() {
        let before = [[7; 60_000], [8; 60_000]];
        let fitting = CAPACITY - 2 * 60_003 - 3;
        for length in fitting - 5..=fitting + 5 {
            let (mut spare, mut output) = (BufferPool::new(CAPACITY), Output::default());
            let last = vec![9; length];
            before.iter().for_each(|message| output.append(message, &mut spare));
            output.append(&last, &mut spare);
            assert_eq!(output.buffer.len() == CAPACITY, length <= fitting, "{length}");
            let expected = [frame(&before[0]), frame(&before[1]), frame(&last)].concat();
            assert!(output.buffer[output.start..output.end] == expected, "{length}: other bytes");
        }
    }

    #[test]
    fn short_messages_have_their_frames() {
        let (mut spare, mut output) = (BufferPool::new(CAPACITY), Output::default());
        for message in [&b"hi"[..], b"", &[13]] {
            output.append(message, &mut spare);
        }
        assert_eq!(output.buffer[..output.end], [0, 3, 1, b'h', b'i', 0, 1, 1, 0, 2, 1, 13]);
    }
}
