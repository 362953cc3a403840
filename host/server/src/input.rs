//! What has come from a peer and hasn't been taken yet.

use std::io::{self, Read};

use frames::{InputBuffer, Refusal, CHUNK};

use crate::buffer_pool::BufferPool;

/// What a read found.
#[derive(Debug, PartialEq, Eq)]
pub enum ReadOutcome {
    /// All that has come is read.
    All,
    /// As much was read as can be: there may be more.
    Part,
    /// Nothing has come.
    Nothing,
    /// Nothing will come any more.
    End,
}

/// Bytes of a connection, with memory of the pool's while some wait.
#[derive(Default)]
pub struct Input {
    buffer: InputBuffer,
}

impl Input {
    /// Reads once. No whole message may wait.
    pub fn read_from(&mut self, stream: &mut impl Read, spare: &mut BufferPool) -> io::Result<ReadOutcome> {
        let found = match self.buffer.read_from(stream, || spare.take()) {
            Ok(0) => Ok(ReadOutcome::End),
            Ok(CHUNK) => Ok(ReadOutcome::Part),
            Ok(_) => Ok(ReadOutcome::All),
            Err(error) if error.kind() == io::ErrorKind::WouldBlock => Ok(ReadOutcome::Nothing),
            Err(error) if error.kind() == io::ErrorKind::Interrupted => Ok(ReadOutcome::Part),
            Err(error) => Err(error),
        };
        self.release(spare);
        found
    }

    /// The first message, once its frame is whole.
    pub fn message(&self) -> Option<&[u8]> {
        self.buffer.message()
    }

    /// Passes over the first message, if there is one.
    pub fn take(&mut self) {
        self.buffer.take();
    }

    /// Why what comes next is no frame, if so.
    pub fn refusal(&self) -> Option<Refusal> {
        self.buffer.refusal()
    }

    /// Whether no byte waits, not even of half a frame.
    pub fn is_empty(&self) -> bool {
        self.buffer.is_empty()
    }

    /// Gives the memory back if no byte waits in it.
    pub fn release(&mut self, spare: &mut BufferPool) {
        if let Some(memory) = self.buffer.release() {
            spare.give(memory);
        }
    }

    /// Gives the memory back with all that waits in it.
    pub fn discard(&mut self, spare: &mut BufferPool) {
        if let Some(memory) = self.buffer.discard() {
            spare.give(memory);
        }
    }
}

#[cfg(test)]
mod tests {
    use std::io::{self, Read};

    use frames::{Refusal, CAPACITY, CHUNK};

    use super::{Input, ReadOutcome};
    use crate::buffer_pool::BufferPool;

    /// A message's frame, by section 3.1.
    fn frame(message: &[u8]) -> Vec<u8> {
        let [high, low] = (message.len() as u16 + 1).to_be_bytes();
        [&[high, low, 1], message].concat()
    }

    /// A stream that has no more than these bytes yet.
    struct Open<'a>(&'a [u8]);

    impl Read for Open<'_> {
        fn read(&mut self, to: &mut [u8]) -> io::Result<usize> {
            match self.0.read(to) {
                Ok(0) => Err(io::ErrorKind::WouldBlock.into()),
                other => other,
            }
        }
    }

    /// All messages that have come; the data of each must be aligned.
    fn take_all(input: &mut Input) -> Vec<Vec<u8>> {
        let next = || {
            let message = input.message()?;
            assert_eq!((message.as_ptr() as usize + 1) % 64, 0, "{} bytes", message.len());
            let message = message.to_vec();
            input.take();
            Some(message)
        };
        std::iter::from_fn(next).collect()
    }

    #[test]
    fn messages_are_the_same_and_their_data_is_aligned_wherever_reads_cut() {
        let messages = [1, 0, 2, 65_534, 300, 65_534, 64].map(|length| vec![length as u8; length]);
        let sent = messages.iter().flat_map(|message| frame(message)).collect::<Vec<_>>();
        for at_a_time in [1, 2, 3, 7, 5_000, 65_537, 70_000] {
            let (mut input, mut spare) = (Input::default(), BufferPool::new(CAPACITY));
            let (mut rest, mut taken) = (sent.as_slice(), Vec::new());
            while !rest.is_empty() {
                input.read_from(&mut rest.by_ref().take(at_a_time), &mut spare).expect("a read");
                taken.append(&mut take_all(&mut input));
            }
            assert!(taken == messages, "{at_a_time} at a time: other messages");
            assert!(input.is_empty() && input.refusal().is_none());
        }
    }

    /// Nor does it while nothing has come. A byte of the message has to be kept.
    #[test]
    fn half_a_header_holds_no_memory() {
        let (mut input, mut spare) = (Input::default(), BufferPool::new(CAPACITY));
        for (bytes, is_held) in
            [(&[][..], false), (&[0], false), (&[3], false), (&[1], false), (&[7], true), (&[8], true)]
        {
            input.read_from(&mut Open(bytes), &mut spare).expect("a read");
            assert_eq!(spare.count(), usize::from(!is_held), "{bytes:?}");
        }
        assert_eq!(take_all(&mut input), [[7, 8]]);
        assert!(input.is_empty());
        input.release(&mut spare);
        assert_eq!(spare.count(), 1);
    }

    #[test]
    fn a_begun_frame_is_no_empty_input_until_it_is_whole_or_discarded() {
        let (mut input, mut spare) = (Input::default(), BufferPool::new(CAPACITY));
        for byte in [0, 3, 1, 7] {
            input.read_from(&mut Open(&[byte]), &mut spare).expect("a read");
            assert!(!input.is_empty() && input.message().is_none());
        }
        input.discard(&mut spare);
        assert!(input.is_empty());
        assert_eq!(spare.count(), 1);
        input.read_from(&mut Open(&frame(b"next")), &mut spare).expect("a read");
        assert_eq!(take_all(&mut input), [b"next"]);
    }

    #[test]
    fn what_is_no_frame_is_told_after_the_messages_before_it() {
        let garbage: [(&[u8], Refusal); 4] = [
            (&[0, 0], Refusal::NoLength),
            (&[0, 0, 1, 5], Refusal::NoLength),
            (&[0, 2, 2, 13], Refusal::WrongType(2)),
            (b"GET / HTTP/1.1\r\n\r\n", Refusal::WrongType(b'T')),
        ];
        for (bytes, refusal) in garbage {
            for at_a_time in [1, 2, 3, 100] {
                let (mut input, mut spare) = (Input::default(), BufferPool::new(CAPACITY));
                let sent = [frame(b"before"), bytes.to_vec()].concat();
                let (mut rest, mut taken) = (sent.as_slice(), Vec::new());
                while input.refusal().is_none() {
                    input.read_from(&mut rest.by_ref().take(at_a_time), &mut spare).expect("a read");
                    taken.append(&mut take_all(&mut input));
                }
                assert_eq!(taken, [b"before"]);
                assert_eq!(input.refusal(), Some(refusal), "{bytes:?}, {at_a_time} at a time");
                assert!(!input.is_empty(), "something has come");
                input.discard(&mut spare);
                assert_eq!(spare.count(), 1);
            }
        }
    }

    #[test]
    fn a_read_tells_what_it_found() {
        let (mut input, mut spare) = (Input::default(), BufferPool::new(CAPACITY));
        let mut read = |stream: &mut dyn Read| {
            let found = input.read_from(&mut { stream }, &mut spare).expect("a read");
            take_all(&mut input);
            found
        };
        assert_eq!(read(&mut Open(&[])), ReadOutcome::Nothing);
        assert_eq!(read(&mut Open(&frame(b"all"))), ReadOutcome::All);
        let many = frame(&[7; 8]).repeat(CHUNK);
        assert_eq!(read(&mut Open(&many[..CHUNK])), ReadOutcome::Part);
        assert_eq!(read(&mut Open(&many[CHUNK..2 * CHUNK - 1])), ReadOutcome::All);
        assert_eq!(read(&mut Interrupted), ReadOutcome::Part, "it is read again");
        assert_eq!(read(&mut io::empty()), ReadOutcome::End);
    }

    /// A stream whose read a signal has ended.
    struct Interrupted;

    impl Read for Interrupted {
        fn read(&mut self, _: &mut [u8]) -> io::Result<usize> {
            Err(io::ErrorKind::Interrupted.into())
        }
    }
}
