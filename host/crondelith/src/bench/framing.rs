//! Frames read and written by the engine, against a plain copy of their messages.

use std::hint::black_box;
use std::time::Duration;

use engine::frames::{read, write, Step, Written, DONE, MESSAGE_LIMIT};
use peer::grouped;

use super::measure::{batch, Comparison};
use super::memory::{Memory, ALIGNED};
use super::{compare, Aim, Limit, Section};
use crate::Failure;

/// A frame, and what is hoped of reading and of writing it, if anything.
struct Frame {
    message: usize,
    /// What stands before the message.
    header: [u8; 3],
    aims: Option<[&'static str; 2]>,
}

const FRAMES: [Frame; 4] = [
    Frame { message: 64, header: [0, 65, 1], aims: None },
    Frame { message: 1_024, header: [4, 1, 1], aims: None },
    Frame {
        message: 16_384,
        header: [64, 1, 1],
        aims: Some([
            "a frame of 16,384 bytes read in at most 1.2 times a plain copy",
            "one of 16,384 bytes written in at most 1.2 times a plain copy",
        ]),
    },
    Frame {
        message: MESSAGE_LIMIT,
        header: [255, 255, 1],
        aims: Some([
            "the longest frame read in at most 1.2 times a plain copy",
            "the longest one written in at most 1.2 times a plain copy",
        ]),
    },
];
const GREATEST_RATIO: Limit = Limit::Ratio(1.2);

/// Each frame whole in a chunk, from a fresh state.
pub fn reading() -> Result<Section, Failure> {
    section("read of a frame with a message", Reading::new, |[read, _]| read)
}

pub fn writing() -> Result<Section, Failure> {
    section("write of a frame with a message", Writing::new, |[_, written]| written)
}

fn section<T: Comparison>(
    what: &str,
    comparison: fn(&Frame) -> Option<T>,
    aim: fn([&'static str; 2]) -> &'static str,
) -> Result<Section, Failure> {
    let row = |frame: &Frame| {
        let mut comparison = comparison(frame).ok_or_else(super::unprepared)?;
        compare(format!("{what} of {} bytes, against a plain copy", grouped(frame.message as u64)), &mut comparison)
    };
    let rows = FRAMES.iter().map(row).collect::<Result<_, _>>()?;
    let places = FRAMES.iter().enumerate();
    let aims =
        places.filter_map(|(row, frame)| Some(Aim { text: aim(frame.aims?), row: Some(row), limit: GREATEST_RATIO }));
    Ok(Section { rows, aims: aims.collect() })
}

impl Frame {
    /// Bytes that differ, so that a moved one shows.
    fn message(&self) -> Vec<u8> {
        (0..self.message).map(|place| (place % 251) as u8).collect()
    }

    fn bytes(&self) -> Vec<u8> {
        [&self.header[..], &self.message()].concat()
    }
}

/// Both sides copy from the one chunk to the one message buffer.
struct Reading {
    memory: Memory,
    expected: Step,
    /// The message buffer after it: the message, and the rest as it was.
    received: Vec<u8>,
}

impl Reading {
    fn new(frame: &Frame) -> Option<Self> {
        let (chunk, mut received) = (frame.bytes(), frame.message());
        let expected = Step {
            number: DONE,
            complete: 1,
            used: chunk.len() as u64,
            length: received.len() as u32,
            taken: 0,
            size: 0,
        };
        received.resize(MESSAGE_LIMIT, 0);
        Some(Self { memory: Memory::new(&chunk, MESSAGE_LIMIT, &ALIGNED)?, expected, received })
    }
}

// Neither the length nor the place is known where the two sides are compiled, as in any host.
impl Comparison for Reading {
    fn engine(&mut self) -> Option<Duration> {
        self.memory.clear();
        let (chunk, message) = self.memory.lend();
        let time = batch(|| read(0, 0, black_box(&mut *message), black_box(chunk)) == self.expected)?;
        (*message == *self.received).then_some(time)
    }

    fn other(&mut self) -> Option<Duration> {
        self.memory.clear();
        let (chunk, message) = self.memory.lend();
        let sent = chunk.get(3..)?;
        let time = copy(sent, message.get_mut(..sent.len())?)?;
        (*message == *self.received).then_some(time)
    }
}

/// Both sides copy from the one message to the one frame's buffer.
struct Writing {
    memory: Memory,
    expected: Written,
    frame: Vec<u8>,
}

impl Writing {
    fn new(frame: &Frame) -> Option<Self> {
        let bytes = frame.bytes();
        let memory = Memory::new(&frame.message(), bytes.len(), &ALIGNED)?;
        Some(Self { memory, expected: Written { number: DONE, length: bytes.len() as u32 }, frame: bytes })
    }
}

impl Comparison for Writing {
    fn engine(&mut self) -> Option<Duration> {
        self.memory.clear();
        let (message, frame) = self.memory.lend();
        let time = batch(|| write(black_box(&mut *frame), black_box(message)) == self.expected)?;
        (*frame == *self.frame).then_some(time)
    }

    fn other(&mut self) -> Option<Duration> {
        self.memory.clear();
        let (message, frame) = self.memory.lend();
        let room = frame.get_mut(3..)?;
        let time = copy(message, room)?;
        (*room == self.frame[3..]).then_some(time)
    }
}

fn copy(from: &[u8], to: &mut [u8]) -> Option<Duration> {
    batch(|| {
        black_box(&mut *to).copy_from_slice(black_box(from));
        true
    })
}

#[cfg(test)]
mod tests {
    use super::{Comparison, Reading, Writing, FRAMES};

    #[test]
    fn every_frame_can_be_measured() {
        for frame in FRAMES {
            let mut reading = Reading::new(&frame).expect("memory");
            let mut writing = Writing::new(&frame).expect("memory");
            for _ in 0..2 {
                assert!(reading.engine().is_some() && reading.other().is_some(), "read: {}", frame.message);
                assert!(writing.engine().is_some() && writing.other().is_some(), "written: {}", frame.message);
            }
        }
    }

    #[test]
    fn other_bytes_or_answers_than_expected_are_noticed() {
        for frame in FRAMES {
            let last = frame.message - 1;
            let (mut reading, mut writing) =
                (Reading::new(&frame).expect("memory"), Writing::new(&frame).expect("memory"));
            reading.received[last] ^= 1;
            writing.frame[last + 3] ^= 1;
            assert!(reading.engine().is_none() && reading.other().is_none());
            assert!(writing.engine().is_none() && writing.other().is_none());
            let (mut reading, mut writing) =
                (Reading::new(&frame).expect("memory"), Writing::new(&frame).expect("memory"));
            reading.expected.used += 1;
            writing.expected.length += 1;
            assert!(reading.engine().is_none() && writing.engine().is_none());
        }
    }
}
