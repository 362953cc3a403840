//! The C boundary as a trait, and the two implementations behind it.

use codec::frames::{self, Numbers};
use engine::frames::{Step, Written, DONE, FRAME_LIMIT, MESSAGE_LIMIT};

// The engine's limits are those of the second implementation.
const _: () = assert!(MESSAGE_LIMIT == frames::MESSAGE_LIMIT && FRAME_LIMIT == frames::MESSAGE_LIMIT + 3);

pub trait Boundary {
    fn read(&self, taken: u32, size: u32, message: &mut [u8], chunk: &[u8]) -> Step;
    fn write(&self, frame: &mut [u8], message: &[u8]) -> Written;
}

/// The proved reader and writer: the archive.
pub struct Proved;

impl Boundary for Proved {
    fn read(&self, taken: u32, size: u32, message: &mut [u8], chunk: &[u8]) -> Step {
        engine::frames::read(taken, size, message, chunk)
    }

    fn write(&self, frame: &mut [u8], message: &[u8]) -> Written {
        engine::frames::write(frame, message)
    }
}

/// The second implementation, its answers put as include/svsc_frames.h has them.
pub struct Second;

impl Boundary for Second {
    fn read(&self, taken: u32, size: u32, message: &mut [u8], chunk: &[u8]) -> Step {
        let frames::Step { answer, used, state } = frames::step(Numbers { taken, size }, message, chunk);
        let step = Step { used: used as u64, taken: state.taken, size: state.size, ..Step::default() };
        match answer {
            Ok(Some(length)) => Step { complete: 1, length: length as u32, ..step },
            Ok(None) => step,
            Err(refusal) => Step { number: refusal as u32, ..step },
        }
    }

    fn write(&self, frame: &mut [u8], message: &[u8]) -> Written {
        match frames::write(message, frame) {
            Ok(length) => Written { number: DONE, length: length as u32 },
            Err(refusal) => Written { number: refusal as u32, length: 0 },
        }
    }
}
