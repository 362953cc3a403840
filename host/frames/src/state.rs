//! Where a stream is within a frame, from one step of the engine's reader to the next.

use engine::frames::{read, REFUSED};

use crate::{Refusal, OVERHEAD};

/// The engine's two numbers: how many bytes of a frame are taken, and its size as far as it is known.
#[derive(Clone, Copy, Debug, Default, PartialEq, Eq)]
pub struct State {
    taken: u32,
    size: u32,
}

/// What a step did.
pub struct Step {
    /// So many bytes of the chunk are taken: all of them, or those up to the end of a frame.
    pub used: usize,
    /// The length of the message that is whole now.
    pub message: Option<usize>,
}

impl State {
    /// Reads on in a chunk, into a message buffer that holds the longest message: so the engine finds none too short.
    #[inline]
    pub fn step(&mut self, message: &mut [u8], chunk: &[u8]) -> Result<Step, Refusal> {
        let before = *self;
        let step = read(self.taken, self.size, message, chunk);
        *self = Self { taken: step.taken, size: step.size };
        let used = step.used as usize;
        if step.number == REFUSED {
            return Err(before.refusal(&chunk[..used]));
        }
        Ok(Step { used, message: (step.complete != 0).then_some(step.length as usize) })
    }

    /// Words for a refusal, from the bytes that the refusing step took. The engine has decided that this is no frame; the
    /// last of these bytes is the one that shows it, and only which byte of the frame that is has to be told: the length's
    /// second, or the type.
    fn refusal(self, used: &[u8]) -> Refusal {
        match used.last() {
            Some(found) if self.taken as usize + used.len() == OVERHEAD => Refusal::WrongType(*found),
            _ => Refusal::NoLength,
        }
    }

    /// Whether a frame is to begin.
    pub fn is_fresh(self) -> bool {
        self == Self::default()
    }

    /// Whether bytes of a message that isn't whole stand in the buffer.
    pub fn has_message_bytes(self) -> bool {
        self.taken as usize > OVERHEAD
    }
}
