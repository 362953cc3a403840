//! Messages from a stream, however it is cut into pieces.

use std::io::{self, Read};

use crate::{Error, InputBuffer, CAPACITY};

/// Reads a stream's messages, one after the other.
#[derive(Default)]
pub struct Reader {
    buffer: InputBuffer,
}

impl Reader {
    /// The next message, or None if the stream ended after a whole frame.
    pub fn next(&mut self, stream: &mut impl Read) -> Result<Option<&[u8]>, Error> {
        // The one that was handed out last.
        self.buffer.take();
        while self.buffer.message().is_none() {
            if let Some(refusal) = self.buffer.refusal() {
                return Err(refusal.into());
            }
            if self.fill(stream)? == 0 {
                return if self.buffer.is_empty() { Ok(None) } else { Err(Error::Cut) };
            }
        }
        Ok(self.buffer.message())
    }

    /// Reads what has come, at least a byte unless the stream is at its end.
    fn fill(&mut self, stream: &mut impl Read) -> Result<usize, Error> {
        loop {
            match self.buffer.read_from(stream, || vec![0; CAPACITY].into()) {
                Err(error) if error.kind() == io::ErrorKind::Interrupted => {}
                other => return other.map_err(Error::Io),
            }
        }
    }
}
