//! Random bytes from the operating system, some messages' at a time.

use std::io;

use engine::relay::RANDOM;

/// Messages whose bytes are fetched at a time.
const MESSAGES: usize = 32;

/// Random bytes that haven't been handed out.
pub struct Random {
    bytes: [[u8; RANDOM]; MESSAGES],
    left: usize,
}

impl Random {
    pub fn new() -> Self {
        Self { bytes: [[0; RANDOM]; MESSAGES], left: 0 }
    }

    /// Bytes that nobody has had.
    pub fn take(&mut self) -> io::Result<&[u8; RANDOM]> {
        if self.left == 0 {
            self.bytes.iter_mut().try_for_each(|bytes| getrandom::getrandom(bytes))?;
            self.left = MESSAGES;
        }
        self.left -= 1;
        Ok(&self.bytes[self.left])
    }
}

#[cfg(test)]
mod tests {
    use std::collections::HashSet;

    use super::{Random, MESSAGES};

    #[test]
    fn no_bytes_are_handed_out_twice() {
        let mut random = Random::new();
        let taken: HashSet<_> = (0..3 * MESSAGES).map(|_| *random.take().expect("random bytes")).collect();
        assert_eq!(taken.len(), 3 * MESSAGES);
    }
}
