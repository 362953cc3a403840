//! Memory that suits the engine's copy of long data.

use std::ops::{Deref, DerefMut};

/// The address of a send's data should be a multiple of it, in the message and in the relay buffer: a line of the cache.
/// Elsewhere the copy's loads and stores cross the ends of lines, and a long send takes up to 1.5 times as long.
/// `crondelith bench` shows it.
pub const DATA_ALIGNMENT: usize = 64;

/// Where in the memory something should begin whose data comes so many bytes later: less than [`DATA_ALIGNMENT`] from its
/// start. The place is a hint: any other serves too, more slowly.
pub fn aligned_start(memory: &[u8], data_at: usize) -> usize {
    let aligned = memory.as_ptr().align_offset(DATA_ALIGNMENT).min(DATA_ALIGNMENT);
    (aligned + data_at.next_multiple_of(DATA_ALIGNMENT) - data_at) % DATA_ALIGNMENT
}

/// A buffer to lend for what is relayed: its second byte, where a send's data begins, is aligned.
#[derive(Debug)]
pub struct RelayBuffer {
    memory: Box<[u8]>,
    start: usize,
    length: usize,
}

impl RelayBuffer {
    pub fn new(length: usize) -> Self {
        let memory = vec![0; length + DATA_ALIGNMENT].into_boxed_slice();
        let start = aligned_start(&memory, 1);
        Self { memory, start, length }
    }
}

impl Deref for RelayBuffer {
    type Target = [u8];

    fn deref(&self) -> &[u8] {
        &self.memory[self.start..][..self.length]
    }
}

impl DerefMut for RelayBuffer {
    fn deref_mut(&mut self) -> &mut [u8] {
        &mut self.memory[self.start..][..self.length]
    }
}

impl Clone for RelayBuffer {
    fn clone(&self) -> Self {
        let mut copy = Self::new(self.length);
        copy.copy_from_slice(self);
        copy
    }
}

impl PartialEq for RelayBuffer {
    fn eq(&self, other: &Self) -> bool {
        **self == **other
    }
}

impl Eq for RelayBuffer {}

#[cfg(test)]
mod tests {
    use super::{aligned_start, RelayBuffer, DATA_ALIGNMENT};

    #[test]
    fn what_begins_there_has_its_data_aligned() {
        let memory = [0; 3 * DATA_ALIGNMENT];
        for offset in 0..DATA_ALIGNMENT {
            for data_at in [0, 1, 4, DATA_ALIGNMENT, DATA_ALIGNMENT + 1] {
                let part = &memory[offset..];
                let start = aligned_start(part, data_at);
                assert!(start < DATA_ALIGNMENT);
                assert_eq!((part.as_ptr() as usize + start + data_at) % DATA_ALIGNMENT, 0);
            }
        }
    }

    #[test]
    fn the_second_byte_is_aligned_and_a_copy_holds_the_same() {
        for length in [2, 64, 65_534] {
            let mut buffer = RelayBuffer::new(length);
            assert_eq!(buffer.len(), length);
            assert_eq!(buffer[1..].as_ptr() as usize % 64, 0);
            buffer[length - 1] = 7;
            let copy = buffer.clone();
            assert_eq!(copy, buffer);
            assert_eq!(copy[1..].as_ptr() as usize % 64, 0);
        }
    }
}
