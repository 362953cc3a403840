//! Buffers between guard bytes.

/// So many guard bytes stand before and behind; an odd number, so that buffers start at odd addresses too.
const GUARD: usize = 37;

/// Bytes of 128 and more: no type, flag or digit that is written looks like one of them.
const PATTERN: [u8; 7] = [0x91, 0xe7, 0xb3, 0xdc, 0xa8, 0xf5, 0xc2];

/// A buffer with guard bytes. Two are equal if the buffers and all the guard bytes are.
#[derive(Clone, Debug, PartialEq, Eq)]
pub struct Guarded(Vec<u8>);

impl Guarded {
    /// A buffer that nothing has been written to: like the guard bytes, the pattern again and again.
    pub fn unwritten(length: usize) -> Self {
        let whole = GUARD + length + GUARD;
        let mut bytes = PATTERN.repeat(1 + whole / PATTERN.len());
        bytes.truncate(whole);
        Self(bytes)
    }

    pub fn holding(contents: &[u8]) -> Self {
        let mut guarded = Self::unwritten(contents.len());
        guarded.lend_mut().copy_from_slice(contents);
        guarded
    }

    /// The buffer without its guard bytes.
    pub fn lend(&self) -> &[u8] {
        &self.0[GUARD..self.0.len() - GUARD]
    }

    pub fn lend_mut(&mut self) -> &mut [u8] {
        let end = self.0.len() - GUARD;
        &mut self.0[GUARD..end]
    }

    /// The first place, counted from the buffer's start, where the two differ. Both have the same length.
    pub fn first_difference(&self, other: &Self) -> Option<isize> {
        if self == other {
            return None;
        }
        let place = self.0.iter().zip(&other.0).position(|(here, there)| here != there)?;
        Some(place as isize - GUARD as isize)
    }
}

#[cfg(test)]
mod tests {
    use super::*;

    #[test]
    fn every_byte_counts_the_guards_included() {
        let buffer = Guarded::unwritten(5);
        for place in 0..buffer.0.len() {
            let mut other = buffer.clone();
            other.0[place] ^= 1;
            assert_eq!(buffer.first_difference(&other), Some(place as isize - GUARD as isize));
        }
        assert_eq!(buffer.first_difference(&buffer.clone()), None);
    }
}
