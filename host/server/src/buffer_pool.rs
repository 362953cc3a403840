//! Buffers that nobody uses at the moment. A connection has one only while bytes of it wait, so that an idle one costs next
//! to nothing.

/// How many are kept for later.
const LIMIT: usize = 4;

/// Buffers of one length.
pub struct BufferPool {
    length: usize,
    buffers: Vec<Box<[u8]>>,
}

impl BufferPool {
    pub fn new(length: usize) -> Self {
        Self { length, buffers: Vec::new() }
    }

    pub fn take(&mut self) -> Box<[u8]> {
        self.buffers.pop().unwrap_or_else(|| vec![0; self.length].into())
    }

    /// Takes a buffer back. One of another length is freed.
    pub fn give(&mut self, buffer: Box<[u8]>) {
        if self.buffers.len() < LIMIT && buffer.len() == self.length {
            self.buffers.push(buffer);
        }
    }

    #[cfg(test)]
    pub fn count(&self) -> usize {
        self.buffers.len()
    }
}
