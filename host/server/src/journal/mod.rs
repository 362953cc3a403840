//! The journal: a file of the calls' records in their order, and what its replay begins with in a file beside it.
//!
//! The loop gathers records and hands them over, so many at a time or twice a second, to the thread that writes them
//! (`writer`). What becomes of the files that a relay finds at its start is in `file` and `found`.

mod file;
mod found;
mod shared;
mod start;
#[cfg(test)]
mod tests;
mod writer;

pub(crate) use file::JournalFile;
pub use start::Start;
pub(crate) use writer::Syncer;

use engine::relay::Record;

use writer::Writer;

/// Bytes of records that are handed over at once, before it is time to: so many that handing over hardly counts.
const BATCH: usize = 262_144;

/// The loop's side of a journal.
pub(crate) struct Journal {
    records: Vec<u8>,
    writer: Writer,
}

impl Journal {
    fn new(writer: Writer) -> Self {
        Self { records: Vec::new(), writer }
    }

    /// Adds a call's record. It waits for nothing.
    pub fn append(&mut self, record: &Record) {
        self.records.extend_from_slice(record);
        if self.records.len() >= BATCH {
            self.hand_over();
        }
    }

    /// Hands over what there is to be written.
    pub fn hand_over(&mut self) {
        if !self.records.is_empty() {
            let empty = self.writer.spare().unwrap_or_else(|| Vec::with_capacity(BATCH));
            self.writer.write(std::mem::replace(&mut self.records, empty));
        }
    }

    /// What brings to the disk all that was handed over before, for another thread.
    pub fn syncer(&self) -> Syncer {
        self.writer.syncer()
    }

    /// Waits until all is written and on the disk.
    pub fn finish(mut self) {
        self.hand_over();
        self.writer.finish();
    }
}
