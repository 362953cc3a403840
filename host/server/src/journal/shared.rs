//! What the threads that have to do with a journal know of each other.

use std::io;
use std::path::PathBuf;
use std::sync::atomic::{AtomicBool, AtomicUsize, Ordering};
use std::sync::{Mutex, PoisonError};

use super::Start;

#[derive(Default)]
pub struct Shared {
    path: PathBuf,
    /// Bytes that are handed over and not written.
    waiting: AtomicUsize,
    /// Nothing more is taken.
    ended: AtomicBool,
    /// Whether the end is noted beside the journal. It is held meanwhile: two threads may be about to.
    noted: Mutex<bool>,
    /// The end couldn't be noted, and nobody has asked since to try again.
    unnoted: AtomicBool,
}

impl Shared {
    pub fn new(path: PathBuf) -> Self {
        Self { path, ..Self::default() }
    }

    /// Adds bytes that wait, and gives how many there were before.
    pub fn add_waiting(&self, bytes: usize) -> usize {
        self.waiting.fetch_add(bytes, Ordering::Relaxed)
    }

    pub fn remove_waiting(&self, bytes: usize) {
        self.waiting.fetch_sub(bytes, Ordering::Relaxed);
    }

    pub fn end(&self) {
        self.ended.store(true, Ordering::Relaxed);
    }

    pub fn has_ended(&self) -> bool {
        self.ended.load(Ordering::Relaxed)
    }

    /// Notes the end beside the journal, if it isn't yet.
    pub fn note_end(&self) -> io::Result<()> {
        let mut noted = self.noted.lock().unwrap_or_else(PoisonError::into_inner);
        if !*noted {
            Start::note_end(&self.path)?;
            *noted = true;
        }
        Ok(())
    }

    pub fn set_unnoted(&self, unnoted: bool) {
        self.unnoted.store(unnoted, Ordering::Relaxed);
    }

    /// Whether noting the end is to be tried again. It is said once for each time that it failed.
    pub fn take_unnoted(&self) -> bool {
        self.unnoted.swap(false, Ordering::Relaxed)
    }
}
