//! What a thread of a measurement comes to.

use std::io;
use std::thread::ScopedJoinHandle;

/// Waits for it. One that panics has failed.
pub fn joined<T>(thread: ScopedJoinHandle<io::Result<T>>) -> io::Result<T> {
    thread.join().unwrap_or_else(|_| Err(io::Error::other("a thread has panicked")))
}
