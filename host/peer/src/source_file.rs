//! A file to send, which is to stay as it is meanwhile.

use std::fs::File;
use std::io::{self, Read};
use std::os::unix::fs::MetadataExt;

use crate::Error;

/// Fails at the file's end if it has changed since this was made. All of it has been read by then, but its last bytes
/// haven't been sent.
pub struct SourceFile {
    file: File,
    start: Version,
}

impl SourceFile {
    pub fn new(file: File) -> io::Result<Self> {
        Ok(Self { start: Version::of(&file)?, file })
    }

    pub fn length(&self) -> u64 {
        self.start.length
    }

    fn check(&self) -> io::Result<()> {
        match Version::of(&self.file)? == self.start {
            true => Ok(()),
            false => Err(io::Error::other(Error::Modified)),
        }
    }
}

impl Read for SourceFile {
    fn read(&mut self, to: &mut [u8]) -> io::Result<usize> {
        let count = self.file.read(to)?;
        if count == 0 {
            self.check()?;
        }
        Ok(count)
    }
}

/// What a change of a file changes: its length and times, in seconds and nanoseconds.
#[derive(PartialEq, Eq)]
struct Version {
    length: u64,
    modified: (i64, i64),
    status_changed: (i64, i64),
}

impl Version {
    fn of(file: &File) -> io::Result<Self> {
        let metadata = file.metadata()?;
        Ok(Self {
            length: metadata.len(),
            modified: (metadata.mtime(), metadata.mtime_nsec()),
            status_changed: (metadata.ctime(), metadata.ctime_nsec()),
        })
    }
}
