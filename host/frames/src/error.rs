//! Why there is no further message.

use std::fmt;
use std::io;

/// Why bytes are no frame.
#[derive(Clone, Copy, Debug, PartialEq, Eq)]
pub enum Refusal {
    /// A length of 0, which doesn't count the type byte.
    NoLength,
    /// A type other than 1.
    WrongType(u8),
}

#[derive(Debug)]
pub enum Error {
    /// What has come is no frame, nor will anything be that comes later.
    Refused(Refusal),
    /// The stream ended within a frame.
    Cut,
    /// The stream failed. After a timeout the reader can be asked again: no byte is lost.
    Io(io::Error),
}

impl fmt::Display for Refusal {
    fn fmt(&self, to: &mut fmt::Formatter) -> fmt::Result {
        match self {
            Self::NoLength => write!(to, "a frame of length 0"),
            Self::WrongType(found) => write!(to, "a frame of type {found}, not 1"),
        }
    }
}

impl fmt::Display for Error {
    fn fmt(&self, to: &mut fmt::Formatter) -> fmt::Result {
        match self {
            Self::Refused(refusal) => refusal.fmt(to),
            Self::Cut => write!(to, "the stream ended within a frame"),
            Self::Io(error) => write!(to, "{error}"),
        }
    }
}

impl std::error::Error for Error {}

impl From<Refusal> for Error {
    fn from(refusal: Refusal) -> Self {
        Self::Refused(refusal)
    }
}

impl Error {
    /// Whether only the time to wait for bytes is over.
    pub fn is_timeout(&self) -> bool {
        matches!(self, Self::Io(error) if is_timeout(error))
    }
}

/// Whether a socket's time limit is what ended a read or write.
pub fn is_timeout(error: &io::Error) -> bool {
    matches!(error.kind(), io::ErrorKind::WouldBlock | io::ErrorKind::TimedOut)
}
