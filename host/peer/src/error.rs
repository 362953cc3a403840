//! What can go wrong, in words.

use std::path::PathBuf;
use std::time::Duration;
use std::{fmt, io};

use crate::progress::{grouped, standstill};
use crate::session::refusal;

#[derive(Debug)]
pub enum Error {
    /// No connection to the address.
    Unreachable(io::Error),
    /// The relay closed the connection before its version message.
    ClosedBeforeVersion,
    /// The first message is another.
    NoVersion,
    /// The first message is malformed.
    MalformedVersion(Box<Error>),
    /// No version message has come in this time.
    Silent(Duration),
    /// A version other than 1.0. The peer has answered that it isn't acceptable.
    UnknownVersion {
        major: u16,
        minor: u16,
    },
    /// The relay took too long to answer.
    NoAnswer,
    /// The relay closed the connection.
    Closed,
    /// Likewise, but within a frame or with bytes unread, as a relay does that is stopped.
    ClosedMidway,
    Connection(io::Error),
    Frame(frames::Refusal),
    /// A frame that holds no message of the protocol. An empty one has no type.
    Malformed {
        kind: Option<u8>,
        length: usize,
    },
    /// A message to send has a field outside its range.
    OutOfRange,
    LeaseRefused,
    /// A status from 1 to 5.
    EstablishRefused {
        id: u32,
        status: u8,
    },
    /// The other side ended the session, or its connection closed.
    SessionEnded,
    /// The receiver's answer isn't a count of bytes that it can have.
    WrongCount,
    /// The sender's first data message isn't a length.
    NoLength,
    /// More bytes came than the sender had announced.
    TooMuch,
    /// The message after the file's last byte isn't a digest.
    NoDigest,
    /// What the receiver has isn't what the sender sent.
    Changed,
    /// Nothing has moved for so long, which is the transfer's limit.
    Stalled(Duration),
    /// The file to send can't be read.
    Read(io::Error),
    /// The file to send ended before its announced length.
    Shorter,
    /// It went on after its announced length.
    Longer,
    /// It was written to meanwhile.
    Modified,
    /// The file to receive can't be written.
    Write(io::Error),
    /// What was written of it can't be read again.
    ReadBack(io::Error),
    /// A file has the name already.
    Exists(PathBuf),
    /// Something that isn't a plain file has the name already.
    NotPlain(PathBuf),
    /// The path ends as only a folder's does.
    Folder(PathBuf),
    /// Another file has taken this name of the received one.
    Replaced(PathBuf),
    /// The file was to be kept when the program was asked to end.
    Interrupted,
    Thread(io::Error),
    /// A transfer failed after this many bytes.
    Sending {
        arrived: u64,
        length: u64,
        cause: Box<Error>,
    },
    /// Likewise; no length if it hadn't come.
    Receiving {
        come: u64,
        length: Option<u64>,
        cause: Box<Error>,
    },
}

impl Error {
    pub(crate) fn malformed(message: &[u8]) -> Self {
        Self::Malformed { kind: message.first().copied(), length: message.len() }
    }

    /// Whether it is about the file, whose name its text hasn't.
    pub fn lacks_name(&self) -> bool {
        match self {
            Self::Read(_) | Self::Shorter | Self::Longer | Self::Modified => true,
            Self::Write(_) | Self::ReadBack(_) | Self::Changed => true,
            Self::Sending { cause, .. } | Self::Receiving { cause, .. } => cause.lacks_name(),
            _ => false,
        }
    }
}

const NOTHING_LISTENS: &str = "nothing listens there; perhaps the relay isn't running, or has another base port";
const CLOSED_BEFORE_VERSION: &str = "the relay closed the connection before its version message; perhaps all eight \
                                     connections of the partner are in use, or its allowance is used up";
const NO_RELAY: &str = "perhaps it is no relay that listens there";
const LEASE_REFUSED: &str = "the relay granted no id; perhaps all sixteen leases of the partner run (each does to its \
                             end, even if its holder has gone), or this connection holds an id already";

impl fmt::Display for Error {
    fn fmt(&self, to: &mut fmt::Formatter) -> fmt::Result {
        match self {
            Self::Unreachable(error) => write_unreachable(error, to),
            Self::ClosedBeforeVersion => write!(to, "{CLOSED_BEFORE_VERSION}"),
            Self::NoVersion => write!(to, "the first message isn't the relay's version; {NO_RELAY}"),
            Self::MalformedVersion(cause) => write!(to, "{cause}; {NO_RELAY}"),
            Self::Silent(time) => write!(to, "no version has come in {} s; {NO_RELAY}", time.as_secs_f32()),
            Self::UnknownVersion { major, minor } => write_version(*major, *minor, to),
            Self::NoAnswer => write!(to, "the relay hasn't answered in time"),
            Self::Closed | Self::ClosedMidway => write!(to, "the relay stopped or closed the connection"),
            Self::Connection(error) => write!(to, "the connection to the relay failed: {error}"),
            Self::Frame(refusal) => write!(to, "the relay's bytes are malformed: {refusal}"),
            Self::Malformed { kind, length } => write_malformed(*kind, *length, to),
            Self::OutOfRange => write!(to, "a message to send has a field outside its range"),
            Self::LeaseRefused => write!(to, "{LEASE_REFUSED}"),
            Self::EstablishRefused { id, status } => write!(to, "{}", refusal(*id, *status)),
            Self::SessionEnded => write!(to, "the other side ended the session or vanished"),
            Self::WrongCount => write!(to, "the other side's answer isn't a count of bytes that it can have"),
            Self::NoLength => write!(to, "the other side's first message isn't the length of a file"),
            Self::TooMuch => write!(to, "the other side sent more bytes than it had announced"),
            Self::NoDigest => write!(to, "the other side's message after the file isn't a SHA-256 digest"),
            Self::Changed => write!(to, "the received file isn't the one that was sent: their SHA-256 digests differ"),
            Self::Stalled(time) => write!(to, "{}", standstill(*time)),
            Self::Read(error) => write!(to, "the file can't be read: {error}"),
            Self::Shorter => write!(to, "the file is shorter now than when its length was announced"),
            Self::Longer => write!(to, "the file is longer now than when its length was announced"),
            Self::Modified => write!(to, "the file changed while it was sent"),
            Self::Write(error) => write!(to, "the file can't be written: {error}"),
            Self::ReadBack(error) => write!(to, "the file can't be read back after it was written: {error}"),
            Self::Exists(path) => write!(to, "'{}' exists already", path.display()),
            Self::NotPlain(path) => write!(to, "'{}' isn't a plain file", path.display()),
            Self::Folder(path) => write!(to, "'{}' names a folder", path.display()),
            Self::Replaced(path) => write!(to, "another file has replaced the received one at '{}'", path.display()),
            Self::Interrupted => write!(to, "interrupted before the file had its name"),
            Self::Thread(error) => write!(to, "a thread can't be started: {error}"),
            Self::Sending { arrived, length, cause } => write_moved(cause, *arrived, *length, "arrived", to),
            Self::Receiving { come, length, cause } => write_receiving(*come, *length, cause, to),
        }
    }
}

fn write_unreachable(error: &io::Error, to: &mut fmt::Formatter) -> fmt::Result {
    match error.kind() {
        io::ErrorKind::ConnectionRefused => write!(to, "{NOTHING_LISTENS}"),
        _ => write!(to, "there is no connection: {error}"),
    }
}

fn write_malformed(kind: Option<u8>, length: usize, to: &mut fmt::Formatter) -> fmt::Result {
    match kind {
        Some(kind) => write!(to, "the relay's message is malformed: type {kind}, {length} bytes"),
        None => write!(to, "the relay's message is malformed: it is empty"),
    }
}

fn write_version(major: u16, minor: u16, to: &mut fmt::Formatter) -> fmt::Result {
    write!(to, "the relay speaks version {major}.{minor} of the protocol, this peer only 1.0")
}

fn write_moved(cause: &Error, done: u64, length: u64, how: &str, to: &mut fmt::Formatter) -> fmt::Result {
    write!(to, "{cause}; {} of {} bytes had {how}", grouped(done), grouped(length))
}

fn write_receiving(come: u64, length: Option<u64>, cause: &Error, to: &mut fmt::Formatter) -> fmt::Result {
    match length {
        Some(length) => write_moved(cause, come, length, "come", to),
        None => write!(to, "{cause}; no byte had come, nor the length"),
    }
}

impl std::error::Error for Error {}
