//! A connection: its stream, what has come on it, and what it waits for.

use std::fmt;
use std::io;
use std::net::SocketAddr;
use std::time::Instant;

use mio::net::TcpStream;

use crate::input::Input;
use crate::message;
use crate::refusal::Refusal;
use crate::sockets::SocketId;

pub struct Connection {
    pub stream: TcpStream,
    pub address: SocketAddr,
    /// Its number with the engine, from when the engine has opened it until it has closed it.
    pub number: Option<usize>,
    pub input: Input,
    pub phase: Phase,
    /// Bytes may have come that haven't been read.
    pub readable: bool,
    /// The peer has ended its direction: the stream has to be read to its end.
    pub read_closed: bool,
    /// The stream has been read to its end.
    pub ended: bool,
    /// Why nothing is taken from it.
    pub hold: Option<Hold>,
    /// Its first message, or its open, has been refused for allowance.
    pub waits: bool,
    /// By when the peer has to have sent what is expected of it: its version answer, the rest of a frame, or its end.
    pub due: Option<Instant>,
    pub progress: Option<Progress>,
}

#[derive(Clone, Copy, Debug, PartialEq, Eq)]
pub enum Phase {
    /// The engine hasn't opened it yet.
    Opening,
    /// Its version answer hasn't come.
    Greeted,
    Open,
    /// The engine has closed it; what waits is written, and the peer's side closed.
    Closing,
}

#[derive(Clone, Copy, Debug, PartialEq, Eq)]
pub enum Hold {
    /// Its last message left this one's output full.
    Output(SocketId),
    /// Its last message was dropped.
    Pause(Instant),
}

/// How much of its output a peer has taken since it had last taken enough.
#[derive(Clone, Copy, Debug)]
pub struct Progress {
    pub since: Instant,
    pub written: usize,
}

impl Progress {
    /// So many bytes more are written. The time begins anew once they are enough, and not before.
    pub fn add(&mut self, count: usize, enough: usize, now: Instant) {
        self.written += count;
        if self.written >= enough {
            *self = Self { since: now, written: 0 };
        }
    }
}

impl Connection {
    /// One that has until then to be opened.
    pub fn new(stream: TcpStream, address: SocketAddr, due: Instant) -> Self {
        Self {
            stream,
            address,
            number: None,
            input: Input::default(),
            phase: Phase::Opening,
            readable: false,
            read_closed: false,
            ended: false,
            hold: None,
            waits: false,
            due: Some(due),
            progress: None,
        }
    }

    /// Its first message has been offered, and is over.
    pub fn take(&mut self) {
        self.input.take();
        self.waits = false;
        if self.phase == Phase::Open {
            self.due = None;
        }
    }

    /// Whether its peer has gone before it was opened, and has said nothing that could be served to its end.
    pub fn has_left_unopened(&self) -> bool {
        let has_said_nothing = || self.stream.peek(&mut [0]).is_ok_and(|count| count == 0);
        self.phase == Phase::Opening && self.read_closed && has_said_nothing()
    }

    /// Whether the engine has opened it, and hasn't closed it.
    pub fn is_opened(&self) -> bool {
        matches!(self.phase, Phase::Greeted | Phase::Open)
    }

    /// Whether messages are taken from it, as far as it is concerned.
    pub fn is_taken_from(&self) -> bool {
        self.hold.is_none() && self.is_opened()
    }

    /// Whether its stream is read: also for nobody, when all is written to it and its peer's end is awaited. Before that
    /// nothing is read of one that is closing: its partner wouldn't pay for it.
    pub fn is_read(&self) -> bool {
        self.is_taken_from() || self.phase == Phase::Closing && self.due.is_some() && self.hold.is_none()
    }

    /// Whether a SessionEnd can be taken from it: the one message that costs nothing, so it is offered at once, whoever
    /// waits.
    pub fn has_session_end(&self) -> bool {
        let first = self.input.message().and_then(|message| message.first());
        first == Some(&message::SESSION_END) && self.is_taken_from()
    }
}

/// Why a connection ended.
pub enum End {
    /// Its peer left.
    Left,
    Unreadable(frames::Error),
    Refused(Refusal),
    /// The peer doesn't speak the relay's version.
    OtherVersion,
    /// It couldn't be opened in time; or no version answer, or only a part of a frame, has come.
    Silent(Phase),
    /// The peer hasn't answered a Keepalive in time. The engine has closed the connection.
    Unanswered,
    /// The peer took next to nothing of what was sent to it for too long. What it has sent meanwhile is dropped; that of a
    /// peer which left is not.
    GivenUp,
    Stopped,
    Failed(io::Error),
}

impl End {
    /// Whether what waits for the peer can still be written.
    pub fn has_last_words(&self) -> bool {
        !matches!(self, Self::Unanswered | Self::GivenUp | Self::Failed(_))
    }

    /// Whether the engine has closed the connection already.
    pub fn is_closed_by_engine(&self) -> bool {
        matches!(self, Self::OtherVersion | Self::Unanswered)
    }

    /// What it is summed up as in the log.
    pub fn kind(&self) -> &'static str {
        match self {
            Self::Left => "left",
            Self::Unreadable(_) => "unreadable",
            Self::Refused(_) => "refused",
            Self::OtherVersion => "other version",
            Self::Silent(_) => "silent",
            Self::Unanswered => "unanswered",
            Self::GivenUp => "given up",
            Self::Stopped => "stopped",
            Self::Failed(_) => "failed",
        }
    }
}

impl fmt::Display for End {
    fn fmt(&self, to: &mut fmt::Formatter) -> fmt::Result {
        match self {
            Self::Left => write!(to, "closed, the peer left"),
            Self::Unreadable(error) => write!(to, "closed, {error}"),
            Self::Refused(refusal) => refusal.fmt(to),
            Self::OtherVersion => write!(to, "closed, the peer doesn't accept the relay's version"),
            Self::Silent(Phase::Opening) => {
                write!(to, "closed, its partner's allowance wasn't enough to open it in time")
            }
            Self::Silent(Phase::Greeted) => write!(to, "closed, the peer hasn't answered the relay's version in time"),
            Self::Silent(_) => write!(to, "closed, the peer has left a frame unfinished for too long"),
            Self::Unanswered => write!(to, "closed, the peer hasn't answered a Keepalive in time"),
            Self::GivenUp => write!(to, "closed, the peer has read next to nothing for too long"),
            Self::Stopped => write!(to, "closed, the relay ends"),
            Self::Failed(error) => write!(to, "closed, {error}"),
        }
    }
}

#[cfg(test)]
mod tests {
    use std::time::{Duration, Instant};

    use super::Progress;

    #[test]
    fn the_time_begins_anew_when_enough_is_written_and_not_before() {
        let start = Instant::now();
        let later = start + Duration::from_secs(1);
        let mut progress = Progress { since: start, written: 0 };
        progress.add(99, 100, later);
        assert_eq!((progress.since, progress.written), (start, 99));
        progress.add(1, 100, later);
        assert_eq!((progress.since, progress.written), (later, 0));
    }
}
