//! A peer: its connection to the relay, and the version handshake.

use std::io;
use std::net::{TcpStream, ToSocketAddrs};
use std::time::{Duration, Instant};

use codec::Message;

use crate::connection::{split, Closer, Incoming, Outgoing};
use crate::lease::{Cookie, EXTENSION_WAIT};
use crate::routine::Routine;
use crate::{heartbeat, Error};

/// How long a connection may take that nothing answers.
const CONNECT_WAIT: Duration = Duration::from_secs(10);
/// How long the relay may take to answer, unless another time is set. A used-up allowance delays it by seconds: by fifteen
/// if the partner's seven other connections send messages of the largest size.
const ANSWER_WAIT: Duration = Duration::from_secs(30);

/// A peer whose version handshake is done.
pub struct Peer {
    pub(crate) incoming: Incoming,
    pub(crate) outgoing: Outgoing,
    /// That of the last lease.
    pub(crate) cookie: Option<Cookie>,
    answer_wait: Duration,
    pub(crate) extension_wait: Duration,
    heartbeat: Option<Routine>,
    pub(crate) extending: Option<Routine>,
}

impl Peer {
    /// Connects to a relay's port, which says the partner. A name is resolved, and its addresses are tried in order.
    pub fn connect(address: impl ToSocketAddrs) -> Result<Self, Error> {
        Self::connect_within(ANSWER_WAIT, address)
    }

    /// Likewise, with another time for the relay's answers.
    pub fn connect_within(answer_wait: Duration, address: impl ToSocketAddrs) -> Result<Self, Error> {
        let stream = connect(address).map_err(Error::Unreachable)?;
        // Answers and the end of a session are small and shouldn't wait for more.
        stream.set_nodelay(true).map_err(Error::Connection)?;
        let (incoming, outgoing) = split(stream);
        let mut peer = Self {
            incoming,
            outgoing,
            cookie: None,
            answer_wait,
            extension_wait: EXTENSION_WAIT,
            heartbeat: None,
            extending: None,
        };
        peer.shake_hands()?;
        Ok(peer)
    }

    fn shake_hands(&mut self) -> Result<(), Error> {
        let version = match self.receive_by(self.answer_deadline()) {
            Ok(Some(Message::ProtocolVersion { major, minor })) => (major, minor),
            Ok(Some(_)) => return Err(Error::NoVersion),
            Ok(None) => return Err(Error::Silent(self.answer_wait)),
            Err(Error::Closed | Error::ClosedMidway) => return Err(Error::ClosedBeforeVersion),
            Err(error @ (Error::Frame(_) | Error::Malformed { .. })) => {
                return Err(Error::MalformedVersion(error.into()));
            }
            Err(error) => return Err(error),
        };
        let known = version == (1, 0);
        self.send(&Message::VersionAnswer { ok: known.into() })?;
        let (major, minor) = version;
        known.then_some(()).ok_or(Error::UnknownVersion { major, minor })
    }

    /// Sets how long the relay may take to take a message, to answer a request, and to end a session or connection.
    pub fn set_answer_wait(&mut self, wait: Duration) {
        self.answer_wait = wait;
    }

    /// Sets how long after a lease or its last extension was asked for it is to be extended, from the first time that a
    /// session is awaited.
    pub fn set_extension_wait(&mut self, wait: Duration) {
        self.extension_wait = wait;
    }

    /// From now on a thread of its own sends a Keepalive after each such silence, whatever the peer is busy with: a relay
    /// closes a connection whose peer doesn't answer. Not for those who write to [`Self::stream`].
    pub fn keep_alive(&mut self, silence: Duration) -> Result<(), Error> {
        self.heartbeat = Some(heartbeat::start(&self.outgoing, silence).map_err(Error::Thread)?);
        Ok(())
    }

    pub(crate) fn answer_deadline(&self) -> Instant {
        Instant::now() + self.answer_wait
    }

    pub fn send(&mut self, message: &Message) -> Result<(), Error> {
        self.outgoing.send(message, Some(self.answer_deadline()))
    }

    /// The next message. A Keepalive has been answered when it is handed out.
    pub fn receive(&mut self) -> Result<Message<'_>, Error> {
        // Without a deadline there is always a message or an error.
        self.receive_until(None)?.ok_or(Error::NoAnswer)
    }

    /// Likewise, or None if the deadline passes first. No byte is lost then.
    pub fn receive_by(&mut self, deadline: Instant) -> Result<Option<Message<'_>>, Error> {
        self.receive_until(Some(deadline))
    }

    pub(crate) fn receive_until(&mut self, deadline: Option<Instant>) -> Result<Option<Message<'_>>, Error> {
        let message = self.incoming.receive(deadline)?;
        if message == Some(Message::Keepalive) {
            self.outgoing.send(&Message::Keepalive, Some(Instant::now() + self.answer_wait))?;
        }
        Ok(message)
    }

    /// The relay's answer to a request: the first message that `pick` knows. Others are ignored.
    pub(crate) fn answer<T>(&mut self, pick: impl Fn(Message) -> Option<T>) -> Result<T, Error> {
        let deadline = self.answer_deadline();
        loop {
            let message = self.receive_by(deadline)?.ok_or(Error::NoAnswer)?;
            if let Some(answer) = pick(message) {
                return Ok(answer);
            }
        }
    }

    /// The connection itself, for bytes that are frames already. None that has come may be unread.
    pub fn stream(&self) -> &TcpStream {
        self.outgoing.stream()
    }

    /// Closes the connection from another thread.
    pub fn closer(&self) -> Closer {
        self.incoming.closer()
    }

    /// Ends the connection in order: the relay has handed on all that was sent when it closes its side.
    pub fn finish(mut self) -> Result<(), Error> {
        let deadline = self.answer_deadline();
        (self.heartbeat, self.extending) = (None, None);
        self.outgoing.end()?;
        loop {
            // Nothing can be answered any more, a Keepalive neither.
            match self.incoming.receive(Some(deadline)) {
                Ok(Some(_)) => {}
                Ok(None) => return Err(Error::NoAnswer),
                Err(Error::Closed) => return Ok(()),
                Err(error) => return Err(error),
            }
        }
    }
}

/// The first of the addresses that takes a connection.
fn connect(address: impl ToSocketAddrs) -> io::Result<TcpStream> {
    let mut failure = io::ErrorKind::NotFound.into();
    for address in address.to_socket_addrs()? {
        match TcpStream::connect_timeout(&address, CONNECT_WAIT) {
            Ok(stream) => return Ok(stream),
            Err(error) => failure = error,
        }
    }
    Err(failure)
}
