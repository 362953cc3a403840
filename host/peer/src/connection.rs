//! The two directions of a connection, apart from each other so that two threads can use one each.

use std::io::{self, Read, Write};
use std::net::{Shutdown, TcpStream};
use std::sync::{Arc, Mutex, MutexGuard, PoisonError, Weak};
use std::time::{Duration, Instant};

use codec::Message;

use crate::{Cookie, Error};

/// How long a message that nobody asked for waits for room, and how long the rest of one that had room for a part only.
const ROOM_WAIT: Duration = Duration::from_millis(100);
const REST_WAIT: Duration = Duration::from_secs(30);
/// After how long an extension is tried again that couldn't be asked for.
pub(crate) const NEXT_TRY: Duration = Duration::from_secs(1);

/// What comes from the relay.
pub(crate) struct Incoming {
    stream: Arc<TcpStream>,
    reader: frames::Reader,
}

/// What goes to the relay.
pub(crate) struct Outgoing {
    stream: Arc<TcpStream>,
    writer: Arc<Mutex<Writer>>,
}

/// Writes a message at a time, so that the frames of two threads don't mix.
pub(crate) struct Writer {
    stream: Arc<TcpStream>,
    frame: Vec<u8>,
    /// When the last message was written. None if that failed: a part of it may be there, so no other can follow.
    sent: Option<Instant>,
    /// The lease that is to be extended.
    held: Option<Held>,
}

/// A lease that is held, with when the relay was last asked for it, or for more time.
pub(crate) struct Held {
    pub cookie: Cookie,
    pub asked: Instant,
}

/// Closes a connection from another thread; a read or write that waits there ends.
pub struct Closer(Arc<TcpStream>);

/// Both directions of a stream.
pub(crate) fn split(stream: TcpStream) -> (Incoming, Outgoing) {
    let stream = Arc::new(stream);
    let incoming = Incoming { stream: Arc::clone(&stream), reader: frames::Reader::default() };
    let writer = Writer { stream: Arc::clone(&stream), frame: Vec::new(), sent: Some(Instant::now()), held: None };
    (incoming, Outgoing { stream, writer: Arc::new(Mutex::new(writer)) })
}

impl Incoming {
    /// The next message, or None if the deadline passes first. No byte is lost then.
    pub fn receive(&mut self, deadline: Option<Instant>) -> Result<Option<Message<'_>>, Error> {
        let mut stream = Timed { stream: &self.stream, deadline };
        match self.reader.next(&mut stream) {
            Ok(Some(bytes)) => codec::decode(bytes).map(Some).ok_or_else(|| Error::malformed(bytes)),
            Ok(None) => Err(Error::Closed),
            Err(error) if error.is_timeout() => Ok(None),
            Err(frames::Error::Io(error)) => Err(failed(error)),
            Err(frames::Error::Cut) => Err(Error::ClosedMidway),
            Err(frames::Error::Refused(refusal)) => Err(Error::Frame(refusal)),
        }
    }

    pub fn closer(&self) -> Closer {
        Closer(Arc::clone(&self.stream))
    }
}

impl Outgoing {
    /// Fails if the relay hasn't taken the message by the deadline. It may have taken a part of it then, so no other
    /// message can follow.
    pub fn send(&self, message: &Message, deadline: Option<Instant>) -> Result<(), Error> {
        self.lock().send(message, deadline)
    }

    /// From now on this lease is to be extended, or none.
    pub fn hold(&self, lease: Option<Held>) {
        self.lock().held = lease;
    }

    fn lock(&self) -> MutexGuard<'_, Writer> {
        self.writer.lock().unwrap_or_else(PoisonError::into_inner)
    }

    /// For another thread. It keeps the connection from being closed only while it writes.
    pub fn writer(&self) -> Weak<Mutex<Writer>> {
        Arc::downgrade(&self.writer)
    }

    pub fn stream(&self) -> &TcpStream {
        &self.stream
    }

    /// Tells the relay that nothing more will come.
    pub fn end(&self) -> Result<(), Error> {
        self.stream.shutdown(Shutdown::Write).map_err(failed)
    }
}

impl Writer {
    fn send(&mut self, message: &Message, deadline: Option<Instant>) -> Result<(), Error> {
        self.make_frame(message)?;
        let written = Timed { stream: &self.stream, deadline }.write_all(&self.frame).map_err(failed);
        self.sent = written.is_ok().then(Instant::now);
        written
    }

    fn make_frame(&mut self, message: &Message) -> Result<(), Error> {
        let bytes = codec::encode(message).ok_or(Error::OutOfRange)?;
        self.frame.clear();
        frames::append(&bytes, &mut self.frame).ok_or(Error::OutOfRange)
    }

    /// Sends a Keepalive if nothing was sent for so long. Gives when to ask again.
    pub fn beat(&mut self, silence: Duration) -> Duration {
        let Some(sent) = self.sent else { return silence };
        let left = silence.saturating_sub(sent.elapsed());
        if !left.is_zero() {
            return left;
        }
        // If there is no room, what was sent before has still to be taken, and says as much. An error is for those who use
        // the connection to find.
        let _ = self.offer(&Message::Keepalive);
        silence
    }

    /// Asks for more time for the lease that is held, if it was last asked for so long ago. Gives when to ask again.
    pub fn extend(&mut self, wait: Duration) -> Duration {
        let (Some(_), Some(Held { cookie, asked })) = (self.sent, &self.held) else { return wait };
        let left = wait.saturating_sub(asked.elapsed());
        if !left.is_zero() {
            return left;
        }
        let (cookie, asked) = (*cookie, Instant::now());
        match self.offer(&Message::ExtensionRequest { cookie: &cookie }) {
            Ok(()) => {
                self.held = Some(Held { cookie, asked });
                wait
            }
            // There was no room, or an error is for others to find, as with a Keepalive.
            Err(_) => NEXT_TRY,
        }
    }

    /// Sends a message if there is room for it.
    fn offer(&mut self, message: &Message) -> Result<(), Error> {
        self.make_frame(message)?;
        let deadline = Some(Instant::now() + ROOM_WAIT);
        let count = Timed { stream: &self.stream, deadline }.write(&self.frame).map_err(failed)?;
        let deadline = Some(Instant::now() + REST_WAIT);
        let rest = Timed { stream: &self.stream, deadline }.write_all(&self.frame[count..]).map_err(failed);
        self.sent = rest.is_ok().then(Instant::now);
        // Others wait for the writer, and nothing that they would write could be read behind a part of a message.
        rest.inspect_err(|_| {
            let _ = self.stream.shutdown(Shutdown::Both);
        })
    }
}

impl Closer {
    pub fn close(&self) {
        // It fails only where the connection is gone already.
        let _ = self.0.shutdown(Shutdown::Both);
    }
}

/// Why a read or write failed. A relay that stops with bytes unread resets the connection.
fn failed(error: io::Error) -> Error {
    use io::ErrorKind::{BrokenPipe, ConnectionAborted, ConnectionReset, NotConnected};
    match error.kind() {
        BrokenPipe | ConnectionAborted | ConnectionReset | NotConnected => Error::ClosedMidway,
        _ if frames::is_timeout(&error) => Error::NoAnswer,
        _ => Error::Connection(error),
    }
}

/// A stream whose reads or writes end at the deadline, however many of them there are.
struct Timed<'a> {
    stream: &'a TcpStream,
    deadline: Option<Instant>,
}

impl Timed<'_> {
    /// The time left. Without a deadline there is no end of it.
    fn left(&self) -> io::Result<Option<Duration>> {
        let left = self.deadline.map(|deadline| deadline.saturating_duration_since(Instant::now()));
        match left {
            Some(Duration::ZERO) => Err(io::ErrorKind::TimedOut.into()),
            _ => Ok(left),
        }
    }
}

impl Read for Timed<'_> {
    fn read(&mut self, to: &mut [u8]) -> io::Result<usize> {
        self.stream.set_read_timeout(self.left()?)?;
        self.stream.read(to)
    }
}

impl Write for Timed<'_> {
    fn write(&mut self, from: &[u8]) -> io::Result<usize> {
        self.stream.set_write_timeout(self.left()?)?;
        self.stream.write(from)
    }

    fn flush(&mut self) -> io::Result<()> {
        self.stream.flush()
    }
}

#[cfg(test)]
mod tests {
    use std::io::{Read, Write};
    use std::net::{TcpListener, TcpStream};
    use std::thread;
    use std::time::{Duration, Instant};

    use codec::Message;

    use super::{split, Held, Outgoing, Timed, NEXT_TRY, ROOM_WAIT};
    use crate::{Error, MESSAGE_SIZE};

    const DATA: Message = Message::DataSend { data: &[255; MESSAGE_SIZE] };
    const COOKIE: [u8; 24] = [7; 24];

    /// What goes to a relay, and the relay's stream.
    fn connect() -> (Outgoing, TcpStream) {
        let listener = TcpListener::bind("127.0.0.1:0").expect("a port");
        let peer = TcpStream::connect(listener.local_addr().expect("its address")).expect("it listens");
        (split(peer).1, listener.accept().expect("a connection").0)
    }

    /// A heartbeat and an extension are due, and the stream ends.
    fn beat_and_end(outgoing: &Outgoing) {
        outgoing.hold(Some(Held { cookie: COOKIE, asked: Instant::now() }));
        outgoing.lock().beat(Duration::ZERO);
        outgoing.lock().extend(Duration::ZERO);
        outgoing.end().expect("the end");
    }

    #[test]
    fn nothing_follows_a_message_that_failed() {
        let (outgoing, mut relay) = connect();
        let late = outgoing.send(&DATA, Some(Instant::now()));
        assert!(matches!(late, Err(Error::NoAnswer)), "{late:?}");
        beat_and_end(&outgoing);
        assert_eq!(relay.read_to_end(&mut Vec::new()).expect("the end"), 0);
    }

    #[test]
    fn nothing_follows_a_part_of_a_message() {
        let (outgoing, mut relay) = connect();
        // Nobody reads, so the buffers fill up within a message.
        let send = || outgoing.send(&DATA, Some(Instant::now() + Duration::from_millis(50)));
        while send().is_ok() {}
        // There would be room now.
        let reading = thread::spawn(move || {
            let mut received = Vec::new();
            relay.read_to_end(&mut received).map(|_| received)
        });
        beat_and_end(&outgoing);
        let received = reading.join().expect("the relay").expect("the end");
        // The length counts two types, the frame's and the message's.
        let [high, low] = (MESSAGE_SIZE as u16 + 2).to_be_bytes();
        let frame = [&[high, low, 1, 11][..], &[255; MESSAGE_SIZE]].concat();
        let only_data = received.chunks(frame.len()).all(|part| frame.starts_with(part));
        assert!(only_data, "another message within {} bytes", received.len());
    }

    #[test]
    fn an_extension_waits_until_it_is_due() {
        let (outgoing, mut relay) = connect();
        let wait = Duration::from_secs(300);
        assert_eq!(outgoing.lock().extend(wait), wait, "nothing is leased");
        for ago in [0, 100].map(Duration::from_secs) {
            outgoing.hold(Some(Held { cookie: COOKIE, asked: Instant::now() - ago }));
            let (left, late) = (outgoing.lock().extend(wait), Duration::from_secs(60));
            assert!((wait - ago - late..=wait - ago).contains(&left), "{left:?}");
        }
        outgoing.hold(Some(Held { cookie: COOKIE, asked: Instant::now() - wait }));
        assert_eq!(outgoing.lock().extend(wait), wait);
        assert!(outgoing.lock().extend(wait) > wait / 2, "it has been asked for");
        outgoing.end().expect("the end");
        let mut received = Vec::new();
        relay.read_to_end(&mut received).expect("the end");
        assert_eq!(received, [&[0, 26, 1, 4][..], &COOKIE].concat());
    }

    /// Sends as many bytes as there is room for, so many at a time.
    fn fill(outgoing: &Outgoing, length: usize) -> usize {
        let stream = || Timed { stream: outgoing.stream(), deadline: Some(Instant::now() + ROOM_WAIT) };
        (0..).map_while(|_| stream().write(&vec![0; length]).ok()).sum()
    }

    #[test]
    fn an_extension_that_has_no_room_is_tried_again() {
        let (outgoing, mut relay) = connect();
        let wait = Duration::from_secs(300);
        outgoing.hold(Some(Held { cookie: COOKIE, asked: Instant::now() - wait }));
        // What has no room for many bytes may have some for a few.
        let filled = fill(&outgoing, 65_536) + fill(&outgoing, 1);
        assert_eq!(outgoing.lock().extend(wait), NEXT_TRY);
        relay.read_exact(&mut vec![0; filled]).expect("what was before");
        assert_eq!(outgoing.lock().extend(wait), wait);
        outgoing.end().expect("the end");
        let mut received = Vec::new();
        relay.read_to_end(&mut received).expect("the end");
        assert_eq!(received, [&[0, 26, 1, 4][..], &COOKIE].concat());
    }
}
