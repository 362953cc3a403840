//! A relay for the tests: a thread that speaks frames, by a script or as a small forwarding loop.

use std::io::{self, Read, Write};
use std::net::{Shutdown, SocketAddr, TcpListener, TcpStream};
use std::sync::mpsc::{self, Receiver};
use std::thread::{self, JoinHandle};
use std::time::Duration;

use codec::{Message, Session};
use peer::{receive_file, send_file, Error, Fingerprint, Peer, MESSAGE_SIZE};

/// No read or write of a test waits longer.
const LIMIT: Duration = Duration::from_secs(10);
pub const VERSION: Message = Message::ProtocolVersion { major: 1, minor: 0 };
pub const ID: u32 = 12_345_678;
pub const COOKIE: [u8; 24] = [7; 24];
const FIELD: [u8; 16] = [9; 16];
pub const SESSION: Session = Session { id: &FIELD, peer: &FIELD, key: &FIELD };
/// An expiration that isn't near.
pub const LATER: u64 = 1 << 39;

/// A connection as the relay has it.
pub struct Connection {
    stream: TcpStream,
    reader: frames::Reader,
}

impl Connection {
    fn accept(listener: &TcpListener) -> Self {
        let (stream, _) = listener.accept().expect("a connection");
        stream.set_read_timeout(Some(LIMIT)).expect("a read limit");
        stream.set_write_timeout(Some(LIMIT)).expect("a write limit");
        Self { stream, reader: frames::Reader::default() }
    }

    /// A peer may be gone already, which its own outcome shows.
    pub fn send(&mut self, message: Message) {
        self.try_send(message);
    }

    /// Whether the peer is still there.
    pub fn try_send(&mut self, message: Message) -> bool {
        let mut frame = Vec::new();
        frames::append(&codec::encode(&message).expect("a message"), &mut frame).expect("a frame");
        self.stream.write_all(&frame).is_ok()
    }

    pub fn send_raw(&mut self, bytes: &[u8]) {
        let _ = self.stream.write_all(bytes);
    }

    /// The next message, None at the end. The test fails if neither comes in time.
    pub fn next(&mut self) -> Option<Message<'_>> {
        match self.reader.next(&mut self.stream) {
            Ok(bytes) => Some(codec::decode(bytes?).expect("a message")),
            Err(error) => {
                assert!(!error.is_timeout(), "the peer neither sent nor ended");
                None
            }
        }
    }

    #[track_caller]
    pub fn expect(&mut self, message: Message) {
        assert_eq!(self.next(), Some(message));
    }

    pub fn shake_hands(&mut self) {
        self.send(VERSION);
        self.expect(Message::VersionAnswer { ok: 1 });
    }

    pub fn grant_lease(&mut self, expiration: u64) {
        self.expect(Message::LeaseRequest);
        self.send(Message::LeaseGranted { id: ID, cookie: &COOKIE, expiration });
    }

    pub fn grant_session(&mut self) {
        self.expect(Message::EstablishRequest { id: ID });
        self.send(Message::Established { id: ID, session: SESSION });
    }

    /// Waits until something has come, and leaves it unread.
    pub fn await_bytes(&mut self) {
        assert_eq!(self.stream.peek(&mut [0]).expect("bytes"), 1);
    }

    /// Reads whatever comes to the end of the stream.
    pub fn drain(&mut self) {
        let _ = self.stream.read_to_end(&mut Vec::new());
    }

    fn second_handle(&self) -> TcpStream {
        self.stream.try_clone().expect("a second handle")
    }
}

/// Runs the script with the first connection.
pub fn scripted(script: impl FnOnce(Connection) + Send + 'static) -> (SocketAddr, JoinHandle<()>) {
    let (listener, address) = listen();
    (address, thread::spawn(move || script(Connection::accept(&listener))))
}

/// Leases an id to the first connection, establishes a session between the second and it, and hands on what they send
/// until both are gone. Gives the types of messages that the second sent.
pub fn forwarding() -> (SocketAddr, JoinHandle<Vec<u8>>) {
    let (listener, address) = listen();
    let relay = thread::spawn(move || {
        let mut holder = Connection::accept(&listener);
        holder.shake_hands();
        holder.grant_lease(LATER);
        let mut caller = Connection::accept(&listener);
        caller.shake_hands();
        caller.grant_session();
        holder.send(Message::EstablishNotification { session: SESSION });
        let (to_holder, to_caller) = (holder.second_handle(), caller.second_handle());
        let back = thread::spawn(move || forward(holder, to_caller));
        let kinds = forward(caller, to_holder);
        back.join().expect("the way back");
        kinds
    });
    (address, relay)
}

/// Hands on data and the session's end, which the end of the connection is too. Gives the types of the messages.
fn forward(mut from: Connection, to: TcpStream) -> Vec<u8> {
    let mut to = Connection { stream: to, reader: frames::Reader::default() };
    let mut kinds = Vec::new();
    while let Some(message) = from.next() {
        kinds.extend(codec::encode(&message).and_then(|bytes| bytes.first().copied()));
        match message {
            Message::DataSend { data } => to.send(Message::DataReceive { data }),
            Message::SessionEnd => to.send(Message::SessionEndNotification),
            _ => {}
        }
    }
    to.send(Message::SessionEndNotification);
    let _ = from.stream.shutdown(Shutdown::Write);
    kinds
}

fn listen() -> (TcpListener, SocketAddr) {
    let listener = TcpListener::bind("127.0.0.1:0").expect("a port");
    let address = listener.local_addr().expect("its address");
    (listener, address)
}

/// A peer that has leased the id.
pub fn holder(address: SocketAddr) -> Peer {
    let mut peer = Peer::connect(address).expect("a handshake");
    assert_eq!(peer.lease().expect("a lease"), ID);
    peer
}

/// What receiving gives if this comes in the session, and what was written.
pub fn receive_at(script: impl FnOnce(&mut Connection) + Send + 'static) -> (Result<u64, Error>, Vec<u8>) {
    let (address, relay) = scripted(|mut connection| {
        connection.shake_hands();
        connection.grant_lease(LATER);
        connection.send(Message::EstablishNotification { session: SESSION });
        script(&mut connection);
    });
    let (mut peer, mut written) = (holder(address), Vec::new());
    let outcome = receive_file(&mut peer, &mut written, |_| ());
    // The connection's end after an error mustn't depend on the peer's drop.
    relay.join().expect("the relay");
    (outcome, written)
}

pub fn announce(connection: &mut Connection, length: u64) {
    connection.send(Message::DataReceive { data: &length.to_be_bytes() });
}

/// The length, the file and the digest, as a sender does.
pub fn send_whole(connection: &mut Connection, file: &[u8]) {
    announce(connection, file.len() as u64);
    connection.send(Message::DataReceive { data: file });
    connection.send(Message::DataReceive { data: &fingerprint(file).digest });
}

/// What sending gives if this happens in the session.
pub fn send_at(
    reader: impl Read + Send,
    length: u64,
    script: impl FnOnce(&mut Connection) + Send + 'static,
) -> Result<(), Error> {
    let (address, relay) = scripted(|mut connection| {
        connection.shake_hands();
        connection.grant_session();
        script(&mut connection);
    });
    let mut peer = Peer::connect(address).expect("a handshake");
    let outcome = send_file(&mut peer, ID, reader, length, |_| ());
    relay.join().expect("the relay");
    outcome
}

/// The length, the file in one message and the digest.
#[track_caller]
pub fn expect_whole(connection: &mut Connection, file: &[u8]) {
    connection.expect(Message::DataSend { data: &(file.len() as u64).to_be_bytes() });
    connection.expect(Message::DataSend { data: file });
    connection.expect(Message::DataSend { data: &fingerprint(file).digest });
}

/// Counts what the sender has sent, but reads nothing, until the sender is stuck in a write.
pub fn fill(connection: &mut Connection, reads: &Receiver<usize>) {
    let (mut read, mut counted) = (0, 0);
    while let Ok(count) = reads.recv_timeout(Duration::from_secs(1)) {
        read += count;
        // All that was read has been sent, but for a message or two.
        let sent = read.saturating_sub(3 * MESSAGE_SIZE);
        if sent > counted {
            counted = sent;
            connection.send(Message::DataReceive { data: &(sent as u64).to_be_bytes() });
        }
    }
}

/// Notes how much is read, which a write that waits holds up.
pub struct Noting<R> {
    pub reader: R,
    pub to_relay: mpsc::Sender<usize>,
}

impl<R: Read> Read for Noting<R> {
    fn read(&mut self, to: &mut [u8]) -> io::Result<usize> {
        let count = self.reader.read(to)?;
        let _ = self.to_relay.send(count);
        Ok(count)
    }
}

/// A disk that takes and gives nothing until it is told to.
pub struct Stuck(pub Receiver<()>);

impl Stuck {
    fn wait(&self) {
        self.0.recv().expect("the relay has heard of the peer");
    }
}

impl Write for Stuck {
    fn write(&mut self, bytes: &[u8]) -> io::Result<usize> {
        self.wait();
        Ok(bytes.len())
    }

    fn flush(&mut self) -> io::Result<()> {
        self.wait();
        Ok(())
    }
}

impl Read for Stuck {
    fn read(&mut self, _: &mut [u8]) -> io::Result<usize> {
        self.wait();
        Ok(0)
    }
}

pub fn fingerprint(file: &[u8]) -> Fingerprint {
    Fingerprint::read(file).expect("bytes")
}

/// What a receiver confirms a file by.
pub fn confirmation(file: &[u8]) -> Vec<u8> {
    [&(file.len() as u64).to_be_bytes()[..], &fingerprint(file).digest].concat()
}

/// Fails unless all of these words are in the error's text.
#[track_caller]
pub fn assert_words(error: Error, words: &[&str]) {
    let text = error.to_string();
    for word in words {
        assert!(text.contains(word), "'{word}' isn't in '{text}'");
    }
}
