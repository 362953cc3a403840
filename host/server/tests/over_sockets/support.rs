//! A relay on free ports, whose log is kept, and plain sockets to talk to it.

use std::io::{Read, Write};
use std::net::{Shutdown, TcpStream};
use std::sync::{Arc, Mutex};
use std::thread;
use std::time::{Duration, Instant};

use codec::{encode, Message};
use frames::{append, Reader};
use server::{bind_free, Clock, Limits, Log, LogFormat, Server, Settings, Statistics, SystemClock};

/// What is awaited for longer than this won't come.
pub const LIMIT: Duration = Duration::from_secs(10);

pub struct Relay {
    pub server: Server,
    lines: Arc<Mutex<Vec<String>>>,
}

impl Relay {
    pub fn start() -> Self {
        Self::with_clock(SystemClock::new())
    }

    pub fn with_clock(clock: impl Clock + 'static) -> Self {
        Self::with_limits(clock, Limits::default())
    }

    pub fn with_limits(clock: impl Clock + 'static, limits: Limits) -> Self {
        Self::with_settings(clock, |settings| settings.limits = limits)
    }

    pub fn with_settings(clock: impl Clock + 'static, adapt: impl FnOnce(&mut Settings)) -> Self {
        let lines = Arc::new(Mutex::new(Vec::new()));
        let log = {
            let lines = Arc::clone(&lines);
            Log::new(LogFormat::Text, move |line| lines.lock().expect("no panic in a log").push(plain(line)))
        };
        let mut settings = Settings::new(clock, log);
        adapt(&mut settings);
        Self { server: Server::start(bind_free().expect("free ports"), settings).expect("a relay"), lines }
    }

    /// Stops it, and gives what each partner got and the log.
    pub fn stop(self) -> (Vec<Statistics>, Vec<String>) {
        let statistics = self.server.stop().expect("an end in order");
        (statistics, self.lines.lock().expect("no panic in a log").clone())
    }

    /// A socket to the partner's port; nothing has been said on it.
    pub fn socket(&self, partner: usize) -> Socket {
        Socket::over(TcpStream::connect(self.server.addresses()[partner]).expect("the relay listens"))
    }

    /// A connection of the partner with its version answered.
    pub fn peer(&self, partner: usize) -> Socket {
        let mut socket = self.socket(partner);
        assert_eq!(socket.receive(), encode(&Message::ProtocolVersion { major: 1, minor: 0 }));
        socket.send(Message::VersionAnswer { ok: 1 });
        socket
    }

    /// Likewise, tried again while all numbers are in use.
    pub fn patient_peer(&self, partner: usize) -> Socket {
        let end = Instant::now() + LIMIT;
        loop {
            let mut socket = self.socket(partner);
            if matches!(socket.reader.next(&mut socket.stream), Ok(Some(_))) {
                socket.send(Message::VersionAnswer { ok: 1 });
                return socket;
            }
            assert!(Instant::now() < end, "no number of partner {partner} is free");
            thread::sleep(Duration::from_millis(5));
        }
    }

    /// Waits for a line of the log that has this text.
    pub fn await_line(&self, text: &str) {
        self.wait_until(|| self.has_line(text), &format!("no line with '{text}'"));
    }

    /// Likewise with one of these texts.
    pub fn await_any(&self, texts: &[String]) {
        self.wait_until(|| texts.iter().any(|text| self.has_line(text)), &format!("no line with any of {texts:?}"));
    }

    /// Waits until so many connections have been opened in all, and gives their numbers in that order.
    pub fn await_opened(&self, count: usize) -> Vec<usize> {
        let opened = || self.lines_with(": connected");
        self.wait_until(|| opened().len() >= count, &format!("fewer than {count} are opened"));
        opened().iter().map(|line| number_of(line)).collect()
    }

    /// Waits until so many calls of the partner have been made to wait.
    pub fn await_waits(&self, partner: usize, count: u64) {
        self.wait_until(|| self.server.statistics()[partner].waited >= count, "no call waits");
    }

    /// Waits until so many calls of the partner are done.
    pub fn await_done(&self, partner: usize, count: u64) {
        self.wait_until(|| self.server.statistics()[partner].done >= count, "the calls aren't done");
    }

    pub fn wait_until(&self, condition: impl Fn() -> bool, otherwise: &str) {
        let end = Instant::now() + LIMIT;
        while !condition() {
            assert!(Instant::now() < end, "{otherwise}: {:#?}", self.lines.lock());
            thread::sleep(Duration::from_millis(5));
        }
    }

    pub fn has_line(&self, text: &str) -> bool {
        !self.lines_with(text).is_empty()
    }

    pub fn lines_with(&self, text: &str) -> Vec<String> {
        let lines = self.lines.lock().expect("no panic in a log");
        lines.iter().filter(|line| line.contains(text)).cloned().collect()
    }
}

/// The connection that a line of the log is about.
fn number_of(line: &str) -> usize {
    let number = line.split_once("connection ").and_then(|(_, rest)| rest.split_once(':'));
    number.and_then(|(number, _)| number.parse().ok()).unwrap_or_else(|| panic!("no number: {line}"))
}

/// A line of the log without its time and the peer's address, which differ from run to run.
fn plain(line: &str) -> String {
    let (_, line) = line.split_once(' ').expect("a time");
    match line.split_once(" at 127.0.0.1:") {
        Some((place, rest)) => format!("{place}{}", rest.trim_start_matches(|digit: char| digit.is_ascii_digit())),
        None => line.to_owned(),
    }
}

pub struct Socket {
    pub stream: TcpStream,
    reader: Reader,
}

impl Socket {
    pub fn over(stream: TcpStream) -> Self {
        stream.set_read_timeout(Some(LIMIT)).expect("a timeout");
        stream.set_write_timeout(Some(LIMIT)).expect("a timeout");
        Self { stream, reader: Reader::default() }
    }

    pub fn send(&mut self, message: Message) {
        self.send_message(&encode(&message).expect("a message in range"));
    }

    pub fn send_message(&mut self, message: &[u8]) {
        let mut frame = Vec::new();
        append(message, &mut frame).expect("a frame");
        self.send_bytes(&frame);
    }

    pub fn send_bytes(&mut self, bytes: &[u8]) {
        self.stream.write_all(bytes).expect("the relay takes bytes");
    }

    /// The next message, or None at the end of the stream.
    pub fn receive(&mut self) -> Option<Vec<u8>> {
        self.reader.next(&mut self.stream).expect("a message or the end").map(<[u8]>::to_vec)
    }

    /// The next message, unless none comes in time.
    pub fn try_receive(&mut self) -> Option<Vec<u8>> {
        self.reader.next(&mut self.stream).ok().flatten().map(<[u8]>::to_vec)
    }

    /// Whether nothing has come, neither a message nor the end.
    pub fn is_quiet(&mut self) -> bool {
        self.stream.set_read_timeout(Some(Duration::from_millis(1))).expect("a timeout");
        let is_quiet = self.reader.next(&mut self.stream).is_err_and(|error| error.is_timeout());
        self.stream.set_read_timeout(Some(LIMIT)).expect("a timeout");
        is_quiet
    }

    /// Whether the relay has closed the connection. What it sent before is passed over.
    pub fn is_closed(&mut self) -> bool {
        let mut rest = Vec::new();
        match self.stream.read_to_end(&mut rest) {
            Ok(_) => true,
            // Closed with bytes unread.
            Err(error) => error.kind() == std::io::ErrorKind::ConnectionReset,
        }
    }

    pub fn leave(self) {
        // It fails where the relay has closed the connection already.
        let _ = self.stream.shutdown(Shutdown::Both);
    }

    /// Leases an id.
    pub fn lease(&mut self) -> u32 {
        self.lease_by(Message::LeaseRequest).0
    }

    /// Leases an id by this request. Gives it with its cookie.
    pub fn lease_by(&mut self, request: Message) -> (u32, Vec<u8>) {
        self.send(request);
        let answer = self.receive().expect("an answer");
        match codec::decode(&answer) {
            Some(Message::LeaseGranted { id, cookie, .. }) => (id, cookie.to_vec()),
            other => panic!("{other:?}"),
        }
    }

    /// Establishes a session with the holder of an id, who waits for it.
    pub fn establish(&mut self, holder: &mut Socket) {
        let id = holder.lease();
        self.send(Message::EstablishRequest { id });
        let answer = self.receive().expect("an answer");
        assert!(matches!(codec::decode(&answer), Some(Message::Established { .. })), "{answer:?}");
        let told = holder.receive().expect("a notification");
        assert!(matches!(codec::decode(&told), Some(Message::EstablishNotification { .. })), "{told:?}");
    }
}

/// Stops the relay, which may not take long, whatever its peers do.
pub fn assert_stops(relay: Relay) {
    let start = Instant::now();
    relay.stop();
    assert!(start.elapsed() < LIMIT / 2, "it took {:?}", start.elapsed());
}
