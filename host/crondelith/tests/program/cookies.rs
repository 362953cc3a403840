//! A receiver that comes back with the cookie of its lease.

mod bad_files;
mod renewal;

use std::fs;
use std::net::{TcpListener, TcpStream};
use std::path::{Path, PathBuf};

use codec::Message;
use frames::Reader;

use crate::support::{folder, program, text, write_file, Relay, Running};

/// A folder of its own for a test, with a file to send.
struct Scene {
    folder: PathBuf,
    cookie: PathBuf,
    original: PathBuf,
}

impl Scene {
    fn new(name: &str) -> Self {
        let folder = folder(name);
        let (cookie, original) = (folder.join("cookie"), folder.join("original"));
        write_file(&original, 1_000);
        Self { folder, cookie, original }
    }

    /// A receiver with the cookie file, and what it prints: the id, and whether it is kept.
    fn receiver(&self, relay: &Relay) -> (Running, String, String) {
        receiver(relay, &self.folder.join("copy"), &self.cookie)
    }

    /// Sends the file to the id, which has to lead to this receiver.
    fn transfer(&self, relay: &Relay, id: &str, receiver: Running) {
        let sender = Running::start(&mut relay.peer(&["send", id, text(&self.original)])).end();
        assert_eq!(sender.status, Some(0), "{}", sender.stderr);
        let received = receiver.end();
        assert_eq!(received.status, Some(0), "{}", received.stderr);
    }

    fn kept(&self) -> String {
        fs::read_to_string(&self.cookie).expect("a cookie file")
    }

    /// Where the cookie is that was replaced last.
    fn old(&self) -> PathBuf {
        self.folder.join("cookie.old")
    }
}

fn receiver(relay: &Relay, copy: &Path, cookie: &Path) -> (Running, String, String) {
    let (receiver, line) = relay.receiver(copy, &["--force", "--cookie", text(cookie)]);
    let (id, word) = line.split_once(' ').expect("an id and a word");
    (receiver, id.to_owned(), word.to_owned())
}

fn kill(receiver: Running) {
    receiver.signal("KILL");
    receiver.end();
}

/// A cookie as its file has it.
fn line(cookie: &[u8; 24]) -> String {
    cookie.iter().map(|byte| format!("{byte:02x}")).collect::<String>() + "\n"
}

/// A relay of the test's own.
struct Scripted {
    listener: TcpListener,
    address: String,
}

impl Scripted {
    fn new() -> Self {
        let listener = TcpListener::bind("127.0.0.1:0").expect("a port");
        let address = listener.local_addr().expect("its address").to_string();
        Self { listener, address }
    }

    /// The arguments of a receiver in the folder, with its cookie file.
    fn arguments<'a>(&'a self, copy: &'a Path, cookie: &'a Path) -> [&'a str; 7] {
        ["peer", "receive", text(copy), "--relay", &self.address, "--cookie", text(cookie)]
    }

    fn receiver(&self, scene: &Scene) -> Running {
        Running::start(&mut program(&self.arguments(&scene.folder.join("copy"), &scene.cookie)))
    }

    /// The receiver's connection, its version answered.
    fn accept(&self) -> Connection {
        let (stream, _) = self.listener.accept().expect("a connection");
        let mut connection = Connection { stream, reader: Reader::default() };
        connection.send(Message::ProtocolVersion { major: 1, minor: 0 });
        connection.expect(Message::VersionAnswer { ok: 1 });
        connection
    }

    /// Whether nobody has come.
    fn is_alone(&self) -> bool {
        self.listener.set_nonblocking(true).expect("a mode");
        self.listener.accept().is_err()
    }
}

struct Connection {
    stream: TcpStream,
    reader: Reader,
}

impl Connection {
    fn send(&mut self, message: Message) {
        crate::transfer::send(&mut self.stream, message);
    }

    #[track_caller]
    fn expect(&mut self, message: Message) {
        let bytes = self.reader.next(&mut self.stream).expect("a frame").expect("a message");
        assert_eq!(codec::decode(bytes), Some(message));
    }

    fn grant(&mut self, id: u32, cookie: &[u8; 24], expiration: u64) {
        self.send(Message::LeaseGranted { id, cookie, expiration });
    }
}
