//! `crondelith explain` on the state of a relay that runs, and of one that has ended.

mod allowance;
mod calls;
mod decisions;
mod files;

use std::fs;
use std::io::Read;
use std::net::TcpStream;
use std::path::{Path, PathBuf};
use std::time::Duration;

use codec::Message;
use peer::Peer;
use serde_json::Value;
use server::{CONNECTIONS_EACH, PARTNERS};

use crate::support::{becomes_true, folder, run, text, Relay};

/// The partner of the peers here.
const PARTNER: usize = 1;
/// Its first connections, in the order in which they come.
const FIRST: usize = PARTNER * CONNECTIONS_EACH;
const SECOND: usize = FIRST + 1;
const THIRD: usize = FIRST + 2;
/// Bytes of an allowance's record, level and time of update; the last record's time is the relay's clock.
const RECORD: usize = 16;
/// What a message is asked about with: a keepalive.
const KEEPALIVE: &str = "0d";
/// The relay saves its state twice a second.
const SAVED: Duration = Duration::from_secs(10);
const LONGEST: usize = 65_534;

/// A relay with a state file, in a folder of its own.
fn relay(name: &str) -> (Relay, PathBuf) {
    let state = folder(name).join("relay.state");
    (Relay::start(&["--state", text(&state)]), state)
}

/// A peer of the partner, its version answered.
fn peer(relay: &Relay) -> Peer {
    Peer::connect(("127.0.0.1", relay.base_port + PARTNER as u16)).expect("a handshake")
}

/// Leases an id; gives it with its cookie.
fn lease(peer: &mut Peer) -> (u32, Vec<u8>) {
    peer.send(&Message::LeaseRequest).expect("sent");
    match peer.receive().expect("an answer") {
        Message::LeaseGranted { id, cookie, .. } => (id, cookie.to_vec()),
        other => panic!("{other:?}"),
    }
}

fn end(relay: Relay) {
    relay.program.signal("TERM");
    assert_eq!(relay.program.end().status, Some(0));
}

/// What the program prints about a call.
fn told(state: &Path, call: &[&str]) -> String {
    let ended = run(&[&["explain", text(state)], call].concat());
    assert_eq!((ended.status, ended.stderr.as_str()), (Some(0), ""), "{call:?}");
    ended.stdout
}

/// Likewise as JSON.
fn explain(state: &Path, call: &[&str]) -> Value {
    let line = told(state, &[call, &["--json"]].concat());
    assert_eq!(line.lines().count(), 1, "{line}");
    serde_json::from_str(&line).unwrap_or_else(|error| panic!("{error}: {line}"))
}

fn explain_open(state: &Path, connection: usize) -> Value {
    explain(state, &["open", "--connection", &connection.to_string()])
}

fn explain_message(state: &Path, connection: usize, hex: &str, options: &[&str]) -> Value {
    explain(state, &[&["message", "--connection", &connection.to_string(), "--hex", hex], options].concat())
}

fn hex(bytes: &[u8]) -> String {
    bytes.iter().map(|byte| format!("{byte:02x}")).collect()
}

/// An establish request as hex.
fn establish(id: u32) -> String {
    format!("06{id:08x}")
}

/// The object has all of these fields.
fn assert_has(object: &Value, fields: Value) {
    for (name, value) in fields.as_object().expect("fields") {
        assert_eq!(object.get(name), Some(value), "'{name}' of {object}");
    }
}

fn assert_lacks(object: &Value, names: &[&str]) {
    assert!(names.iter().all(|name| object.get(name).is_none()), "any of {names:?}: {object}");
}

/// The level and the time of update in the record of a partner, or of the relay's clock after those.
fn record(state: &Path, partner: usize) -> (u64, u64) {
    let bytes = fs::read(state).expect("a state");
    let record = &bytes[bytes.len() - RECORD * (PARTNERS + 1 - partner)..][..RECORD];
    let number = |bytes: &[u8]| u64::from_be_bytes(bytes.try_into().expect("eight bytes"));
    (number(&record[..8]), number(&record[8..]))
}

fn clock(state: &Path) -> u64 {
    record(state, PARTNERS).1
}

/// What a partner has at a time, by the rules' own words.
fn level(state: &Path, partner: usize, time: u64) -> u64 {
    let (level, updated) = record(state, partner);
    (level + 65_536 * (time - updated)).min(262_144)
}

/// A copy of the state with another allowance of the partner.
fn with_allowance(state: &Path, level: u64, updated: u64) -> PathBuf {
    let mut bytes = fs::read(state).expect("a state");
    let start = bytes.len() - RECORD * (PARTNERS + 1 - PARTNER);
    bytes[start..][..8].copy_from_slice(&level.to_be_bytes());
    bytes[start + 8..][..8].copy_from_slice(&updated.to_be_bytes());
    let copy = state.with_extension("copy");
    fs::write(&copy, bytes).expect("a copy");
    copy
}

/// Waits until the relay has saved what this is about.
fn await_saved(condition: impl FnMut() -> bool) {
    assert!(becomes_true(SAVED, condition), "it isn't saved");
}

/// A running relay with a holder of an id, a second connection, and a third that hasn't answered the version.
struct Scene {
    state: PathBuf,
    id: u32,
    cookie: Vec<u8>,
    _relay: Relay,
    _peers: [Peer; 2],
    _greeted: TcpStream,
}

impl Scene {
    fn start(name: &str) -> Self {
        let (relay, state) = relay(name);
        let mut holder = peer(&relay);
        let (id, cookie) = lease(&mut holder);
        let second = peer(&relay);
        let mut greeted = TcpStream::connect(("127.0.0.1", relay.base_port + PARTNER as u16)).expect("it listens");
        greeted.read_exact(&mut [0; 16]).expect("the version");
        await_saved(|| explain_message(&state, THIRD, KEEPALIVE, &[])["check"] == 7);
        await_saved(|| explain_message(&state, SECOND, KEEPALIVE, &[])["check"] == 0);
        Self { state, id, cookie, _relay: relay, _peers: [holder, second], _greeted: greeted }
    }
}

/// A session between the first two connections, a third one, and an id whose holder has gone.
struct Session {
    state: PathBuf,
    id: u32,
    lost_id: u32,
    _relay: Relay,
    _peers: [Peer; 3],
}

impl Session {
    fn start(name: &str) -> Self {
        let (relay, state) = relay(name);
        let (mut holder, mut caller, third, mut lost) = (peer(&relay), peer(&relay), peer(&relay), peer(&relay));
        let ((id, _), (lost_id, _)) = (lease(&mut holder), lease(&mut lost));
        lost.finish().expect("an end in order");
        caller.establish(id).expect("a session");
        await_saved(|| explain_message(&state, SECOND, "09", &[])["check"] == 0);
        Self { state, id, lost_id, _relay: relay, _peers: [holder, caller, third] }
    }
}
