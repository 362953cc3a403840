//! A transfer in which nothing moves tells so, and fails after the limit if it has one.

use std::io::{self, Read};
use std::sync::mpsc::{self, Receiver, RecvTimeoutError, Sender};
use std::thread::sleep;
use std::time::{Duration, Instant};

use codec::Message;
use peer::{receive_contents, send_contents, Error, Patience, Peer, Progress, MESSAGE_SIZE};

use crate::support::{
    announce, assert_words, confirmation, expect_whole, fill, fingerprint, holder, scripted, Connection, Noting, ID,
    LATER, SESSION,
};

const NOTICE: Duration = Duration::from_millis(200);
const LIMIT: Duration = Duration::from_millis(1_500);
/// Something may take so much longer than it should.
const LATE: Duration = Duration::from_secs(10);

/// What is told of stalls.
type Told = Receiver<Duration>;

/// What came of a transfer: the outcome, how often a stall was told, and how long it took.
struct Outcome {
    result: Result<(), Error>,
    told: usize,
    time: Duration,
}

/// The outcome of a transfer to which a callback is given. The relay is told of stalls too.
fn outcome(
    to_relay: Sender<Duration>,
    transfer: impl FnOnce(&mut dyn FnMut(Progress)) -> Result<(), Error>,
) -> Outcome {
    let (mut told, start) = (0, Instant::now());
    let result = transfer(&mut |progress| {
        if let Progress::Stalled(time) = progress {
            told += 1;
            to_relay.send(time).expect("a relay");
        }
    });
    Outcome { result, told, time: start.elapsed() }
}

/// What sending gives if this happens in the session.
fn send(
    reader: impl Read + Send,
    length: u64,
    patience: Patience,
    script: impl FnOnce(&mut Connection, &Told) + Send + 'static,
) -> Outcome {
    let (to_relay, told) = mpsc::channel();
    let (address, relay) = scripted(move |mut connection| {
        connection.shake_hands();
        connection.grant_session();
        script(&mut connection, &told);
    });
    let mut peer = Peer::connect(address).expect("a handshake");
    peer.establish(ID).expect("a session");
    let outcome =
        outcome(to_relay, |progress| send_contents(&mut peer, reader, length, MESSAGE_SIZE, patience, progress));
    relay.join().expect("the relay");
    outcome
}

/// What receiving gives if this happens in the session.
fn receive(patience: Patience, script: impl FnOnce(&mut Connection, &Told) + Send + 'static) -> Outcome {
    let (to_relay, told) = mpsc::channel();
    let (address, relay) = scripted(move |mut connection| {
        connection.shake_hands();
        connection.grant_lease(LATER);
        // Waiting for a session is no transfer, however long it takes.
        sleep(2 * NOTICE);
        connection.send(Message::EstablishNotification { session: SESSION });
        script(&mut connection, &told);
    });
    let mut peer = holder(address);
    peer.await_session(|_| ()).expect("a session");
    let outcome = outcome(to_relay, |progress| receive_contents(&mut peer, io::sink(), patience, progress).map(drop));
    relay.join().expect("the relay");
    outcome
}

const ENDLESS: Patience = Patience { notice: NOTICE, limit: None };
const LIMITED: Patience = Patience { notice: NOTICE, limit: Some(LIMIT) };

/// Keeps the peer awake until it tells a stall, and goes on for long enough that it could tell it again.
#[track_caller]
fn await_stall(connection: &mut Connection, told: &Told) {
    let stalled = (0..50).find_map(|_| {
        // It is no movement.
        connection.send(Message::Keepalive);
        connection.expect(Message::Keepalive);
        told.recv_timeout(NOTICE / 4).ok()
    });
    assert!(stalled.is_some_and(|time| (NOTICE..LATE).contains(&time)), "{stalled:?}");
    sleep(2 * NOTICE);
}

#[test]
fn a_minute_and_no_limit_unless_asked_for() {
    assert_eq!(Patience::default(), Patience { notice: Duration::from_secs(60), limit: None });
}

#[test]
fn the_sender_tells_each_stall_once() {
    let outcome = send(&b"abc"[..], 3, ENDLESS, |connection, told| {
        expect_whole(connection, b"abc");
        await_stall(connection, told);
        connection.send(Message::DataReceive { data: &2_u64.to_be_bytes() });
        await_stall(connection, told);
        connection.send(Message::DataReceive { data: &confirmation(b"abc") });
        connection.expect(Message::SessionEnd);
    });
    outcome.result.expect("sent");
    assert_eq!(outcome.told, 2);
}

#[test]
fn the_receiver_tells_each_stall_once() {
    let outcome = receive(ENDLESS, |connection, told| {
        announce(connection, 3);
        await_stall(connection, told);
        connection.send(Message::DataReceive { data: b"abc" });
        await_stall(connection, told);
        connection.send(Message::DataReceive { data: &fingerprint(b"abc").digest });
    });
    outcome.result.expect("a file");
    assert_eq!(outcome.told, 2);
}

#[test]
fn what_moves_is_no_stall() {
    let patience = Patience { notice: LIMIT, limit: Some(LIMIT) };
    let outcome = receive(patience, |connection, _| {
        announce(connection, 10);
        (0..10).for_each(|_| {
            sleep(LIMIT / 8);
            connection.send(Message::DataReceive { data: b"a" });
        });
        connection.send(Message::DataReceive { data: &fingerprint(&[b'a'; 10]).digest });
    });
    outcome.result.expect("a file");
    assert_eq!(outcome.told, 0);
    assert!(outcome.time > LIMIT, "too short to show anything");
}

#[track_caller]
fn assert_stalled(outcome: Outcome, words: &str) {
    assert_words(outcome.result.expect_err("stalled"), &["nothing has moved for 1 s", words]);
    assert_eq!(outcome.told, 1);
    assert!((LIMIT..LATE).contains(&outcome.time), "{:?}", outcome.time);
}

#[test]
fn the_sender_ends_at_its_limit() {
    let outcome = send(&b"abc"[..], 3, LIMITED, |connection, _| {
        expect_whole(connection, b"abc");
        assert_eq!(connection.next(), None);
    });
    assert_stalled(outcome, "0 of 3 bytes had arrived");
}

#[test]
fn the_receiver_ends_at_its_limit() {
    let outcome = receive(LIMITED, |connection, _| {
        announce(connection, 3);
        assert_eq!(connection.next(), None);
    });
    assert_stalled(outcome, "0 of 3 bytes had come");
}

#[test]
fn empty_data_moves_nothing() {
    let outcome = receive(LIMITED, |connection, _| {
        announce(connection, 3);
        let end = Instant::now() + LATE;
        while Instant::now() < end && connection.try_send(Message::DataReceive { data: b"" }) {
            sleep(NOTICE / 4);
        }
    });
    assert_stalled(outcome, "0 of 3 bytes had come");
}

/// What the relay doesn't read fills the buffers.
#[test]
fn a_stall_is_told_and_ends_while_a_write_waits() {
    let (to_relay, reads) = mpsc::channel();
    let endless = Noting { reader: io::repeat(1), to_relay };
    let outcome = send(endless, 1 << 40, LIMITED, move |connection, told| {
        fill(connection, &reads);
        told.recv_timeout(LATE).expect("a stall");
        assert_eq!(reads.recv_timeout(LATE), Err(RecvTimeoutError::Disconnected), "the write ends");
    });
    assert_words(
        outcome.result.expect_err("stalled"),
        &["nothing has moved", "of 1,099,511,627,776 bytes had arrived"],
    );
}
