//! A relay that asks whether a peer is there: it answers in every state, and says so by itself if it can't.

use std::sync::mpsc;
use std::thread;
use std::time::Duration;

use codec::Message;
use peer::{receive_contents, receive_file, send_contents, send_file, Patience, Peer, MESSAGE_SIZE, SILENCE};

use crate::support::{
    announce, confirmation, fingerprint, forwarding, holder, receive_at, scripted, Connection, Stuck, COOKIE, ID,
    LATER, SESSION,
};

/// Of a heartbeat that a test waits for.
const SOON: Duration = Duration::from_millis(20);

/// The next message is the peer's answer.
#[track_caller]
fn ask(connection: &mut Connection) {
    connection.send(Message::Keepalive);
    connection.expect(Message::Keepalive);
}

#[test]
fn who_waits_for_an_answer_or_a_session_answers() {
    let (address, relay) = scripted(|mut connection| {
        connection.shake_hands();
        connection.expect(Message::LeaseRequest);
        ask(&mut connection);
        connection.send(Message::LeaseGranted { id: ID, cookie: &COOKIE, expiration: LATER });
        ask(&mut connection);
        connection.send(Message::EstablishNotification { session: SESSION });
        connection.send(Message::SessionEndNotification);
        connection.grant_session();
    });
    let mut peer = Peer::connect(address).expect("a handshake");
    peer.lease().expect("a lease");
    peer.await_session(|_| panic!("no new id")).expect("a session");
    peer.establish(ID).expect("another session");
    relay.join().expect("the relay");
}

#[test]
fn a_receiver_answers_before_within_and_after_a_file() {
    let (outcome, written) = receive_at(|connection| {
        ask(connection);
        announce(connection, 5);
        ask(connection);
        connection.send(Message::DataReceive { data: b"ab" });
        ask(connection);
        connection.send(Message::DataReceive { data: b"cde" });
        ask(connection);
        connection.send(Message::DataReceive { data: &fingerprint(b"abcde").digest });
        connection.expect(Message::DataSend { data: &confirmation(b"abcde") });
        connection.send(Message::Keepalive);
        connection.send(Message::SessionEndNotification);
    });
    assert_eq!((outcome.expect("a file"), &written[..]), (5, &b"abcde"[..]));
}

/// Takes so many of a sender's messages with data, and gives that of the last.
#[track_caller]
fn take(connection: &mut Connection, count: usize) -> Vec<u8> {
    let take_one = |_| match connection.next() {
        Some(Message::DataSend { data }) => data.to_vec(),
        other => panic!("{other:?}"),
    };
    (0..count).map(take_one).last().expect("a message")
}

#[test]
fn a_sender_answers_before_within_and_after_a_file() {
    // After 128 KiB the sender waits for a count.
    let (window, all) = (131_072 / MESSAGE_SIZE, 12);
    let length = (all * MESSAGE_SIZE) as u64;
    let file = vec![7; length as usize];
    let digest = fingerprint(&file).digest;
    let confirmation = confirmation(&file);
    let (address, relay) = scripted(move |mut connection| {
        connection.shake_hands();
        connection.expect(Message::EstablishRequest { id: ID });
        ask(&mut connection);
        connection.send(Message::Established { id: ID, session: SESSION });
        assert_eq!(take(&mut connection, 1), length.to_be_bytes());
        take(&mut connection, window);
        ask(&mut connection);
        let counted = (window * MESSAGE_SIZE) as u64;
        connection.send(Message::DataReceive { data: &counted.to_be_bytes() });
        assert_eq!(take(&mut connection, all - window + 1), digest);
        ask(&mut connection);
        connection.send(Message::DataReceive { data: &confirmation });
        connection.expect(Message::SessionEnd);
    });
    let mut peer = Peer::connect(address).expect("a handshake");
    send_file(&mut peer, ID, &file[..], length, |_| ()).expect("sent");
    relay.join().expect("the relay");
}

#[test]
fn a_receiver_whose_disk_is_stuck_is_there() {
    let (go_on, stuck) = mpsc::channel();
    let (address, relay) = scripted(move |mut connection| {
        connection.shake_hands();
        connection.grant_lease(LATER);
        connection.send(Message::EstablishNotification { session: SESSION });
        announce(&mut connection, 3);
        connection.send(Message::DataReceive { data: b"abc" });
        connection.send(Message::DataReceive { data: &fingerprint(b"abc").digest });
        // While it writes, and while it flushes.
        for _ in 0..2 {
            connection.expect(Message::Keepalive);
            go_on.send(()).expect("a disk");
        }
        connection.drain();
    });
    let mut peer = holder(address);
    peer.await_session(|_| panic!("no new id")).expect("a session");
    peer.keep_alive(SOON).expect("a thread");
    receive_contents(&mut peer, Stuck(stuck), Patience::default(), |_| ()).expect("a file");
    drop(peer);
    relay.join().expect("the relay");
}

#[test]
fn a_sender_whose_disk_is_stuck_is_there() {
    let (go_on, stuck) = mpsc::channel();
    let (address, relay) = scripted(move |mut connection| {
        connection.shake_hands();
        connection.grant_session();
        connection.expect(Message::Keepalive);
        go_on.send(()).expect("a disk");
        let mut heard = Vec::new();
        while let Some(message) = connection.next() {
            heard.extend((message != Message::Keepalive).then(|| format!("{message:?}")));
        }
        assert_eq!(heard, [""; 0], "the file is shorter than announced");
    });
    let mut peer = Peer::connect(address).expect("a handshake");
    peer.establish(ID).expect("a session");
    peer.keep_alive(SOON).expect("a thread");
    let patience = Patience::default();
    send_contents(&mut peer, Stuck(stuck), 3, MESSAGE_SIZE, patience, |_| ()).expect_err("no file");
    relay.join().expect("the relay");
}

#[test]
fn heartbeats_do_not_mix_with_other_frames() {
    let file: Vec<u8> = (0..2_000_000_u32).map(|at| (at.wrapping_mul(2_654_435_761) >> 24) as u8).collect();
    let (address, relay) = forwarding();
    let mut receiver = holder(address);
    receiver.keep_alive(Duration::ZERO).expect("a thread");
    let receiving = thread::spawn(move || {
        let mut received = Vec::new();
        receive_file(&mut receiver, &mut received, |_| ()).map(|_| received)
    });
    let mut sender = Peer::connect(address).expect("a handshake");
    sender.establish(ID).expect("a session");
    sender.keep_alive(Duration::ZERO).expect("a thread");
    let (length, patience) = (file.len() as u64, Patience::default());
    send_contents(&mut sender, &file[..], length, MESSAGE_SIZE, patience, |_| ()).expect("sent");
    sender.finish().expect("the end");
    assert!(receiving.join().expect("the receiver").expect("a file") == file, "the file has changed");
    assert!(relay.join().expect("the relay").contains(&13), "no heartbeat");
}

#[test]
fn a_heartbeat_keeps_no_connection_open() {
    let (address, relay) = scripted(|mut connection| {
        connection.shake_hands();
        assert_eq!(connection.next(), None);
    });
    let mut peer = Peer::connect(address).expect("a handshake");
    peer.keep_alive(SILENCE).expect("a thread");
    drop(peer);
    relay.join().expect("the relay");
}

/// A relay asks every 30 seconds and waits for 60.
#[test]
fn the_usual_silence_is_between_what_a_relay_asks_after_and_what_it_waits_for() {
    assert!((35..=50).contains(&SILENCE.as_secs()));
}
