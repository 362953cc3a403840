//! Connecting, leasing and establishing, with a relay that does as it should and one that doesn't.

use std::net::{SocketAddr, TcpListener};
use std::sync::mpsc;
use std::thread::{self, JoinHandle};
use std::time::{Duration, Instant};

use codec::{Message, DATA_LIMIT};
use peer::{confirm, Error, Lease, Peer};

use crate::support::{assert_words, fingerprint, scripted, Connection, COOKIE, ID, LATER, SESSION, VERSION};

/// The error of connecting to a relay that does this with the connection.
#[track_caller]
fn connect_error(script: impl FnOnce(Connection) + Send + 'static) -> Error {
    let (address, relay) = scripted(script);
    let error = Peer::connect(address).err().expect("no handshake");
    relay.join().expect("the relay");
    error
}

/// What leasing gives at a relay that does this after the handshake.
fn lease(script: impl FnOnce(Connection) + Send + 'static) -> Result<u32, Error> {
    let (address, relay) = scripted(|mut connection| {
        connection.shake_hands();
        connection.expect(Message::LeaseRequest);
        script(connection);
    });
    let outcome = Peer::connect(address).expect("a handshake").lease();
    relay.join().expect("the relay");
    outcome
}

#[test]
fn nothing_listens() {
    let address = TcpListener::bind("127.0.0.1:0").and_then(|listener| listener.local_addr()).expect("a free port");
    assert_words(Peer::connect(address).err().expect("no connection"), &["nothing listens"]);
}

#[test]
fn each_address_of_a_name_is_tried() {
    let nobody = TcpListener::bind("127.0.0.1:0").and_then(|listener| listener.local_addr()).expect("a free port");
    let (address, relay) = scripted(|mut connection| connection.shake_hands());
    Peer::connect(&[nobody, address][..]).expect("a handshake");
    relay.join().expect("the relay");
    let (address, relay) = scripted(|mut connection| connection.shake_hands());
    Peer::connect(("localhost", address.port())).expect("a handshake");
    relay.join().expect("the relay");
    // Longer than a name can be.
    let nowhere = Peer::connect(("x".repeat(300).as_str(), 1));
    assert_words(nowhere.err().expect("no name"), &["there is no connection", "lookup"]);
}

#[test]
fn closed_before_the_version() {
    let words = ["before its version message", "all eight connections", "allowance"];
    assert_words(connect_error(drop), &words);
    assert_words(connect_error(|mut connection| connection.send_raw(&[0, 9, 1])), &words);
}

#[test]
fn an_unknown_version_is_answered_with_no() {
    let error = connect_error(|mut connection| {
        connection.send(Message::ProtocolVersion { major: 1, minor: 1 });
        connection.expect(Message::VersionAnswer { ok: 0 });
        assert_eq!(connection.next(), None);
    });
    assert_words(error, &["version 1.1"]);
}

#[test]
fn another_first_message() {
    assert_words(
        connect_error(|mut connection| connection.send(Message::SessionEndNotification)),
        &["perhaps it is no relay"],
    );
}

#[test]
fn malformed_bytes() {
    let cases = [
        (&b"HTTP/1.1"[..], "type 84"),
        (b"SSH-2.0-", "type 72"),
        (&[0, 0], "length 0"),
        (&[0, 1, 1], "empty"),
        (&[0, 3, 1, 3, 2], "type 3, 2 bytes"),
    ];
    for (bytes, words) in cases {
        let error = connect_error(move |mut connection| connection.send_raw(bytes));
        assert_words(error, &["malformed", words, "perhaps it is no relay"]);
    }
}

#[test]
fn no_version_in_time() {
    for bytes in [&[][..], &[0, 9, 1]] {
        let (address, relay) = scripted(move |mut connection| {
            connection.send_raw(bytes);
            connection.drain();
        });
        let error = Peer::connect_within(Duration::from_millis(500), address).err().expect("no handshake");
        assert_words(error, &["has come in 0.5 s", "perhaps it is no relay"]);
        relay.join().expect("the relay");
    }
}

#[test]
fn a_lease_and_a_refused_one() {
    let granted = Message::LeaseGranted { id: ID, cookie: &COOKIE, expiration: LATER };
    assert_eq!(lease(move |mut connection| connection.send(granted)).expect("a lease"), ID);
    let refused = lease(|mut connection| connection.send(Message::LeaseRefused));
    assert_words(refused.expect_err("no lease"), &["granted no id", "sixteen leases"]);
    assert_words(lease(drop).expect_err("no lease"), &["closed the connection"]);
}

/// What leasing with a cookie gives at a relay that grants a lease with this one.
fn lease_with_cookie(granted: [u8; 24]) -> Lease {
    let (address, relay) = scripted(move |mut connection| {
        connection.shake_hands();
        connection.expect(Message::LeaseRequestWithCookie { cookie: &COOKIE });
        connection.send(Message::LeaseGranted { id: ID, cookie: &granted, expiration: LATER });
        connection.send(Message::EstablishNotification { session: SESSION });
    });
    let mut peer = Peer::connect(address).expect("a handshake");
    let lease = peer.lease_again(Some(&COOKIE)).expect("a lease");
    peer.await_session(|_| panic!("no new id")).expect("a session");
    relay.join().expect("the relay");
    lease
}

#[test]
fn a_lease_with_a_cookie_is_renewed_or_another() {
    let renewed = lease_with_cookie(COOKIE);
    assert_eq!(renewed, Lease { id: ID, cookie: COOKIE, expiration: LATER });
    assert!(renewed.renews(Some(&COOKIE)) && !renewed.renews(None));
    let other = lease_with_cookie([8; 24]);
    assert_eq!(other.cookie, [8; 24]);
    assert!(!other.renews(Some(&COOKIE)));
}

#[test]
fn an_unexpected_message_is_ignored_and_a_keepalive_answered() {
    let id = lease(|mut connection| {
        connection.send(Message::DataReceive { data: b"stray" });
        connection.send(VERSION);
        connection.send(Message::Keepalive);
        connection.expect(Message::Keepalive);
        connection.send(Message::LeaseGranted { id: 5, cookie: &COOKIE, expiration: LATER });
    });
    assert_eq!(id.expect("a lease"), 5);
}

#[test]
fn a_keepalive_is_answered_however_long_nothing_has_come() {
    let wait = Duration::from_millis(100);
    let (address, relay) = scripted(move |mut connection| {
        connection.shake_hands();
        thread::sleep(3 * wait);
        connection.send(Message::Keepalive);
        connection.expect(Message::Keepalive);
        connection.send(Message::EstablishNotification { session: SESSION });
    });
    let mut peer = Peer::connect(address).expect("a handshake");
    peer.set_answer_wait(wait);
    peer.await_session(|_| panic!("no new id")).expect("a session");
    relay.join().expect("the relay");
}

#[test]
fn each_establish_status_in_words() {
    let words = ["no id 12345678", "offline", "another session", "a session already", "this peer's own"];
    for (status, words) in (1..).zip(words) {
        let (address, relay) = scripted(move |mut connection| {
            connection.shake_hands();
            connection.expect(Message::EstablishRequest { id: ID });
            // Another id's answer isn't this one's.
            connection.send(Message::Established { id: ID + 1, session: SESSION });
            connection.send(Message::EstablishRefused { id: ID, status });
        });
        let error = Peer::connect(address).expect("a handshake").establish(ID).expect_err("no session");
        assert_words(error, &[words]);
        relay.join().expect("the relay");
    }
}

#[test]
fn a_deadline_loses_no_byte() {
    let (address, relay) = scripted(|mut connection| {
        connection.shake_hands();
        connection.send_raw(&[0, 2]);
        connection.expect(Message::SessionEnd);
        connection.send_raw(&[1, 10]);
    });
    let mut peer = Peer::connect(address).expect("a handshake");
    assert_eq!(peer.receive_by(Instant::now() + Duration::from_millis(50)).expect("a connection"), None);
    peer.end_session().expect("a connection");
    assert_eq!(peer.receive().expect("a message"), Message::SessionEndNotification);
    peer.finish().expect("the end");
    relay.join().expect("the relay");
}

/// A relay that says this, time and again, until the peer has gone.
fn endless(message: Message<'static>) -> (SocketAddr, JoinHandle<()>) {
    scripted(move |mut connection| {
        connection.shake_hands();
        while connection.try_send(message) {
            thread::sleep(Duration::from_millis(10));
        }
    })
}

/// The relay's side stays open.
#[test]
fn the_end_of_a_connection_is_awaited_for_a_time_only() {
    for message in [Message::Keepalive, VERSION] {
        let (address, relay) = endless(message);
        let mut peer = Peer::connect(address).expect("a handshake");
        peer.set_answer_wait(Duration::from_millis(300));
        let start = Instant::now();
        assert_words(peer.finish().expect_err("no end"), &["hasn't answered in time"]);
        assert!(start.elapsed() < Duration::from_secs(5), "{:?}", start.elapsed());
        relay.join().expect("the relay");
    }
}

#[test]
fn a_keepalive_does_no_harm_at_the_end_of_a_connection() {
    let (address, relay) = scripted(|mut connection| {
        connection.shake_hands();
        connection.send(Message::Keepalive);
        assert_eq!(connection.next(), None);
        connection.send(Message::Keepalive);
    });
    Peer::connect(address).expect("a handshake").finish().expect("the end");
    relay.join().expect("the relay");
}

/// What was sent last may be lost then.
#[test]
fn a_relay_that_leaves_bytes_unread_ends_no_connection_in_order() {
    let (address, relay) = scripted(|mut connection| {
        connection.shake_hands();
        connection.send(Message::SessionEndNotification);
        connection.await_bytes();
    });
    let mut peer = Peer::connect(address).expect("a handshake");
    // The relay has read all that has come by then.
    assert_eq!(peer.receive().expect("a message"), Message::SessionEndNotification);
    peer.end_session().expect("a connection");
    assert!(matches!(peer.finish(), Err(Error::ClosedMidway)));
    relay.join().expect("the relay");
}

/// What it would have handed on last may be lost then too.
#[test]
fn a_relay_that_stops_within_a_frame_ends_no_connection_in_order() {
    for part in [&[0][..], &[0, 2], &[0, 2, 1], &[0, 3, 1, 13]] {
        let (address, relay) = scripted(move |mut connection| {
            connection.shake_hands();
            assert_eq!(connection.next(), None);
            connection.send_raw(part);
        });
        let finished = Peer::connect(address).expect("a handshake").finish();
        assert!(matches!(finished, Err(Error::ClosedMidway)), "{part:?}: {finished:?}");
        relay.join().expect("the relay");
    }
}

/// What the peer sends fills the buffers, since the relay reads none of it.
#[test]
fn a_relay_that_takes_nothing_is_waited_for_for_a_time_only() {
    let (done, wait) = mpsc::channel::<()>();
    let (address, relay) = scripted(move |mut connection| {
        connection.shake_hands();
        let _ = wait.recv();
    });
    let mut peer = Peer::connect(address).expect("a handshake");
    peer.set_answer_wait(Duration::from_millis(300));
    for length in [DATA_LIMIT, 1] {
        let data = vec![1; length];
        let error = (0..100_000).find_map(|_| peer.send(&Message::DataSend { data: &data }).err());
        assert_words(error.expect("full buffers"), &["hasn't answered in time"]);
    }
    let start = Instant::now();
    assert_words(confirm(&mut peer, &fingerprint(b"abc")).expect_err("not taken"), &["hasn't answered in time"]);
    assert!(start.elapsed() < Duration::from_secs(5), "{:?}", start.elapsed());
    drop(done);
    relay.join().expect("the relay");
}

/// The session never ends, and what comes is nothing that the receiver waits for.
#[test]
fn the_end_of_a_session_is_awaited_for_a_time_only() {
    let (address, relay) = endless(Message::Keepalive);
    let mut peer = Peer::connect(address).expect("a handshake");
    peer.set_answer_wait(Duration::from_millis(300));
    let start = Instant::now();
    confirm(&mut peer, &fingerprint(b"abc")).expect("the file is there");
    assert!((300..5_000).contains(&start.elapsed().as_millis()), "{:?}", start.elapsed());
    drop(peer);
    relay.join().expect("the relay");
}
