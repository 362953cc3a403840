//! The relay over real sockets: what peers do well, badly and not at all.

use std::net::Shutdown;
use std::time::Duration;

use codec::{encode, Message};
use frames::MESSAGE_LIMIT;

use crate::support::{Relay, LIMIT};

#[test]
fn data_goes_to_the_peer_in_session_and_the_end_is_told() {
    let relay = Relay::start();
    let (mut caller, mut holder) = (relay.peer(2), relay.peer(2));
    caller.establish(&mut holder);
    caller.send(Message::DataSend { data: b"one" });
    caller.send(Message::DataSend { data: b"" });
    holder.send(Message::DataSend { data: b"two" });
    assert_eq!(holder.receive(), encode(&Message::DataReceive { data: b"one" }));
    assert_eq!(holder.receive(), encode(&Message::DataReceive { data: b"" }));
    assert_eq!(caller.receive(), encode(&Message::DataReceive { data: b"two" }));
    caller.send(Message::SessionEnd);
    assert_eq!(holder.receive(), encode(&Message::SessionEndNotification));
    let (got, log) = relay.stop();
    // Two opens, two version answers, lease, establish, three sends and the end; then both connections are closed.
    assert_eq!((got[2].done, got[2].waited), (12, 0));
    assert_eq!(got[2].bytes, 2 * 2 + 2 + 5 + (4 + 1 + 4) + 1);
    assert_eq!(got[3], Default::default());
    assert!(log.contains(&"partner 2, connection 16: closed, the relay ends".to_owned()), "{log:?}");
}

#[test]
fn a_frame_of_the_largest_size_goes_through() {
    let relay = Relay::start();
    let (mut caller, mut holder) = (relay.peer(7), relay.peer(7));
    caller.establish(&mut holder);
    let data: Vec<u8> = (0..MESSAGE_LIMIT - 1).map(|at| (at % 251) as u8).collect();
    caller.send(Message::DataSend { data: &data });
    assert_eq!(holder.receive(), encode(&Message::DataReceive { data: &data }));
}

#[test]
fn a_frame_cut_in_pieces_is_a_message_when_it_is_whole() {
    let relay = Relay::start();
    let mut peer = relay.peer(0);
    for byte in [0, 3, 1, 2] {
        peer.send_bytes(&[byte]);
        std::thread::sleep(Duration::from_millis(20));
    }
    peer.stream.set_read_timeout(Some(Duration::from_millis(50))).expect("a timeout");
    assert!(!peer.is_closed(), "half a frame is no reason to close");
    peer.stream.set_read_timeout(Some(LIMIT)).expect("a timeout");
    peer.send_bytes(&[0]);
    let answer = peer.receive().expect("an answer");
    assert!(matches!(codec::decode(&answer), Some(Message::LeaseGranted { .. })));
}

#[test]
fn garbage_closes_its_connection_and_no_other() {
    let relay = Relay::start();
    let mut neighbour = relay.peer(1);
    let garbage: [(&[u8], &str); 7] = [
        (&[0, 0], "a frame of length 0"),
        (&[0, 2, 2, 13], "a frame of type 2"),
        (b"GET / HTTP/1.1\r\n\r\n", "a frame of type 84"),
        (&[255; 5000], "a frame of type 255"),
        (&[0, 1, 1], "refused with 6"),
        (&[0, 3, 1, 99, 99], "refused with 6"),
        (&[0, 3, 1, 1, 1], "refused with 7"),
    ];
    for (bytes, reason) in garbage {
        let mut peer = relay.peer(1);
        peer.send_bytes(bytes);
        assert!(peer.is_closed(), "{reason}");
        relay.await_line(reason);
    }
    assert!(neighbour.lease() < 1 << 26);
}

#[test]
fn garbage_is_told_by_the_byte_that_shows_it() {
    let relay = Relay::start();
    let garbage: [(&[u8], &str); 3] = [
        (&[0, 0], "closed, a frame of length 0"),
        (&[0, 2, 0], "closed, a frame of type 0, not 1"),
        (&[0, 2, 1, 13, 255, 255, 9], "closed, a frame of type 9, not 1"),
    ];
    for (number, (bytes, reason)) in garbage.into_iter().enumerate() {
        let mut peer = relay.peer(number);
        for byte in bytes {
            peer.send_bytes(&[*byte]);
            std::thread::sleep(Duration::from_millis(20));
        }
        assert!(peer.is_closed(), "{reason}");
        relay.await_line(&format!("partner {number}, connection {}: {reason}", 8 * number));
    }
}

#[test]
fn a_stream_that_ends_within_a_frame_is_told() {
    let relay = Relay::start();
    for (number, bytes) in [&[0][..], &[0, 3], &[0, 3, 1], &[0, 3, 1, 2]].into_iter().enumerate() {
        let mut peer = relay.peer(number);
        peer.send_bytes(bytes);
        peer.stream.shutdown(Shutdown::Write).expect("an end");
        assert!(peer.is_closed());
        let place = format!("partner {number}, connection {}", 8 * number);
        relay.await_line(&format!("{place}: closed, the stream ended within a frame"));
    }
}

#[test]
fn a_peer_that_does_not_accept_the_version_is_closed() {
    let relay = Relay::start();
    let mut peer = relay.socket(4);
    peer.receive().expect("the version");
    peer.send(Message::VersionAnswer { ok: 0 });
    assert!(peer.is_closed());
    relay.await_line("doesn't accept the relay's version");
    assert!(!relay.has_line("wrong state"), "the engine had closed it already");
}

#[test]
fn a_message_without_a_session_is_dropped_and_the_connection_goes_on() {
    let relay = Relay::start();
    let mut peer = relay.peer(6);
    peer.send(Message::DataSend { data: b"to nobody" });
    peer.send(Message::SessionEnd);
    assert!(peer.lease() < 1 << 26);
    let (got, log) = relay.stop();
    assert_eq!(got[6].dropped, 2);
    let refused = "partner 6, connection 48: refused with 8, there is no session: the message is dropped";
    assert_eq!(log.iter().filter(|line| *line == refused).count(), 2, "{log:?}");
}

/// What the relay tells both of a new session.
fn session_told(relay: &Relay) -> [Vec<u8>; 2] {
    let (mut caller, mut holder) = (relay.peer(0), relay.peer(0));
    let id = holder.lease();
    caller.send(Message::EstablishRequest { id });
    // Without the id, and the type and status before it.
    let (answer, told) = (caller.receive().expect("an answer"), holder.receive().expect("a notification"));
    [answer[6..].to_vec(), told[1..].to_vec()]
}

#[test]
fn every_session_has_random_bytes_of_its_own() {
    let relay = Relay::start();
    let (first, second) = (session_told(&relay), session_told(&relay));
    for (first, second) in first.iter().zip(&second) {
        let same = first.iter().zip(second).filter(|(first, second)| first == second).count();
        assert!(first.len() >= 48 && same < 8, "{same} of {} bytes are the same: {first:?}, {second:?}", first.len());
    }
}
