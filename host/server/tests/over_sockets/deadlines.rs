//! Peers that say nothing, or stop within a frame.

use std::io::Write;
use std::thread;
use std::time::{Duration, Instant};

use codec::Message;
use server::{Limits, SystemClock};

use crate::clocks::Standing;
use crate::support::{Relay, Socket};

const SHORT: Duration = Duration::from_millis(600);

/// A relay whose deadlines for a version answer and a frame are short.
fn impatient() -> Relay {
    Relay::with_limits(SystemClock::new(), Limits { version: SHORT, frame: SHORT, ..Limits::default() })
}

/// Sends a byte now and then, and gives when the relay has closed its side.
fn trickle(mut socket: Socket, bytes: &[u8]) -> Duration {
    let start = Instant::now();
    socket.stream.set_read_timeout(Some(SHORT / 8)).expect("a timeout");
    for byte in bytes {
        let _ = socket.stream.write_all(&[*byte]);
        if socket.is_closed() {
            break;
        }
    }
    start.elapsed()
}

#[test]
fn who_does_not_answer_the_version_is_closed() {
    let relay = impatient();
    let start = Instant::now();
    assert!(relay.socket(0).is_closed());
    assert!(start.elapsed() >= SHORT, "closed too early");
    relay.await_line("partner 0, connection 0: closed, the peer hasn't answered the relay's version in time");
    // Half of an answer is none.
    let mut half = relay.socket(0);
    half.send_bytes(&[0, 3, 1]);
    assert!(half.is_closed());
    // Who has answered may be silent as long as it likes.
    let mut peer = relay.peer(0);
    thread::sleep(2 * SHORT);
    assert!(peer.lease() < 1 << 26);
}

#[test]
fn who_begins_a_frame_has_to_end_it() {
    let relay = impatient();
    let time = trickle(relay.peer(0), &[&[3, 232, 1, 11][..], &[7; 60]].concat());
    assert!(time >= SHORT && time < 4 * SHORT, "a byte now and then doesn't move the deadline: {time:?}");
    relay.await_line("partner 0, connection 0: closed, the peer has left a frame unfinished for too long");
    // A frame that comes slowly, but in time.
    let mut slow = relay.peer(0);
    for _ in 0..3 {
        for byte in [0, 2, 1, 13] {
            slow.send_bytes(&[byte]);
            thread::sleep(SHORT / 8);
        }
    }
    slow.send(Message::Keepalive);
    assert!(slow.lease() < 1 << 26);
}

#[test]
fn an_answer_that_came_in_time_may_wait_for_its_turn() {
    let clock = Standing::default();
    let limits = Limits { version: 2 * SHORT, frame: SHORT, ..Limits::default() };
    let relay = Relay::with_limits(clock.clone(), limits);
    let (mut flood, mut waiting) = (relay.peer(0), relay.socket(0));
    waiting.receive().expect("the version");
    let mut keepalives = Vec::new();
    (0..262_144 / 33 + 1).for_each(|_| frames::append(&[13], &mut keepalives).expect("a frame"));
    flood.send_bytes(&keepalives);
    relay.await_waits(0, 1);
    waiting.send(Message::VersionAnswer { ok: 1 });
    thread::sleep(4 * SHORT);
    clock.advance(4);
    assert!(waiting.lease() < 1 << 26, "it isn't taken for silent while it waits for allowance");
}

#[test]
fn each_frame_has_a_time_of_its_own() {
    let relay = impatient();
    let mut peer = relay.peer(0);
    // Each piece ends a frame and begins the next, so that one is always unfinished.
    peer.send_bytes(&[0, 2]);
    for _ in 0..12 {
        thread::sleep(SHORT / 4);
        peer.send_bytes(&[1, 13, 0, 2]);
    }
    peer.send_bytes(&[1, 13]);
    assert!(peer.lease() < 1 << 26);
}

#[test]
fn a_session_end_leaves_no_deadline_behind() {
    let relay = impatient();
    let mut peer = relay.peer(0);
    // Its SessionEnd takes most of a frame's time, and the next frame another.
    for piece in [&[0, 2][..], &[1, 9, 0, 2], &[1, 13]] {
        peer.send_bytes(piece);
        thread::sleep(SHORT * 3 / 4);
    }
    assert!(peer.lease() < 1 << 26);
}
