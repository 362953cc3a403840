//! Floods that cost their senders no allowance, or that their senders leave behind.

use std::io::{ErrorKind, Write};
use std::net::SocketAddr;
use std::time::{Duration, Instant};

use codec::Message;
use server::{Limits, SystemClock};
use socket2::{Domain, Socket as RawSocket, Type};

use crate::clocks::Standing;
use crate::support::{Relay, Socket, LIMIT};

/// Frames of the message, as many as fit into some bytes.
fn frames_of(message: &[u8], bytes: usize) -> Vec<u8> {
    let mut frames = Vec::new();
    while frames.len() + message.len() < bytes {
        frames::append(message, &mut frames).expect("a frame");
    }
    frames
}

/// A connection with its version answered whose own kernel buffers are small, so that what it could send is with the relay.
fn small_peer(address: SocketAddr) -> Socket {
    let socket = RawSocket::new(Domain::IPV4, Type::STREAM, None).expect("a socket");
    socket.set_send_buffer_size(4_096).expect("a size");
    socket.connect(&address.into()).expect("the relay listens");
    let mut socket = Socket::over(socket.into());
    socket.receive().expect("the version");
    socket.send(Message::VersionAnswer { ok: 1 });
    socket
}

/// How many bytes the relay takes until it takes no more for a while.
fn taken(socket: &mut Socket, bytes: &[u8]) -> usize {
    socket.stream.set_write_timeout(Some(Duration::from_millis(300))).expect("a timeout");
    let mut taken = 0;
    loop {
        match socket.stream.write(&bytes[taken % bytes.len()..]) {
            Ok(count) => taken += count,
            Err(error) if matches!(error.kind(), ErrorKind::WouldBlock | ErrorKind::TimedOut) => return taken,
            Err(error) => panic!("{error}"),
        }
    }
}

#[test]
fn little_is_taken_of_what_its_partner_cannot_pay_for() {
    let clock = Standing::default();
    let relay = Relay::with_clock(clock.clone());
    let mut peer = small_peer(relay.server.addresses()[0]);
    let taken = taken(&mut peer, &frames_of(&[13], 65_536));
    // The allowance pays for 32 KiB of keepalives; the kernel's and the relay's buffers hold the rest. The bound is an estimate: the
    // kernel books 256 KiB, and what it takes grows in pieces of 64 KiB. The most seen is 455,831.
    assert!((32_000..520_000).contains(&taken), "{taken}");
}

#[test]
fn who_resets_is_ended_at_once_with_all_that_waits() {
    let clock = Standing::default();
    let relay = Relay::with_clock(clock.clone());
    let keepalives = frames_of(&[13], 65_536);
    let peers: Vec<_> = (0..8).map(|_| small_peer(relay.server.addresses()[0])).collect();
    for mut peer in peers {
        taken(&mut peer, &keepalives);
        socket2::SockRef::from(&peer.stream).set_linger(Some(Duration::ZERO)).expect("a reset instead of an end");
    }
    relay.await_line("partner 0, connection 7: closed, ");
    // All numbers are free, and two seconds pay for newcomers, though what had come would have cost minutes.
    clock.advance(2);
    let mut eight: Vec<_> = (0..8).map(|_| relay.peer(0)).collect();
    assert!(eight.iter_mut().all(|peer| peer.lease() < 1 << 26));
}

/// How many messages of this length without a session are dropped in half a second.
fn dropped(length: usize) -> u64 {
    let relay = Relay::start();
    let mut peer = relay.peer(0);
    let frames = frames_of(&[&[11], &vec![7; length - 1][..]].concat(), 131_072 + length);
    let end = Instant::now() + Duration::from_millis(500);
    peer.stream.set_write_timeout(Some(Duration::from_millis(20))).expect("a timeout");
    while Instant::now() < end {
        // Half a frame goes out where the time ends; then the relay hears nonsense, but only long after the test.
        let _ = peer.stream.write(&frames);
    }
    relay.server.statistics()[0].dropped
}

#[test]
fn the_pause_after_a_dropped_message_grows_with_its_length() {
    let (short, long) = (dropped(16), dropped(65_000));
    assert!((20..=600).contains(&short), "{short} of 16 bytes in half a second");
    assert!((2..=10).contains(&long), "{long} of 65,000 bytes in half a second");
}

/// What is read for nobody costs nobody anything either.
#[test]
fn little_is_read_of_who_has_ended() {
    let relay = Relay::with_limits(SystemClock::new(), Limits { last_words: LIMIT, ..Limits::default() });
    let mut peer = small_peer(relay.server.addresses()[0]);
    peer.send_bytes(&[0, 0]);
    relay.await_line("closed, a frame of length 0");
    peer.stream.set_write_timeout(Some(Duration::from_millis(20))).expect("a timeout");
    let (end, mut taken) = (Instant::now() + Duration::from_millis(500), 0);
    while Instant::now() < end {
        taken += peer.stream.write(&[7; 65_536]).unwrap_or_default();
    }
    // A MiB a second, and what the kernel's buffers hold.
    assert!((64_000..2_000_000).contains(&taken), "{taken}");
}
