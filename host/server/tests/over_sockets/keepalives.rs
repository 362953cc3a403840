//! Peers that are asked whether they are there, and those who don't answer.

use std::io::Write;
use std::thread;
use std::time::Duration;

use codec::{encode, Message};
use server::{JumpingClock, Limits, CONNECTIONS_EACH, PARTNERS};
use socket2::SockRef;

use crate::clocks::{Halting, Standing};
use crate::support::{Relay, Socket};

/// A peer is asked when so long nothing was sent to it ..
const ASKED: u64 = 30;
/// .. and has so long to answer.
const ANSWERED: u64 = 60;
/// Of a peer's own kernel buffers.
const SMALL: usize = 32_768;
/// The log's end of a line about one that hasn't.
const UNANSWERED: &str = "closed, the peer hasn't answered a Keepalive in time";

fn start() -> (Standing, Relay) {
    let clock = Standing::from(1_000);
    (clock.clone(), Relay::with_clock(clock))
}

/// The first peers of partner 0, whose version answers have been taken.
fn peers<const COUNT: usize>(relay: &Relay) -> [Socket; COUNT] {
    let peers = std::array::from_fn(|_| relay.peer(0));
    relay.await_done(0, 2 * COUNT as u64);
    peers
}

fn peer(relay: &Relay) -> Socket {
    let [peer] = peers(relay);
    peer
}

#[track_caller]
fn assert_asked(peer: &mut Socket) {
    assert_eq!(peer.receive(), encode(&Message::Keepalive));
}

/// Sends something of partner 0, and waits until it is accepted.
fn answer(relay: &Relay, peer: &mut Socket, message: Message) {
    let done = relay.server.statistics()[0].done;
    peer.send(message);
    relay.await_done(0, done + 1);
}

#[test]
fn a_silent_peer_is_asked_after_half_a_minute_and_closed_after_a_minute_more() {
    let (clock, relay) = start();
    let mut silent = peer(&relay);
    clock.pass(ASKED - 1);
    assert!(silent.is_quiet(), "it is too early to ask");
    clock.pass(1);
    assert_asked(&mut silent);
    clock.pass(ANSWERED - 1);
    assert!(silent.is_quiet(), "it is asked once, and has a second left");
    clock.pass(1);
    assert_eq!(silent.receive(), None);
    relay.await_line(&format!("partner 0, connection 0: {UNANSWERED}"));
    let (statistics, log) = relay.stop();
    assert_eq!(statistics[0].done, 3, "its open, its version answer and its close");
    assert!(!log.iter().any(|line| line.contains("refused")), "the engine has closed it, and isn't asked to: {log:?}");
}

#[test]
fn a_peer_that_answers_stays_whatever_it_answers_with() {
    let (clock, relay) = start();
    let mut peer = peer(&relay);
    let answers =
        [Message::EstablishRequest { id: 5 }, Message::LeaseRequest, Message::ExtensionRequest { cookie: &[0; 24] }];
    for message in answers {
        clock.pass(ASKED);
        assert_asked(&mut peer);
        clock.pass(ANSWERED - 1);
        answer(&relay, &mut peer, message);
        peer.receive().expect("what it asked for");
        clock.pass(1);
    }
    clock.pass(ASKED - 1);
    assert_asked(&mut peer);
    clock.pass(ANSWERED - 1);
    answer(&relay, &mut peer, Message::Keepalive);
    // To this nothing is sent, so by now it is asked again.
    clock.pass(ANSWERED - 1);
    assert_asked(&mut peer);
    assert!(peer.is_quiet());
}

#[test]
fn one_that_is_sent_something_is_asked_later_and_then_has_no_more_time() {
    let (clock, relay) = start();
    let [mut caller, mut silent] = peers(&relay);
    caller.establish(&mut silent);
    let mut send = |silent: &mut Socket| {
        // It is the caller's answer too.
        answer(&relay, &mut caller, Message::DataSend { data: b"data" });
        assert_eq!(silent.receive(), encode(&Message::DataReceive { data: b"data" }));
    };
    clock.pass(ASKED - 1);
    send(&mut silent);
    clock.pass(ASKED - 1);
    assert!(silent.is_quiet(), "data is a message that was sent to it");
    clock.pass(1);
    assert_asked(&mut silent);
    for _ in 0..3 {
        clock.pass(ANSWERED / 3 - 1);
        send(&mut silent);
    }
    clock.pass(2);
    assert!(silent.is_quiet());
    clock.pass(1);
    assert_eq!(silent.receive(), None, "data to it is no answer of its own");
}

/// The next message that is no Keepalive.
fn told(peer: &mut Socket) -> Option<Vec<u8>> {
    std::iter::repeat_with(|| peer.receive()).find(|message| *message != encode(&Message::Keepalive)).flatten()
}

#[test]
fn the_other_side_of_a_session_is_told() {
    let (clock, relay) = start();
    let [mut caller, mut silent] = peers(&relay);
    caller.establish(&mut silent);
    for _ in 0..(ASKED + ANSWERED) / ASKED {
        clock.pass(ASKED);
        answer(&relay, &mut caller, Message::Keepalive);
    }
    assert_eq!(told(&mut caller), encode(&Message::SessionEndNotification));
    relay.await_line(&format!("partner 0, connection 1: {UNANSWERED}"));
    // It can have another session.
    let mut other = relay.peer(0);
    caller.establish(&mut other);
    caller.send(Message::DataSend { data: b"data" });
    assert_eq!(other.receive(), encode(&Message::DataReceive { data: b"data" }));
}

#[test]
fn the_numbers_of_silent_peers_are_free_again() {
    let (clock, relay) = start();
    let mut silent: [Socket; CONNECTIONS_EACH] = peers(&relay);
    clock.pass(ASKED);
    clock.pass(ANSWERED);
    assert!(silent.iter_mut().all(Socket::is_closed));
    // None of these is refused, though the silent ones' sockets are still there.
    let mut others: Vec<_> = (0..CONNECTIONS_EACH).map(|_| relay.peer(0)).collect();
    assert!(others.iter_mut().all(|peer| peer.lease() < 1 << 26));
    assert!(!relay.has_line("a connection is refused"));
}

#[test]
fn the_lease_of_a_silent_peer_can_be_renewed() {
    let (clock, relay) = start();
    let mut silent = peer(&relay);
    let (id, cookie) = silent.lease_by(Message::LeaseRequest);
    let again = || relay.peer(0).lease_by(Message::LeaseRequestWithCookie { cookie: &cookie }).0;
    clock.pass(ASKED);
    clock.pass(ANSWERED - 1);
    assert_ne!(again(), id, "its holder counts as there");
    clock.pass(1);
    assert_eq!(again(), id);
}

#[test]
fn who_has_not_answered_the_version_is_asked_too() {
    let (clock, relay) = start();
    let [mut silent, mut late] = std::array::from_fn(|_| relay.socket(0));
    for socket in [&mut silent, &mut late] {
        assert_eq!(socket.receive(), encode(&Message::ProtocolVersion { major: 1, minor: 0 }));
    }
    clock.pass(ASKED);
    [&mut silent, &mut late].into_iter().for_each(assert_asked);
    answer(&relay, &mut late, Message::VersionAnswer { ok: 1 });
    clock.pass(ANSWERED);
    assert_eq!(silent.receive(), None);
    relay.await_line(&format!("partner 0, connection 0: {UNANSWERED}"));
    assert_asked(&mut late);
    assert!(late.lease() < 1 << 26, "a version answer is an answer");
}

/// A message that the engine drops isn't accepted.
#[test]
fn a_dropped_message_is_no_answer() {
    let (clock, relay) = start();
    let mut peer = peer(&relay);
    clock.pass(ASKED);
    assert_asked(&mut peer);
    peer.send(Message::DataSend { data: b"to nobody" });
    relay.await_line("connection 0: refused with 8");
    clock.pass(ANSWERED);
    assert_eq!(peer.receive(), None);
}

#[test]
fn an_answer_that_waits_for_allowance_is_one() {
    let (clock, relay) = start();
    let [mut flood, mut waiting] = peers(&relay);
    clock.pass(ASKED);
    [&mut flood, &mut waiting].into_iter().for_each(assert_asked);
    flood.send_bytes(&[0, 2, 1, 13].repeat(262_144 / 33 + 1));
    relay.await_waits(0, 1);
    waiting.send(Message::Keepalive);
    // At the first turn of the new time it still waits.
    clock.pass(ANSWERED);
    [&mut flood, &mut waiting].into_iter().for_each(assert_asked);
    assert!(waiting.lease() < 1 << 26);
    assert!(!relay.has_line("closed"));
}

/// Sends this frame until the relay has accepted no more of it for a while, since its receiver reads nothing. Gives how many
/// bytes were sent.
fn fill(clock: &Standing, relay: &Relay, caller: &mut Socket, frame: &[u8]) -> usize {
    caller.stream.set_nonblocking(true).expect("a mode");
    let accepted = || relay.server.statistics()[0].bytes;
    let (mut sent, mut quiet) = (0, 0);
    while quiet < 30 {
        let before = (sent, accepted());
        sent += caller.stream.write(&frame[sent % frame.len()..]).unwrap_or(0);
        // The relay has turns enough to accept a frame, and two seconds pay for it.
        clock.pass(if quiet == 0 { 2 } else { 0 });
        quiet = if before == (sent, accepted()) { quiet + 1 } else { 0 };
        thread::sleep(Duration::from_millis(if quiet == 0 { 0 } else { 10 }));
    }
    caller.stream.set_nonblocking(false).expect("a mode");
    sent
}

/// Neither the one that reads slowly, before it could have read a Keepalive, nor its sender, whose messages wait.
#[test]
fn who_is_held_up_by_the_relay_is_not_judged() {
    let (clock, relay) = start();
    let [mut caller, mut slow] = peers(&relay);
    // So that what is on its way is with the relay.
    SockRef::from(&caller.stream).set_send_buffer_size(SMALL).expect("a size");
    SockRef::from(&slow.stream).set_recv_buffer_size(SMALL).expect("a size");
    caller.establish(&mut slow);
    let (mut frame, data) = (Vec::new(), Message::DataReceive { data: &[7; 65_000] });
    frames::append(&[&[11], &[7; 65_000][..]].concat(), &mut frame).expect("a frame");
    let sent = fill(&clock, &relay, &mut caller, &frame);
    clock.pass(ASKED);
    clock.pass(ANSWERED);
    clock.pass(ANSWERED);
    for _ in 0..sent / frame.len() {
        assert!(told(&mut slow) == encode(&data), "other bytes");
        // What has waited is paid for now.
        clock.advance(2);
    }
    // The rest of the frame that was cut.
    caller.send_bytes(&frame[sent % frame.len()..]);
    assert!(told(&mut slow) == encode(&data), "other bytes");
    caller.send(Message::SessionEnd);
    assert_eq!(told(&mut slow), encode(&Message::SessionEndNotification));
}

/// The relay is stopped for a while, say, or the machine has no time for it.
#[test]
fn an_answer_that_came_while_the_relay_stood_still_is_one() {
    let halting = Halting::default();
    let (clock, relay) = (halting.clock.clone(), Relay::with_clock(halting.clone()));
    let mut peer = peer(&relay);
    clock.pass(ASKED);
    assert_asked(&mut peer);
    let mut other = Socket::over(peer.stream.try_clone().expect("a second handle"));
    let late = clock.clone();
    halting.halt(move || {
        other.send(Message::Keepalive);
        late.advance(ANSWERED);
    });
    // It is asked again, half a minute being over, and isn't closed.
    assert_asked(&mut peer);
    assert!(peer.lease() < 1 << 26);
}

/// Stopped after it has read its clock, the relay writes a Keepalive whose time is that of before.
#[test]
fn who_is_asked_by_a_relay_that_stood_still_has_time_to_answer() {
    let standstill = Duration::from_millis(500);
    let halting = Halting::default();
    let clock = halting.clock.clone();
    let relay = Relay::with_limits(halting.clone(), Limits { standstill, ..Limits::default() });
    let mut peer = peer(&relay);
    let late = clock.clone();
    halting.halt_at(ASKED, move || {
        thread::sleep(2 * standstill);
        late.advance(ANSWERED);
    });
    clock.advance(ASKED);
    assert_asked(&mut peer);
    peer.send(Message::Keepalive);
    // It is asked again, half a minute being over, and isn't closed.
    assert_asked(&mut peer);
    assert!(peer.lease() < 1 << 26);
}

#[test]
fn every_connection_of_every_partner_is_asked() {
    let (clock, relay) = start();
    let partners = (0..PARTNERS).flat_map(|partner| [partner; CONNECTIONS_EACH]);
    let mut peers: Vec<_> = partners.map(|partner| relay.peer(partner)).collect();
    (0..PARTNERS).for_each(|partner| relay.await_done(partner, 2 * CONNECTIONS_EACH as u64));
    clock.pass(ASKED);
    peers.iter_mut().for_each(assert_asked);
    clock.pass(ANSWERED);
    assert!(peers.iter_mut().all(Socket::is_closed));
}

/// It is for measuring: hours pass by it in a moment, in which nobody could have answered.
#[test]
fn by_a_clock_that_jumps_with_each_call_nobody_is_asked() {
    let relay = Relay::with_clock(JumpingClock::default());
    let [mut busy, mut silent] = peers(&relay);
    (0..100).for_each(|_| answer(&relay, &mut busy, Message::LeaseRequest));
    thread::sleep(Duration::from_millis(50));
    assert!(silent.is_quiet());
    assert!(silent.lease() < 1 << 26);
}
