//! A peer that reads nothing, or next to nothing: its senders wait, others don't, and the relay's memory stays bounded.

use std::io::{Read, Write};
use std::net::{Shutdown, TcpStream};
use std::thread;
use std::time::{Duration, Instant};

use codec::{encode, Message};
use server::{JumpingClock, LeaseTerm, Limits};
use socket2::SockRef;

use crate::clocks::Standing;
use crate::support::{assert_stops, Relay, Socket};

/// More bytes than the relay and the kernel hold for a peer that reads nothing.
pub const MOST: usize = 1 << 24;
/// What the buffers of the kernel and of the relay hold together, on either side of it: 128 KiB of each socket, an input
/// of 128 KiB, an output of 96 KiB and a message. The kernel counts more than the bytes.
pub const BUFFERS: usize = 1 << 20;

/// What may come between the test and the relay.
const SLACK: Duration = Duration::from_millis(1_500);
/// Of a peer's own kernel buffers.
pub const SMALL: usize = 32_768;

/// A session of partner 0 of two, the first and the second connection, whose own kernel buffers are small, so that what is on its way is with the relay.
pub fn session(relay: &Relay) -> (Socket, Socket) {
    let (mut caller, mut holder) = (relay.peer(0), relay.peer(0));
    SockRef::from(&caller.stream).set_send_buffer_size(SMALL).expect("a size");
    SockRef::from(&holder.stream).set_recv_buffer_size(SMALL).expect("a size");
    caller.establish(&mut holder);
    (caller, holder)
}

/// The frame of a send of the largest size.
pub fn longest_send() -> Vec<u8> {
    let mut frame = Vec::new();
    frames::append(&[&[11], &[7; 65_533][..]].concat(), &mut frame).expect("a frame");
    frame
}

/// Bytes of the messages that make a session: two version answers, a lease request and one to establish.
pub const NO_DATA: u64 = 2 * 2 + 2 + 5;

/// Bytes of the frames of so many bytes of the longest sends, which have a header each.
fn framed(bytes: u64) -> u64 {
    bytes + 3 * bytes.div_ceil(65_534)
}

/// Sends the frame over and over until nothing is taken for a while. Gives how many bytes were.
pub fn fill(socket: &mut Socket, frame: &[u8]) -> usize {
    socket.stream.set_write_timeout(Some(Duration::from_millis(300))).expect("a timeout");
    let mut taken = 0;
    while taken < MOST {
        match socket.stream.write(&frame[taken % frame.len()..]) {
            Ok(count) => taken += count,
            Err(_) => break,
        }
    }
    taken
}

#[test]
fn the_sender_to_a_slow_reader_waits_and_nothing_is_lost() {
    let relay = Relay::with_clock(JumpingClock::default());
    let (mut caller, mut holder) = session(&relay);
    let frame = longest_send();
    let taken = fill(&mut caller, &frame);
    assert!((300_000..BUFFERS).contains(&taken), "the relay takes {taken} bytes for a peer that reads nothing");
    // Others of the same partner go on.
    assert!(relay.peer(0).lease() < 1 << 26);
    for _ in 0..taken / frame.len() {
        assert_eq!(holder.receive(), encode(&Message::DataReceive { data: &[7; 65_533] }));
    }
    // The rest of the frame that was cut.
    caller.send_bytes(&frame[taken % frame.len()..]);
    assert_eq!(holder.receive(), encode(&Message::DataReceive { data: &[7; 65_533] }));
}

/// The time that it had for what waited is over with it.
#[test]
fn who_has_read_all_that_waited_is_not_given_up_later() {
    let patience = Duration::from_secs(2);
    let relay = Relay::with_limits(JumpingClock::default(), Limits { patience, ..Limits::default() });
    let (mut caller, mut holder) = session(&relay);
    let frame = longest_send();
    let taken = fill(&mut caller, &frame);
    (0..taken / frame.len()).for_each(|_| assert!(holder.receive().is_some()));
    thread::sleep(patience + SLACK);
    caller.send_bytes(&frame[taken % frame.len()..]);
    assert_eq!(holder.receive(), encode(&Message::DataReceive { data: &[7; 65_533] }));
}

/// How long it takes until the relay gives up a holder that reads so many bytes each tenth of a second.
fn time_until_given_up(bytes: usize, limits: Limits) -> Option<Duration> {
    let relay = Relay::with_limits(JumpingClock::default(), limits);
    let (mut caller, mut holder) = session(&relay);
    fill(&mut caller, &longest_send());
    let start = Instant::now();
    while start.elapsed() < limits.patience + SLACK {
        if relay.has_line("partner 0, connection 1: closed, the peer has read next to nothing for too long") {
            assert_eq!(caller.receive(), encode(&Message::SessionEndNotification));
            return Some(start.elapsed());
        }
        thread::sleep(Duration::from_millis(100));
        // It fails when the relay has given up.
        let _ = holder.stream.read_exact(&mut vec![0; bytes]);
    }
    None
}

#[test]
fn who_reads_next_to_nothing_is_given_up_in_time() {
    let limits = Limits { patience: Duration::from_secs(2), ..Limits::default() };
    for (bytes, least_progress) in [(0, 16_384), (1_000, 60_000)] {
        let time = time_until_given_up(bytes, Limits { least_progress, ..limits }).expect("given up");
        // Its output was full about a second before all buffers on the way were.
        let earlier = Duration::from_millis(1_500);
        assert!(time + earlier > limits.patience && time < limits.patience + SLACK, "{bytes}: {time:?}");
    }
    let limits = Limits { least_progress: 60_000, ..limits };
    assert_eq!(time_until_given_up(20_000, limits), None, "who reads slowly is served");
}

#[test]
fn after_a_peer_is_given_up_its_sender_goes_on() {
    let limits = Limits { patience: Duration::from_millis(300), ..Limits::default() };
    let relay = Relay::with_limits(JumpingClock::default(), limits);
    let (mut caller, _holder) = session(&relay);
    let frame = longest_send();
    let taken = fill(&mut caller, &frame);
    relay.await_line("partner 0, connection 1: closed, the peer has read next to nothing for too long");
    assert_eq!(caller.receive(), encode(&Message::SessionEndNotification));
    caller.stream.set_write_timeout(Some(crate::support::LIMIT)).expect("a timeout");
    caller.send_bytes(&frame[taken % frame.len()..]);
    assert!(caller.lease() < 1 << 26);
    // The number of the one that was given up is free, though it still reads nothing.
    let mut seven: Vec<_> = (0..7).map(|_| relay.patient_peer(0)).collect();
    assert!(seven.iter_mut().all(|peer| peer.lease() < 1 << 26));
}

#[test]
fn the_server_stops_though_a_peer_reads_nothing() {
    let relay = Relay::with_clock(JumpingClock::default());
    let (mut caller, _holder) = session(&relay);
    fill(&mut caller, &longest_send());
    assert_stops(relay);
}

#[test]
fn what_waits_is_still_written_when_the_relay_ends() {
    let limits = Limits { last_words: crate::support::LIMIT, ..Limits::default() };
    let relay = Relay::with_limits(JumpingClock::default(), limits);
    let (mut caller, mut holder) = session(&relay);
    fill(&mut caller, &longest_send());
    let accepted = relay.server.statistics()[0].bytes;
    // Before the thread, which may begin late.
    let start = Instant::now();
    let stopping = thread::spawn(move || {
        relay.stop();
        start.elapsed()
    });
    // Both leave when the relay has closed its side.
    thread::spawn(move || caller.is_closed());
    thread::sleep(Duration::from_millis(500));
    let mut rest = Vec::new();
    holder.stream.read_to_end(&mut rest).expect("the rest");
    drop(holder);
    let time = stopping.join().expect("the relay's end");
    assert_eq!(rest.len() as u64, framed(accepted - NO_DATA));
    assert!(
        time >= Duration::from_millis(500) && time < Duration::from_secs(2),
        "it ends with the last byte: {time:?}"
    );
}

#[test]
fn who_reads_nothing_is_not_waited_for_when_the_relay_ends() {
    let relay = Relay::with_clock(JumpingClock::default());
    let (mut caller, _holder) = session(&relay);
    fill(&mut caller, &longest_send());
    let start = Instant::now();
    relay.stop();
    let time = start.elapsed();
    assert!(time >= Limits::default().last_words && time < 3 * Limits::default().last_words, "{time:?}");
}

#[test]
fn nobody_is_taken_while_the_relay_ends() {
    let relay = Relay::with_clock(JumpingClock::default());
    let address = relay.server.addresses()[1];
    let (mut caller, _holder) = session(&relay);
    fill(&mut caller, &longest_send());
    let start = Instant::now();
    let stopping = thread::spawn(move || relay.stop());
    // It goes on for two seconds, since a peer reads nothing.
    while TcpStream::connect(address).is_ok() {
        assert!(start.elapsed() < Duration::from_secs(1), "it still listens");
        thread::sleep(Duration::from_millis(10));
    }
    assert!(!stopping.is_finished());
    stopping.join().expect("the relay's end");
}

#[test]
fn who_is_sent_much_can_send_before_it_reads() {
    let relay = Relay::with_clock(JumpingClock::default());
    let (mut caller, mut holder) = session(&relay);
    let frame = longest_send();
    // Fills the caller's output, which the caller doesn't read yet.
    fill(&mut holder, &frame);
    for _ in 0..20 {
        caller.send_bytes(&frame);
        assert_eq!(holder.receive(), encode(&Message::DataReceive { data: &[7; 65_533] }));
    }
}

#[test]
fn who_requests_much_has_to_read_the_replies() {
    let relay = Relay::with_clock(JumpingClock::default());
    let mut peer = relay.peer(0);
    SockRef::from(&peer.stream).set_recv_buffer_size(SMALL).expect("a size");
    let mut requests = Vec::new();
    (0..10_000).for_each(|_| frames::append(&[2, 0], &mut requests).expect("a frame"));
    let taken = fill(&mut peer, &requests);
    // Two thirds of it wait in the kernel of the peer, whose own send buffer is large.
    assert!(taken < MOST / 2, "the relay takes {taken} bytes of requests of a peer that reads nothing");
}

#[test]
fn what_waits_arrives_though_its_receiver_has_sent_what_nobody_reads() {
    let relay = Relay::with_clock(JumpingClock::default());
    let (mut caller, mut holder) = session(&relay);
    // The caller's output is full, so the holder is held and what it sends next stays unread.
    fill(&mut holder, &longest_send());
    fill(&mut caller, &longest_send());
    let stopping = thread::spawn(move || relay.stop());
    let mut rest = Vec::new();
    holder.stream.read_to_end(&mut rest).expect("the rest, and no reset");
    assert!(rest.len() > 2 * 65_536, "{}", rest.len());
    stopping.join().expect("the relay's end");
}

#[test]
fn who_has_ended_its_side_still_gets_what_waits() {
    let relay = Relay::with_clock(JumpingClock::default());
    let (mut caller, mut holder) = session(&relay);
    let frame = longest_send();
    let taken = fill(&mut caller, &frame);
    let accepted = relay.server.statistics()[0].bytes - NO_DATA;
    holder.stream.shutdown(Shutdown::Write).expect("its end");
    relay.await_line("partner 0, connection 1: closed, the peer left");
    // In pieces: the relay hears of room for some of it, several times.
    let mut piece = vec![0; 20_000];
    let mut come = 0;
    loop {
        match holder.stream.read(&mut piece).expect("bytes or the end") {
            0 => break,
            count => come += count as u64,
        }
        thread::sleep(Duration::from_millis(20));
    }
    assert_eq!(come, framed(accepted), "of {taken} bytes");
}

#[test]
fn who_is_told_more_than_it_reads_is_given_up() {
    let clock = Standing::default();
    // The lease outlasts the callers.
    let relay = Relay::with_settings(clock.clone(), |settings| settings.lease_term = Some(LeaseTerm::LONGEST));
    let mut holder = relay.peer(0);
    SockRef::from(&holder.stream).set_recv_buffer_size(SMALL).expect("a size");
    let id = holder.lease();
    // Each caller adds a message, the first ones a long one, and is gone: none of them waits for the holder to read.
    for round in 0..3_500 {
        if relay.has_line("partner 0, connection 0: closed, the peer has read next to nothing") {
            return;
        }
        let is_long = round < 12;
        // Two seconds pay for a long one.
        clock.advance(if is_long { 2 } else { 1 });
        let mut caller = relay.patient_peer(0);
        caller.send(Message::EstablishRequest { id });
        caller.receive();
        if is_long {
            caller.send(Message::DataSend { data: &[7; 65_000] });
            thread::sleep(Duration::from_millis(20));
        }
        SockRef::from(&caller.stream).set_linger(Some(Duration::ZERO)).expect("a reset instead of an end");
    }
    panic!("what waits for the holder grows without end");
}
