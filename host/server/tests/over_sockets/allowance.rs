//! Waiting for allowance over real sockets: nothing is lost, and no neighbour waits.

use std::time::Duration;

use codec::{encode, Message};
use server::Limits;

use crate::clocks::{Backward, Counted, Standing};
use crate::costs::{LONGEST, SESSION};
use crate::support::{assert_stops, Relay, Socket, LIMIT};

/// Data that costs a whole second's refill: 32, and twice the message, which has a byte more.
static DATA: [u8; 65_504 / 2 - 1] = [7; 65_504 / 2 - 1];

/// The log's line of a wait of partner 0.
pub fn waits(connection: usize, short: u64) -> String {
    format!("partner 0, connection {connection}: {}", refused(short))
}

/// Likewise of a connection that isn't opened yet, and so has no number.
pub fn open_waits(short: u64) -> String {
    format!("partner 0: its open is {}", refused(short))
}

fn refused(short: u64) -> String {
    let units = if short == 1 { "unit" } else { "units" };
    format!("refused with 9, the partner's allowance is used up ({short} {units} short): the message waits")
}

/// A session of partner 0 in which the last of four sends waits for the allowance, and the clock stands.
struct Waiting {
    clock: Standing,
    relay: Relay,
    caller: Socket,
    holder: Socket,
}

impl Waiting {
    fn start() -> Self {
        let clock = Standing::default();
        let relay = Relay::with_clock(clock.clone());
        let (mut caller, mut holder) = (relay.peer(0), relay.peer(0));
        caller.establish(&mut holder);
        // The session has left room for three.
        for _ in 0..4 {
            caller.send(Message::DataSend { data: &DATA });
        }
        relay.await_line(&waits(0, SESSION));
        Self { clock, relay, caller, holder }
    }

    /// So many of the sends arrive.
    fn assert_received(&mut self, count: usize) {
        for _ in 0..count {
            assert_eq!(self.holder.receive(), encode(&Message::DataReceive { data: &DATA }));
        }
    }
}

#[test]
fn messages_wait_for_the_refill_and_arrive_in_order() {
    let mut waiting = Waiting::start();
    waiting.caller.send(Message::DataSend { data: b"last" });
    waiting.assert_received(3);
    assert!(waiting.relay.peer(1).lease() < 1 << 26, "a neighbour's allowance is its own");
    assert_eq!(waiting.relay.server.statistics()[0].waited, 1);
    waiting.clock.advance(1);
    waiting.assert_received(1);
    assert_eq!(waiting.holder.receive(), encode(&Message::DataReceive { data: b"last" }));
}

#[test]
fn a_large_message_is_not_passed_over_by_small_ones() {
    let mut waiting = Waiting::start();
    let mut small = waiting.relay.socket(0);
    waiting.clock.advance(1);
    waiting.assert_received(4);
    small.receive().expect("the version");
    small.send(Message::VersionAnswer { ok: 1 });
    // It costs a little more than what is left, which would pay for many small ones.
    waiting.caller.send(Message::DataSend { data: &DATA });
    waiting.relay.await_waits(0, 2);
    let done = waiting.relay.server.statistics()[0].done;
    for _ in 0..1000 {
        small.send(Message::Keepalive);
    }
    std::thread::sleep(Duration::from_millis(100));
    assert_eq!(waiting.relay.server.statistics()[0].done, done, "none goes first");
    waiting.clock.advance(1);
    waiting.assert_received(1);
}

#[test]
fn a_session_can_be_ended_while_its_partner_waits() {
    let mut waiting = Waiting::start();
    waiting.holder.send(Message::SessionEnd);
    assert_eq!(waiting.caller.receive(), encode(&Message::SessionEndNotification));
    waiting.clock.advance(4);
    waiting.relay.await_line("connection 0: refused with 8");
}

#[test]
fn a_new_connection_waits_for_its_open_to_be_allowed() {
    let clock = Standing::default();
    let relay = Relay::with_clock(clock.clone());
    let mut peer = relay.peer(0);
    for _ in 0..262_144 / 33 + 1 {
        peer.send(Message::Keepalive);
    }
    relay.await_line("connection 0: refused with 9");
    let mut late = relay.socket(0);
    late.stream.set_read_timeout(Some(Duration::from_millis(100))).expect("a timeout");
    assert!(!late.is_closed(), "it waits");
    clock.advance(1);
    late.stream.set_read_timeout(Some(LIMIT)).expect("a timeout");
    assert_eq!(late.receive(), encode(&Message::ProtocolVersion { major: 1, minor: 0 }));
}

#[test]
fn an_open_that_waits_has_its_shortfall_in_the_log() {
    let clock = Standing::default();
    let relay = Relay::with_clock(clock.clone());
    let mut peer = relay.peer(0);
    // What is left after the open and the version answer, in keepalives: 12 units are left, too few for an open.
    let count = (262_144 - 45 - 34) / 33;
    (0..count).for_each(|_| peer.send(Message::Keepalive));
    relay.await_done(0, 2 + count);
    let mut late = relay.socket(0);
    relay.await_line(&open_waits(33));
    assert_eq!(relay.server.statistics()[0].waited, 1);
    clock.advance(1);
    assert_eq!(late.receive(), encode(&Message::ProtocolVersion { major: 1, minor: 0 }));
}

#[test]
fn an_open_does_not_wait_for_ever() {
    let open = Duration::from_millis(200);
    let relay = Relay::with_limits(Standing::default(), Limits { open, ..Limits::default() });
    let mut peer = relay.peer(0);
    let count = (262_144 - 45 - 34) / 33;
    (0..count).for_each(|_| peer.send(Message::Keepalive));
    relay.await_done(0, 2 + count);
    let mut late = relay.socket(0);
    assert!(late.is_closed());
    relay.await_line("closed, its partner's allowance wasn't enough to open it in time");
    peer.send(Message::Keepalive);
    assert!(peer.is_quiet(), "it waits, and is open");
}

#[test]
fn a_shortfall_has_the_refill_since_the_last_call() {
    let clock = Standing::default();
    let relay = Relay::with_clock(clock.clone());
    let (mut caller, mut holder) = (relay.peer(0), relay.peer(0));
    caller.establish(&mut holder);
    // As above, and a fourth, of 65,140, that leaves 26 units.
    for data in [&DATA, &DATA, &DATA, &DATA[..65_108 / 2 - 1]] {
        caller.send(Message::DataSend { data });
        holder.receive().expect("what is sent");
    }
    clock.advance(1);
    caller.send(Message::DataSend { data: &LONGEST });
    relay.await_line(&waits(0, 131_100 - 65_536 - 26));
}

#[test]
fn the_server_stops_while_messages_wait() {
    let relay = Relay::with_clock(Standing::default());
    let mut peer = relay.peer(0);
    for _ in 0..9000 {
        peer.send(Message::Keepalive);
    }
    relay.await_line("connection 0: refused with 9");
    assert_stops(relay);
    assert!(peer.is_closed());
}

#[test]
fn a_clock_that_goes_back_is_no_reason_to_refuse() {
    let relay = Relay::with_clock(Backward::from(1000));
    assert!(relay.peer(0).lease() < 1 << 26);
    assert!(!relay.has_line("refused"));
}

/// A session of partner 0, whose holder takes what comes.
pub fn session(relay: &Relay) -> (Socket, Socket) {
    let (mut caller, mut holder) = (relay.peer(0), relay.peer(0));
    caller.establish(&mut holder);
    (caller, holder)
}

/// Bytes of data that wait for a holder, and that are taken.
fn bytes_of(holder: &mut Socket) -> usize {
    holder.stream.set_read_timeout(Some(Duration::from_millis(100))).expect("a timeout");
    std::iter::from_fn(|| holder.try_receive()).map(|message| message.len()).sum()
}

#[test]
fn a_partner_s_connections_share_a_refill_by_cost() {
    let clock = Standing::default();
    let relay = Relay::with_clock(clock.clone());
    let ((mut large, mut large_end), (mut small, mut small_end)) = (session(&relay), session(&relay));
    (0..16).for_each(|_| large.send(Message::DataSend { data: &DATA[..30_000] }));
    (0..700).for_each(|_| small.send(Message::DataSend { data: &DATA[..500] }));
    relay.await_waits(0, 1);
    let first = [bytes_of(&mut large_end), bytes_of(&mut small_end)];
    let mut later = [0, 0];
    for _ in 0..6 {
        clock.advance(1);
        later[0] += bytes_of(&mut large_end);
        later[1] += bytes_of(&mut small_end);
    }
    // By messages the large ones would have sixty times as much.
    assert!(first.iter().sum::<usize>() > 100_000, "{first:?}");
    assert!(later.iter().all(|bytes| (60_000..140_000).contains(bytes)), "{later:?}");
}

/// A session that is refused costs 43, though a turn is given for the 140 of one that is established.
#[test]
fn requests_that_are_refused_take_no_more_than_their_share() {
    let clock = Standing::default();
    let relay = Relay::with_clock(clock.clone());
    let ((mut caller, mut holder), mut asking) = (session(&relay), relay.peer(0));
    (0..400).for_each(|_| caller.send(Message::DataSend { data: &DATA[..1_000] }));
    (0..10_000).for_each(|_| asking.send(Message::EstablishRequest { id: 1 << 26 }));
    relay.await_waits(0, 1);
    for first in [&mut holder, &mut asking] {
        bytes_of(first);
    }
    let [mut data, mut refused] = [0, 0];
    for _ in 0..6 {
        clock.advance(1);
        data += bytes_of(&mut holder) / 1_001 * 2_034;
        refused += bytes_of(&mut asking) / 6 * 43;
    }
    // If turns were given for the bytes that come alone, requests would have the larger share.
    assert!(data + refused > 350_000 && 2 * data > 3 * refused, "{data} units for data, {refused} for requests");
}

#[test]
fn a_request_waits_for_one_message_of_each_other_connection_at_most() {
    let clock = Standing::default();
    let relay = Relay::with_clock(clock.clone());
    let mut busy: Vec<_> = (0..3).flat_map(|_| <[Socket; 2]>::from(session(&relay))).collect();
    let mut asking = relay.peer(0);
    for peer in &mut busy {
        (0..2).for_each(|_| peer.send(Message::DataSend { data: &LONGEST }));
    }
    relay.await_waits(0, 1);
    asking.send(Message::LeaseRequest);
    let mut seconds = 0;
    while asking.is_quiet() {
        clock.pass(1);
        seconds += 1;
    }
    // Six messages are paid in twelve seconds, all of them in 24.
    assert!((1..=13).contains(&seconds), "{seconds}");
}

#[test]
fn a_waiting_partner_holds_up_no_neighbour() {
    let relay = Relay::with_clock(Standing::default());
    let mut flood: Vec<_> =
        (0..7).flat_map(|partner| (0..8).map(move |_| partner)).map(|partner| relay.peer(partner)).collect();
    let mut keepalives = Vec::new();
    (0..10_000).for_each(|_| frames::append(&[13], &mut keepalives).expect("a frame"));
    flood.iter_mut().for_each(|peer| peer.send_bytes(&keepalives));
    (0..7).for_each(|partner| relay.await_waits(partner, 1));
    let start = std::time::Instant::now();
    let (mut caller, mut holder) = (relay.peer(7), relay.peer(7));
    caller.establish(&mut holder);
    for _ in 0..1_000 {
        caller.send(Message::DataSend { data: b"quiet" });
        assert_eq!(holder.receive(), encode(&Message::DataReceive { data: b"quiet" }));
    }
    assert!(start.elapsed() < Duration::from_secs(5), "{:?}", start.elapsed());
}

#[test]
fn a_message_that_waits_is_not_offered_before_the_next_second() {
    let clock = Counted::default();
    let relay = Relay::with_clock(clock.clone());
    let mut peers = [relay.peer(0), relay.peer(0)];
    peers.iter_mut().for_each(|peer| peer.send_bytes(&[0, 2, 1, 13].repeat(10_000)));
    relay.await_waits(0, 1);
    let before = clock.readings();
    std::thread::sleep(Duration::from_millis(300));
    assert_eq!(clock.readings(), before, "each call reads the clock");
}
