//! The numbers of a partner: who gets one, who waits, and when one is free again.

use std::net::{Shutdown, TcpStream};
use std::thread;
use std::time::{Duration, Instant};

use codec::{encode, Message};
use server::{Limits, SystemClock, CONNECTIONS_EACH};
use socket2::SockRef;

use crate::clocks::Standing;
use crate::support::{Relay, Socket};

/// As many connections of a partner as it has.
fn all(relay: &Relay, partner: usize) -> Vec<Socket> {
    (0..CONNECTIONS_EACH).map(|_| relay.peer(partner)).collect()
}

#[test]
fn a_ninth_connection_waits_a_moment_and_is_refused() {
    let relay = Relay::start();
    let mut all = all(&relay, 3);
    let wait = |_| {
        let start = Instant::now();
        assert_eq!(relay.socket(3).receive(), None);
        start.elapsed()
    };
    // One after the other: a relay that only looks now and then would let the later ones wait for that.
    let waits: Vec<_> = (0..4).map(wait).collect();
    assert!(waits.iter().all(|wait| *wait >= Duration::from_millis(100)), "{waits:?}");
    assert!(waits[1..].iter().any(|wait| *wait < Duration::from_millis(300)), "{waits:?}");
    relay.await_line(&format!("partner 3: a connection is refused, all {CONNECTIONS_EACH} of this partner are in use"));
    assert!(relay.peer(4).lease() < 1 << 26, "another partner has its own");
    assert!(all.iter_mut().all(|peer| peer.lease() < 1 << 26));
}

#[test]
fn who_leaves_and_comes_back_at_once_is_taken() {
    let relay = Relay::start();
    let mut all = all(&relay, 0);
    for round in 0..40 {
        drop(all.remove(round % CONNECTIONS_EACH));
        // It is refused at once if its old number counts as in use.
        all.push(relay.peer(0));
    }
    assert!(!relay.has_line("a connection is refused"));
}

#[test]
fn a_peer_that_vanishes_ends_its_session_and_frees_its_number() {
    let relay = Relay::start();
    // The caller has the first number, and all are in use.
    let (mut caller, mut holder) = (relay.peer(5), relay.peer(5));
    let _others: Vec<Socket> = (2..CONNECTIONS_EACH).map(|_| relay.peer(5)).collect();
    for vanish in [Socket::leave, |mut socket: Socket| socket.send_bytes(&[0, 100, 1, 11, 7])] {
        caller.establish(&mut holder);
        vanish(caller);
        assert_eq!(holder.receive(), encode(&Message::SessionEndNotification));
        holder.leave();
        (caller, holder) = (relay.peer(5), relay.peer(5));
    }
    relay.await_line("the stream ended within a frame");
    assert!(!relay.has_line("a connection is refused"));
}

#[test]
fn the_lowest_number_that_is_free_is_given_first() {
    let relay = Relay::start();
    let mut all: Vec<_> = all(&relay, 1).into_iter().map(Some).collect();
    let given = relay.await_opened(CONNECTIONS_EACH);
    assert!(given.iter().copied().eq(CONNECTIONS_EACH..2 * CONNECTIONS_EACH), "{given:?}");
    for place in [6, 1, 3] {
        all[place].take().expect("a peer").leave();
        relay.await_line(&format!("partner 1, connection {}: closed", given[place]));
    }
    let _again: Vec<_> = (0..3).map(|_| relay.peer(1)).collect();
    assert_eq!(relay.await_opened(CONNECTIONS_EACH + 3)[CONNECTIONS_EACH..], [given[1], given[3], given[6]]);
}

#[test]
fn a_number_in_use_is_not_given_away() {
    let limits = Limits { number: Duration::from_millis(500), ..Limits::default() };
    let relay = Relay::with_limits(SystemClock::new(), limits);
    let mut all = all(&relay, 1);
    // It waits, and gets the number that is freed first.
    let mut ninth = relay.socket(1);
    all.remove(4).leave();
    assert_eq!(ninth.receive(), encode(&Message::ProtocolVersion { major: 1, minor: 0 }));
    relay.await_line("partner 1, connection 12: closed, the peer left");
    ninth.send(Message::VersionAnswer { ok: 1 });
    all.push(ninth);
    assert!(all.iter_mut().all(|peer| peer.lease() < 1 << 26));
}

/// A relay whose clock stands, and the one connection of partner 0, which has left too little for another to be opened.
fn used_up() -> (Standing, Relay, Socket) {
    let clock = Standing::default();
    let relay = Relay::with_clock(clock.clone());
    let mut peer = relay.peer(0);
    // What is left after the open and the version answer, in keepalives.
    let count = (262_144 - 45 - 34) / 33;
    peer.send_bytes(&[0, 2, 1, 13].repeat(count));
    relay.await_done(0, 2 + count as u64);
    (clock, relay, peer)
}

/// The other connections of partner 0, which wait to be opened.
fn waiting(relay: &Relay) -> Vec<Socket> {
    let sockets = (1..CONNECTIONS_EACH).map(|_| relay.socket(0)).collect();
    relay.await_waits(0, 1);
    sockets
}

fn assert_opened(socket: &mut Socket) {
    assert_eq!(socket.receive(), encode(&Message::ProtocolVersion { major: 1, minor: 0 }));
}

#[test]
fn who_waits_to_be_opened_has_no_number_and_gets_one_in_its_turn() {
    let (clock, relay, _first) = used_up();
    let mut waiting = waiting(&relay);
    // There will be no number for another.
    assert_eq!(relay.socket(0).receive(), None);
    relay.await_line(&format!("partner 0: a connection is refused, all {CONNECTIONS_EACH} of this partner are in use"));
    assert!(waiting.iter_mut().all(Socket::is_quiet));
    assert_eq!(relay.await_opened(1), [0], "nobody else has a number");
    clock.advance(1);
    waiting.iter_mut().for_each(assert_opened);
    assert!(relay.await_opened(CONNECTIONS_EACH).into_iter().eq(0..CONNECTIONS_EACH));
}

#[test]
fn who_leaves_before_it_is_opened_costs_nobody_a_number() {
    let (clock, relay, _first) = used_up();
    let mut waiting = waiting(&relay);
    // The one whose turn it is, by a reset, and one behind it.
    SockRef::from(&waiting.remove(0).stream).set_linger(Some(Duration::ZERO)).expect("a reset instead of an end");
    let left = waiting.remove(2);
    left.stream.shutdown(Shutdown::Write).expect("its end");
    relay.await_line("partner 0: closed, the peer left");
    relay.await_line("partner 0: closed, Connection reset by peer");
    waiting.extend([relay.socket(0), relay.socket(0)]);
    thread::sleep(2 * Limits::default().number);
    assert!(waiting.iter_mut().all(Socket::is_quiet), "there is a number for each");
    let done = relay.server.statistics()[0].done;
    clock.advance(1);
    waiting.iter_mut().for_each(assert_opened);
    assert!(relay.await_opened(CONNECTIONS_EACH).into_iter().eq(0..CONNECTIONS_EACH));
    assert_eq!(relay.server.statistics()[0].done, done + waiting.len() as u64, "no other is opened");
}

#[test]
fn what_was_said_before_the_opening_is_served_though_its_peer_has_ended_its_side() {
    let (clock, relay, _first) = used_up();
    let mut early = relay.socket(0);
    relay.await_waits(0, 1);
    early.send(Message::VersionAnswer { ok: 1 });
    early.send(Message::LeaseRequest);
    early.stream.shutdown(Shutdown::Write).expect("its end");
    thread::sleep(Duration::from_millis(50));
    clock.advance(1);
    assert_opened(&mut early);
    assert_eq!(early.receive().map(|granted| granted.len()), Some(38));
    assert_eq!(early.receive(), None);
}

#[test]
fn refused_connections_come_at_a_bounded_rate() {
    let relay = Relay::start();
    let _all = all(&relay, 2);
    let address = relay.server.addresses()[2];
    let start = Instant::now();
    let mut refused = 0;
    while start.elapsed() < Duration::from_millis(500) {
        // Four at a time, each until the relay has closed it.
        let waiting: Vec<_> = (0..4).map(|_| TcpStream::connect(address).expect("the relay listens")).collect();
        refused +=
            waiting.into_iter().filter_map(|stream| Socket::over(stream).receive().is_none().then_some(())).count();
    }
    assert!((4..=28).contains(&refused), "{refused} in half a second: each waits a tenth of one");
}

#[test]
fn eight_wait_for_a_number_at_a_time() {
    let limits = Limits { number: Duration::from_millis(300), ..Limits::default() };
    let relay = Relay::with_limits(SystemClock::new(), limits);
    let _all = all(&relay, 2);
    let start = Instant::now();
    let waiting: Vec<_> = (0..24).map(|_| relay.socket(2)).collect();
    assert!(waiting.into_iter().all(|mut socket| socket.receive().is_none()));
    assert!(start.elapsed() >= 3 * limits.number, "the others wait in the kernel: {:?}", start.elapsed());
}

/// A number that is lost stays in use for ever: as many as there are, and the partner has none left.
#[test]
fn no_bytes_cost_a_partner_a_connection() {
    let relay = Relay::start();
    let mut random = Random(20_220_725);
    for round in 0..300 {
        let mut peer = if round % 2 == 0 { relay.patient_peer(0) } else { relay.socket(0) };
        for _ in 0..random.below(6) {
            // The relay may have closed the connection for an earlier one.
            if std::io::Write::write_all(&mut peer.stream, &random.some_frame()).is_err() {
                break;
            }
        }
        if round % 3 == 0 {
            peer.leave();
        }
    }
    let mut all: Vec<Socket> = (0..CONNECTIONS_EACH).map(|_| relay.patient_peer(0)).collect();
    assert!(all.iter_mut().all(|peer| peer.lease() < 1 << 26));
}

/// Numbers that repeat from run to run (xorshift64).
struct Random(u64);

impl Random {
    fn below(&mut self, limit: u64) -> u64 {
        self.0 ^= self.0 << 13;
        self.0 ^= self.0 >> 7;
        self.0 ^= self.0 << 17;
        self.0 % limit
    }

    /// Bytes that may be a frame, often of a known type, or nearly one.
    fn some_frame(&mut self) -> Vec<u8> {
        let length = [0, 1, 2, 5, 25, 26, 49, 300][self.below(8) as usize];
        let mut message: Vec<u8> = (0..length).map(|_| self.below(256) as u8).collect();
        if let Some(first) = message.first_mut() {
            *first = self.below(15) as u8;
        }
        let mut frame = Vec::new();
        frames::append(&message, &mut frame).expect("a frame");
        if self.below(4) == 0 {
            let place = self.below(frame.len() as u64) as usize;
            frame[place] = self.below(256) as u8;
        }
        if self.below(4) == 0 {
            frame.truncate(self.below(frame.len() as u64) as usize);
        }
        frame
    }
}
