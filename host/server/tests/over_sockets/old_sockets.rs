//! A number that is had again while the socket that had it is still there: what is of the one is never the other's.

use std::thread;
use std::time::{Duration, Instant};

use codec::{encode, Message};
use server::{JumpingClock, Limits, SystemClock, CONNECTIONS_EACH};
use socket2::SockRef;

use crate::slow_readers::{fill, longest_send, session, BUFFERS, NO_DATA, SMALL};
use crate::support::{Relay, Socket, LIMIT};

/// What is no frame, for which a connection is closed.
const NO_FRAME: &[u8] = &[0, 0];
/// A lease request.
const REQUEST: &[u8] = &[0, 3, 1, 2, 0];
/// Each of the last words.
const WORDS: Message = Message::DataReceive { data: &[7; 65_533] };

/// Partner 0's connection 1 is closed, with last words for a peer that doesn't read them, and another has its number.
struct Again {
    relay: Relay,
    old: Socket,
    /// How many last words there are.
    words: usize,
    new: Socket,
    /// Connection 0, in session with the new one.
    other: Socket,
}

impl Again {
    fn start() -> Self {
        Self::with_limits(Limits::default())
    }

    fn with_limits(limits: Limits) -> Self {
        let relay = Relay::with_limits(JumpingClock::default(), limits);
        let (mut caller, mut old) = session(&relay);
        fill(&mut caller, &longest_send());
        let words = (relay.server.statistics()[0].bytes - NO_DATA) as usize / 65_534;
        old.send_bytes(NO_FRAME);
        relay.await_line("partner 0, connection 1: closed, a frame of length 0");
        caller.leave();
        relay.await_line("partner 0, connection 0: closed");
        let (mut other, mut new) = (relay.peer(0), relay.peer(0));
        assert_eq!(relay.await_opened(4), [0, 1, 0, 1]);
        other.establish(&mut new);
        Self { relay, old, words, new, other }
    }

    /// The new one is sent what is meant for it, and nothing else, and what it sends goes where it should.
    fn assert_goes_on(&mut self) {
        assert_sent(&mut self.other, &mut self.new);
        assert_sent(&mut self.new, &mut self.other);
    }

    /// The old one is sent all its last words, and nothing else.
    fn assert_last_words(&mut self) {
        for _ in 0..self.words {
            assert!(self.old.receive() == encode(&WORDS), "other bytes");
        }
        assert_eq!(self.old.receive(), None);
    }
}

/// What the one sends, and nothing else, comes to the other.
fn assert_sent(from: &mut Socket, to: &mut Socket) {
    let data = &[9; 60_000];
    from.send(Message::DataSend { data });
    assert!(to.receive() == encode(&Message::DataReceive { data }), "other bytes");
    assert!(to.is_quiet());
}

#[test]
fn a_number_is_had_again_at_once_and_nobody_is_sent_what_is_the_other_s() {
    let mut again = Again::start();
    (0..5).for_each(|_| again.assert_goes_on());
    assert!(again.words >= 3, "{}", again.words);
    again.assert_last_words();
    again.assert_goes_on();
}

#[test]
fn what_the_old_one_still_sends_is_not_the_new_one_s() {
    let mut again = Again::start();
    let done = again.relay.server.statistics()[0].done;
    again.old.send_bytes(&REQUEST.repeat(1_000));
    again.assert_goes_on();
    again.assert_last_words();
    again.assert_goes_on();
    assert_eq!(again.relay.server.statistics()[0].done, done + 4, "nothing of it is served");
}

#[test]
fn a_reset_of_the_old_one_leaves_the_new_one_alone() {
    let mut again = Again::start();
    SockRef::from(&again.old.stream).set_linger(Some(Duration::ZERO)).expect("a reset instead of an end");
    // It takes the place of the old one, which is dropped.
    again.old = again.relay.peer(1);
    (0..5).for_each(|_| again.assert_goes_on());
    assert_eq!(again.relay.lines_with("connection 1: closed").len(), 1);
}

#[test]
fn a_deadline_of_the_old_one_leaves_the_new_one_alone() {
    let patience = Duration::from_secs(2);
    let mut again = Again::with_limits(Limits { patience, ..Limits::default() });
    thread::sleep(patience);
    again.assert_goes_on();
    assert!(again.old.is_closed(), "it is given up");
    again.assert_goes_on();
    assert_eq!(again.relay.lines_with("connection 1: closed").len(), 1);
}

#[test]
fn an_end_of_the_new_one_leaves_the_old_one_alone() {
    let mut again = Again::start();
    again.new.send_bytes(NO_FRAME);
    assert_eq!(again.new.receive(), None);
    assert_eq!(again.other.receive(), encode(&Message::SessionEndNotification));
    again.assert_last_words();
}

/// Its partner wouldn't pay for it.
#[test]
fn nothing_is_read_of_who_does_not_take_its_last_words() {
    let mut again = Again::start();
    SockRef::from(&again.old.stream).set_send_buffer_size(SMALL).expect("a size");
    let taken = fill(&mut again.old, &[7; 65_536]);
    assert!(taken < BUFFERS, "{taken}");
    again.assert_goes_on();
}

/// A peer of partner 0 that is closed and doesn't close its own side.
fn stays(relay: &Relay) -> Socket {
    let mut peer = relay.peer(0);
    peer.send_bytes(NO_FRAME);
    assert_eq!(peer.receive(), None);
    peer
}

#[test]
fn as_many_ended_ones_as_a_partner_has_sockets_leave_no_room() {
    let relay = Relay::with_limits(SystemClock::new(), Limits { last_words: LIMIT, ..Limits::default() });
    let most = 2 * CONNECTIONS_EACH;
    let mut ended: Vec<_> = (0..most).map(|_| stays(&relay)).collect();
    assert!(!relay.has_line("connection 1: connected"), "the first number is free, each time");
    assert_eq!(relay.socket(0).receive(), None);
    relay.await_line(&format!(
        "partner 0: a connection is refused, {most} of this partner have ended and are still there"
    ));
    assert!(relay.peer(1).lease() < 1 << 26, "another partner has its own");
    // There is room when one of them has gone, and only for one.
    ended.remove(3).leave();
    let mut peer = relay.peer(0);
    assert_eq!(relay.socket(0).receive(), None);
    assert!(peer.lease() < 1 << 26);
}

#[test]
fn all_of_a_partner_s_numbers_can_be_had_again_while_all_old_sockets_are_there() {
    let relay = Relay::with_limits(SystemClock::new(), Limits { last_words: LIMIT, ..Limits::default() });
    let _ended: Vec<_> = (0..CONNECTIONS_EACH).map(|_| stays(&relay)).collect();
    let mut all: Vec<_> = (0..CONNECTIONS_EACH).map(|_| relay.peer(0)).collect();
    assert!(relay.await_opened(2 * CONNECTIONS_EACH)[CONNECTIONS_EACH..].iter().copied().eq(0..CONNECTIONS_EACH));
    assert!(all.iter_mut().all(|peer| peer.lease() < 1 << 26));
}

#[test]
fn who_waits_for_a_number_gets_one_whose_old_socket_is_there() {
    let limits = Limits { number: LIMIT, last_words: LIMIT, ..Limits::default() };
    let relay = Relay::with_limits(SystemClock::new(), limits);
    let mut all: Vec<_> = (0..CONNECTIONS_EACH).map(|_| relay.peer(0)).collect();
    let mut waiting = relay.socket(0);
    thread::sleep(Duration::from_millis(50));
    assert!(waiting.is_quiet());
    let start = Instant::now();
    all[3].send_bytes(NO_FRAME);
    assert_eq!(waiting.receive(), encode(&Message::ProtocolVersion { major: 1, minor: 0 }));
    assert!(start.elapsed() < LIMIT / 2, "{:?}", start.elapsed());
    assert_eq!(relay.await_opened(CONNECTIONS_EACH + 1)[CONNECTIONS_EACH], 3);
}
