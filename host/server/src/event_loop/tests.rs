//! The loop by itself, step by step, over real sockets.

use std::io::{ErrorKind, Read, Write};
use std::net::{Ipv4Addr, SocketAddr, TcpListener, TcpStream};
use std::sync::{mpsc, Arc};
use std::time::Duration;

use mio::{Events, Interest, Poll};
use socket2::SockRef;

use super::{EventLoop, Parts, PLACES};
use crate::connection::{End, Hold, Phase};
use crate::relay::Relay;
use crate::sockets::SocketId;
use crate::{bind_free, LeaseTerm, Limits, Log, LogFormat, SystemClock, CONNECTIONS_EACH};

/// A loop, and the address of partner 0.
fn event_loop() -> (EventLoop, SocketAddr) {
    let listeners = bind_free().expect("free ports");
    let address = listeners.addresses().expect("addresses")[0];
    let parts = Parts {
        poll: Poll::new().expect("a poll"),
        listeners,
        relay: Relay::fresh(Box::new(SystemClock::new()), LeaseTerm::USUAL).expect("a relay"),
        log: Arc::new(Log::new(LogFormat::Text, |_| ())),
        limits: Limits::default(),
        saver: None,
        commands: mpsc::channel().1,
    };
    (EventLoop::new(parts).expect("a loop"), address)
}

/// The socket that was accepted last.
fn latest(event_loop: &EventLoop) -> Option<SocketId> {
    (0..PLACES).filter_map(|place| event_loop.sockets.at(place)).max_by_key(|socket| socket.token())
}

/// A peer of partner 0 and its socket, whose connection the engine has opened.
fn connect(event_loop: &mut EventLoop, address: SocketAddr) -> (TcpStream, SocketId) {
    let before = latest(event_loop);
    let peer = TcpStream::connect(address).expect("it listens");
    while latest(event_loop) == before {
        event_loop.partners[0].port.ready.fill(true);
        event_loop.accept();
    }
    event_loop.serve();
    (peer, latest(event_loop).expect("a socket"))
}

/// As README and DECISIONS tell it.
#[test]
fn tcp_gives_up_a_peer_after_300_seconds() {
    let (mut event_loop, address) = event_loop();
    let (_peer, socket) = connect(&mut event_loop, address);
    let stream = &event_loop.sockets.get(socket).expect("a connection").stream;
    let limit = SockRef::from(stream).tcp_user_timeout();
    assert_eq!(limit.expect("an option"), Some(Duration::from_secs(300)));
}

/// A stream whose peer has reset.
fn failed_stream() -> mio::net::TcpStream {
    let listener = TcpListener::bind((Ipv4Addr::LOCALHOST, 0)).expect("a free port");
    let stream = TcpStream::connect(listener.local_addr().expect("an address")).expect("it listens");
    let (peer, _) = listener.accept().expect("a peer");
    SockRef::from(&peer).set_linger(Some(Duration::ZERO)).expect("a reset instead of an end");
    stream.set_nonblocking(true).expect("a mode");
    mio::net::TcpStream::from_std(stream)
}

/// The poll tells of a failure under a socket's token, whoever has its place.
fn tell_of_failure(event_loop: &mut EventLoop, socket: SocketId) {
    let mut stream = failed_stream();
    event_loop.poll.registry().register(&mut stream, socket.token(), Interest::READABLE).expect("a poll");
    let mut events = Events::with_capacity(8);
    event_loop.poll.poll(&mut events, Some(Duration::from_secs(5))).expect("events");
    let event = events.iter().find(|event| event.token() == socket.token()).expect("it is told");
    assert!(event.is_error());
    event_loop.handle_event(event);
}

/// Each of these acts on a socket that is there.
fn act_on(event_loop: &mut EventLoop, socket: SocketId) {
    tell_of_failure(event_loop, socket);
    event_loop.filled.push(socket);
    event_loop.write_filled();
    event_loop.ready.push(socket);
    event_loop.read();
    event_loop.discard(socket);
    event_loop.go_on(socket);
    event_loop.offer(socket);
    event_loop.say_goodbye(socket);
    event_loop.free(socket);
    event_loop.end(socket, End::Left);
}

#[test]
fn what_comes_late_for_a_socket_leaves_the_next_one_in_its_place_alone() {
    let (mut event_loop, address) = event_loop();
    let (_, old) = connect(&mut event_loop, address);
    event_loop.end(old, End::Failed(ErrorKind::ConnectionReset.into()));
    let (mut peer, new) = connect(&mut event_loop, address);
    assert!(new != old && new.place() == old.place());
    assert!(event_loop.sockets.get(old).is_none());
    event_loop.outputs[new.place()].append(b"its own", &mut event_loop.spare_outputs);
    act_on(&mut event_loop, old);
    let connection = event_loop.sockets.get(new).expect("it is there");
    assert_eq!((connection.phase, connection.number), (Phase::Greeted, Some(0)));
    assert_eq!(event_loop.sockets.numbered(0), Some(new));
    assert!(!event_loop.outputs[new.place()].is_empty(), "nobody has written it");
    event_loop.write(new);
    let mut come = [0; 3 + 13 + 3 + 7];
    peer.read_exact(&mut come).expect("the version, and what was its own");
    assert!(come.ends_with(b"its own"), "{come:?}");
}

#[test]
fn a_number_leads_to_the_socket_that_has_it_now() {
    let (mut event_loop, address) = event_loop();
    let (_peer, old) = connect(&mut event_loop, address);
    event_loop.outputs[old.place()].append(b"last words", &mut event_loop.spare_outputs);
    event_loop.end(old, End::Left);
    assert_eq!(event_loop.sockets.numbered(0), None);
    let (_other, new) = connect(&mut event_loop, address);
    assert_ne!(new.place(), old.place(), "the old one is still there");
    assert_eq!(event_loop.sockets.numbered(0), Some(new));
    // Neither does the end of the old one take it away.
    event_loop.free(old);
    assert_eq!(event_loop.sockets.numbered(0), Some(new));
    let connections = event_loop.relay.connections_of(0);
    assert_eq!((connections.connections, connections.lowest), (1, 1));
}

#[test]
fn the_next_one_in_a_place_is_sent_nothing_of_the_last() {
    let (mut event_loop, address) = event_loop();
    let (_peer, old) = connect(&mut event_loop, address);
    event_loop.outputs[old.place()].append(b"another's", &mut event_loop.spare_outputs);
    event_loop.end(old, End::GivenUp);
    let (mut peer, new) = connect(&mut event_loop, address);
    assert_eq!(new.place(), old.place());
    let mut come = [0; 3 + 13];
    peer.read_exact(&mut come).expect("the version");
    assert!(come.ends_with(b"SVSC 001.000"), "{come:?}");
}

/// As many peers of partner 0 as it has connections, and their sockets.
fn connect_all(event_loop: &mut EventLoop, address: SocketAddr) -> Vec<(TcpStream, SocketId)> {
    (0..CONNECTIONS_EACH).map(|_| connect(event_loop, address)).collect()
}

/// A peer of partner 0 that waits for a number.
fn wait(event_loop: &mut EventLoop, address: SocketAddr) -> TcpStream {
    let before = event_loop.partners[0].port.candidates.len();
    let peer = TcpStream::connect(address).expect("it listens");
    while event_loop.partners[0].port.candidates.len() == before {
        event_loop.partners[0].port.ready.fill(true);
        event_loop.accept();
    }
    peer
}

#[test]
fn who_waits_first_is_taken_in_first() {
    let (mut event_loop, address) = event_loop();
    let all = connect_all(&mut event_loop, address);
    let waiting = [(); 3].map(|()| wait(&mut event_loop, address));
    for (peer, (_, socket)) in waiting.iter().zip(all) {
        event_loop.end(socket, End::GivenUp);
        event_loop.accept();
        let taken_in = latest(&event_loop).and_then(|socket| event_loop.sockets.get(socket)).expect("a socket");
        assert_eq!(taken_in.address, peer.local_addr().expect("an address"));
    }
}

#[test]
fn the_loop_wakes_when_who_waits_for_a_number_has_waited_long_enough() {
    let (mut event_loop, address) = event_loop();
    let _all = connect_all(&mut event_loop, address);
    event_loop.earliest = event_loop.now + Duration::from_secs(60);
    let _waiting = wait(&mut event_loop, address);
    assert_eq!(event_loop.earliest, event_loop.now + event_loop.limits.number);
}

/// The number is free since the loop has accepted in this turn.
#[test]
fn nobody_is_turned_away_while_there_is_room() {
    let (mut event_loop, address) = event_loop();
    let all = connect_all(&mut event_loop, address);
    let _waiting = [(); 2].map(|()| wait(&mut event_loop, address));
    event_loop.end(all[5].1, End::GivenUp);
    event_loop.now += event_loop.limits.number;
    event_loop.turn_away();
    assert!(event_loop.partners[0].port.candidates.is_empty());
    let opening = event_loop.sockets.count(0, Phase::Opening);
    assert_eq!(opening, 1, "there is room for one, and the other is turned away");
}

#[test]
fn a_loop_that_has_nothing_to_do_waits() {
    let (mut event_loop, address) = event_loop();
    let mut events = Events::with_capacity(8);
    for why in [End::Left, End::GivenUp] {
        let (_, socket) = connect(&mut event_loop, address);
        event_loop.partner_of(socket).turns.join(socket);
        event_loop.end(socket, why);
        while event_loop.sockets.get(socket).is_some() {
            event_loop.turn(&mut events).expect("a turn");
        }
        assert_eq!(event_loop.time_left(), Duration::ZERO, "somebody may wait for its place");
        event_loop.turn(&mut events).expect("a turn");
        assert!(event_loop.time_left() > Duration::ZERO);
    }
}

/// The ended ones have the first places, and all their numbers are had again.
#[test]
fn who_is_held_goes_on_whichever_place_it_has() {
    let (mut event_loop, address) = event_loop();
    let ended = connect_all(&mut event_loop, address);
    ended.iter().for_each(|(_, socket)| event_loop.end(*socket, End::Left));
    let all = connect_all(&mut event_loop, address);
    let (full, sockets) = (all[0].1, all.iter().map(|(_, socket)| *socket));
    for socket in sockets {
        assert!(socket.place() >= CONNECTIONS_EACH);
        event_loop.sockets.get_mut(socket).expect("it is there").hold = Some(Hold::Output(full));
        event_loop.release_senders(full);
        assert_eq!(event_loop.sockets.get(socket).expect("it is there").hold, None);
    }
}

/// Turns of the loop, until all that the peer has sent is read.
fn take_in(event_loop: &mut EventLoop, socket: SocketId, peer: &mut TcpStream, bytes: &[u8]) {
    peer.write_all(bytes).expect("it reads");
    let mut events = Events::with_capacity(8);
    let mut is_read = false;
    while !is_read || event_loop.sockets.get(socket).is_some_and(|connection| connection.readable) {
        event_loop.turn(&mut events).expect("a turn");
        is_read |= events.iter().any(|event| event.token() == socket.token() && event.is_readable());
    }
}

/// As README and DECISIONS tell it: an idle connection costs next to nothing, also one that has spoken.
#[test]
fn a_connection_has_an_input_buffer_only_while_bytes_of_a_message_wait() {
    let (mut event_loop, address) = event_loop();
    let (mut peer, socket) = connect(&mut event_loop, address);
    // The version answer, and half a header.
    take_in(&mut event_loop, socket, &mut peer, &[0, 3, 1, 1, 1, 0]);
    assert_eq!(event_loop.sockets.get(socket).expect("it is there").phase, Phase::Open);
    assert_eq!(event_loop.spare_inputs.count(), 1, "the message is served");
    take_in(&mut event_loop, socket, &mut peer, &[3, 1, 2]);
    assert_eq!(event_loop.spare_inputs.count(), 0, "a message has begun");
    event_loop.end(socket, End::Left);
    assert!(event_loop.sockets.get(socket).is_some(), "its peer hasn't left");
    assert_eq!(event_loop.spare_inputs.count(), 1, "nobody will take the rest");
}
