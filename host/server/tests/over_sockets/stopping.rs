//! The server's end under floods that cost their senders nothing.

use std::io::Write;
use std::net::TcpStream;
use std::sync::atomic::{AtomicBool, Ordering};
use std::thread;
use std::time::{Duration, Instant};

use server::{bind_free, Log, LogFormat, Server, Settings, SystemClock};

use crate::support::{assert_stops, Relay};

#[test]
fn the_server_stops_under_a_flood_of_connections() {
    let relay = Relay::start();
    let address = relay.server.addresses()[0];
    let stopped = AtomicBool::new(false);
    thread::scope(|scope| {
        for _ in 0..4 {
            scope.spawn(|| {
                let mut connections = Vec::new();
                while !stopped.load(Ordering::Relaxed) {
                    connections.push(TcpStream::connect_timeout(&address, Duration::from_millis(100)));
                }
            });
        }
        relay.await_line("partner 0: a connection is refused");
        assert_stops(relay);
        stopped.store(true, Ordering::Relaxed);
    });
}

#[test]
fn the_server_stops_under_a_flood_of_dropped_messages() {
    let relay = Relay::start();
    let mut peer = relay.peer(0);
    let mut ends = Vec::new();
    (0..500_000).for_each(|_| frames::append(&[9], &mut ends).expect("a frame"));
    peer.stream.set_write_timeout(Some(Duration::from_millis(200))).expect("a timeout");
    // The relay drops one in a millisecond, so it has plenty left.
    let _ = peer.stream.write_all(&ends);
    relay.await_line("partner 0, connection 0: refused with 8");
    assert_stops(relay);
}

#[test]
fn a_log_that_nobody_takes_does_not_hold_up_the_end() {
    let log = Log::new(LogFormat::Text, |_| loop {
        thread::park();
    });
    let settings = Settings::new(SystemClock::new(), log);
    let server = Server::start(bind_free().expect("free ports"), settings).expect("a relay");
    drop(TcpStream::connect(server.addresses()[0]).expect("it listens"));
    thread::sleep(Duration::from_millis(200));
    let start = Instant::now();
    server.stop().expect("an end in order");
    assert!(start.elapsed() < Duration::from_secs(6), "{:?}", start.elapsed());
}
