//! A lease is extended in time: while a session is awaited and while a file comes, whatever the peer is busy with.

use std::io;
use std::net::SocketAddr;
use std::sync::mpsc;
use std::thread::{self, JoinHandle};
use std::time::{Duration, Instant, SystemTime, UNIX_EPOCH};

use codec::Message;
use peer::{receive_contents, Error, Lease, Patience, Peer, Progress, EXTENSION_WAIT};

use crate::support::{
    announce, assert_words, fingerprint, holder, scripted, Connection, Stuck, COOKIE, ID, LATER, SESSION,
};

/// From one request to the next.
const SOON: Duration = Duration::from_millis(100);
const REQUEST: Message = Message::ExtensionRequest { cookie: &COOKIE };

/// A peer that has leased the id, and asks for more time after so long.
fn impatient_holder(address: SocketAddr) -> Peer {
    let mut peer = holder(address);
    peer.set_extension_wait(SOON);
    peer
}

/// As the relays do that lease for the shortest time.
#[test]
fn half_of_the_shortest_term_passes_before_an_extension() {
    assert_eq!(2 * EXTENSION_WAIT, Duration::from_secs(600));
}

/// When each of so many extensions was asked for of a relay that tells this expiration.
fn times_asked(expiration: u64, count: u32) -> Vec<Instant> {
    let (asked, times) = mpsc::channel();
    let (address, relay) = scripted(move |mut connection| {
        connection.shake_hands();
        connection.grant_lease(expiration);
        for _ in 0..count {
            connection.expect(REQUEST);
            asked.send(Instant::now()).expect("a test");
            connection.send(Message::ExtensionGranted { expiration });
        }
        connection.send(Message::EstablishNotification { session: SESSION });
        connection.drain();
    });
    impatient_holder(address).await_session(|_| panic!("no new id")).expect("a session");
    relay.join().expect("the relay");
    times.iter().collect()
}

/// The relay's clock may be anything.
#[test]
fn a_lease_is_extended_again_and_again_whatever_expiration_is_told() {
    let now = SystemTime::now().duration_since(UNIX_EPOCH).expect("a time").as_secs();
    for expiration in [0, now, now + 600, LATER, u64::MAX] {
        let start = Instant::now();
        let times = times_asked(expiration, 3);
        // Each is asked for so long after the one before, and the first after the lease.
        for (time, count) in times.iter().zip(1..) {
            assert!(*time >= start + count * SOON, "{expiration}: the request {count} came too early");
        }
    }
}

#[test]
fn nothing_is_asked_for_sooner_than_usual() {
    let (address, relay) = scripted(|mut connection| {
        connection.shake_hands();
        connection.grant_lease(0);
        thread::sleep(5 * SOON);
        connection.send(Message::EstablishNotification { session: SESSION });
        assert_eq!(connection.next(), None);
    });
    holder(address).await_session(|_| panic!("no new id")).expect("a session");
    relay.join().expect("the relay");
}

/// A peer that holds a lease, at a relay that then says this while the peer awaits a session. The peer asks for nothing by
/// itself, so that the order is the script's; a refusal that comes unasked is one all the same.
fn await_session_at(
    script: impl FnOnce(&mut Connection) + Send + 'static,
    mut new_lease: impl FnMut(&Lease),
) -> Result<(), Error> {
    let (address, relay) = scripted(|mut connection| {
        connection.shake_hands();
        connection.grant_lease(LATER);
        script(&mut connection);
        connection.drain();
    });
    let outcome = holder(address).await_session(&mut new_lease);
    relay.join().expect("the relay");
    outcome
}

fn refuse_extension(connection: &mut Connection) {
    connection.send(Message::ExtensionRefused);
    connection.expect(Message::LeaseRequestWithCookie { cookie: &COOKIE });
}

/// The request for more time came too late, say.
#[test]
fn a_lease_that_has_ended_is_renewed() {
    let script = |connection: &mut Connection| {
        for _ in 0..2 {
            refuse_extension(connection);
            connection.send(Message::LeaseGranted { id: ID, cookie: &COOKIE, expiration: LATER });
        }
        connection.send(Message::EstablishNotification { session: SESSION });
    };
    await_session_at(script, |_| panic!("no new id")).expect("a session");
}

#[test]
fn a_lease_that_is_not_renewed_is_another() {
    let mut leases = Vec::new();
    let script = |connection: &mut Connection| {
        refuse_extension(connection);
        connection.send(Message::LeaseGranted { id: 77, cookie: &[8; 24], expiration: 9 });
        connection.send(Message::EstablishNotification { session: SESSION });
    };
    await_session_at(script, |lease| leases.push(*lease)).expect("a session");
    assert_eq!(leases, [Lease { id: 77, cookie: [8; 24], expiration: 9 }]);
}

#[test]
fn an_extension_and_another_id_refused() {
    let script = |connection: &mut Connection| {
        refuse_extension(connection);
        connection.send(Message::LeaseRefused);
    };
    let refused = await_session_at(script, |_| panic!("no new id"));
    assert_words(refused.expect_err("no session"), &["granted no id", "to its end"]);
}

/// If one more was asked for before the first was refused. A second lease would be refused.
#[test]
fn two_refusals_lead_to_one_lease() {
    let script = |connection: &mut Connection| {
        connection.send(Message::ExtensionRefused);
        refuse_extension(connection);
        connection.send(Message::LeaseGranted { id: ID, cookie: &COOKIE, expiration: LATER });
        connection.send(Message::EstablishNotification { session: SESSION });
        assert_eq!(connection.next(), None);
    };
    await_session_at(script, |_| panic!("no new id")).expect("a session");
}

/// Answers each request for more time of the old lease as a relay does, up to another message.
fn refuse_extensions(connection: &mut Connection) {
    loop {
        match connection.next() {
            Some(REQUEST) => connection.send(Message::ExtensionRefused),
            other => return assert_eq!(other, Some(Message::LeaseRequestWithCookie { cookie: &COOKIE })),
        }
    }
}

#[test]
fn the_lease_that_replaces_one_is_extended() {
    let (address, relay) = scripted(|mut connection| {
        connection.shake_hands();
        connection.grant_lease(LATER);
        refuse_extensions(&mut connection);
        connection.send(Message::LeaseGranted { id: 77, cookie: &[8; 24], expiration: LATER });
        connection.expect(Message::ExtensionRequest { cookie: &[8; 24] });
        connection.send(Message::EstablishNotification { session: SESSION });
        connection.drain();
    });
    let mut ids = Vec::new();
    impatient_holder(address).await_session(|lease| ids.push(lease.id)).expect("a session");
    assert_eq!(ids, [77]);
    relay.join().expect("the relay");
}

/// A session that is established, and then this; and a peer that awaits it.
fn in_session(script: impl FnOnce(&mut Connection) + Send + 'static) -> (Peer, JoinHandle<()>) {
    let (address, relay) = scripted(|mut connection| {
        connection.shake_hands();
        connection.grant_lease(LATER);
        connection.send(Message::EstablishNotification { session: SESSION });
        script(&mut connection);
        connection.drain();
    });
    let mut peer = impatient_holder(address);
    peer.await_session(|_| panic!("no new id")).expect("a session");
    (peer, relay)
}

/// A lease that isn't extended in a session is none of the transfer's business.
#[test]
fn a_lease_is_extended_while_a_file_comes() {
    let (mut peer, relay) = in_session(|connection| {
        connection.expect(REQUEST);
        connection.send(Message::ExtensionGranted { expiration: LATER });
        announce(connection, 3);
        for (data, answer) in [
            (b"a", Message::ExtensionGranted { expiration: 0 }),
            (b"b", Message::ExtensionRefused),
            (b"c", Message::ExtensionGranted { expiration: LATER }),
        ] {
            connection.expect(REQUEST);
            connection.send(answer);
            connection.send(Message::DataReceive { data });
        }
        connection.expect(REQUEST);
        connection.send(Message::DataReceive { data: &fingerprint(b"abc").digest });
    });
    let mut written = Vec::new();
    let sent = receive_contents(&mut peer, &mut written, Patience::default(), |_| ()).expect("a file");
    assert_eq!((sent, &written[..]), (fingerprint(b"abc"), &b"abc"[..]));
    drop(peer);
    relay.join().expect("the relay");
}

#[test]
fn a_receiver_whose_disk_is_stuck_extends_its_lease() {
    let (go_on, stuck) = mpsc::channel();
    let (mut peer, relay) = in_session(move |connection| {
        announce(connection, 3);
        connection.send(Message::DataReceive { data: b"abc" });
        connection.send(Message::DataReceive { data: &fingerprint(b"abc").digest });
        // While it writes, and while it flushes: it reads no answer, and asks again.
        for _ in 0..2 {
            connection.expect(REQUEST);
            connection.expect(REQUEST);
            go_on.send(()).expect("a disk");
        }
    });
    receive_contents(&mut peer, Stuck(stuck), Patience::default(), |_| ()).expect("a file");
    drop(peer);
    relay.join().expect("the relay");
}

#[test]
fn an_extension_is_no_movement() {
    let (mut peer, relay) = in_session(|connection| {
        announce(connection, 3);
        let mut count = 0;
        while connection.next() == Some(REQUEST) {
            count += 1;
            connection.send(Message::ExtensionGranted { expiration: LATER });
        }
        assert!(count > 0, "no request in a stall");
    });
    let (notice, limit, mut told) = (3 * SOON, 10 * SOON, 0);
    let start = Instant::now();
    let progress = |progress| told += u32::from(matches!(progress, Progress::Stalled(_)));
    let stalled = receive_contents(&mut peer, io::sink(), Patience { notice, limit: Some(limit) }, progress);
    assert_words(stalled.expect_err("stalled"), &["nothing has moved for 1 s", "0 of 3 bytes had come"]);
    assert!(start.elapsed() >= limit && told == 1, "told {told} times in {:?}", start.elapsed());
    drop(peer);
    relay.join().expect("the relay");
}

/// Else the old lease could be refused once more after the new one was given, and that given up.
#[test]
fn nothing_is_extended_while_a_lease_is_asked_for() {
    let (address, relay) = scripted(|mut connection| {
        connection.shake_hands();
        connection.grant_lease(LATER);
        refuse_extensions(&mut connection);
        thread::sleep(5 * SOON);
        connection.send(Message::LeaseGranted { id: 77, cookie: &[8; 24], expiration: LATER });
        connection.expect(Message::ExtensionRequest { cookie: &[8; 24] });
        connection.send(Message::EstablishNotification { session: SESSION });
        connection.drain();
    });
    impatient_holder(address).await_session(|_| ()).expect("a session");
    relay.join().expect("the relay");
}

#[test]
fn the_lease_that_replaces_one_is_renewed_by_its_own_cookie() {
    let mut ids = Vec::new();
    let script = |connection: &mut Connection| {
        refuse_extension(connection);
        for _ in 0..2 {
            connection.send(Message::LeaseGranted { id: 77, cookie: &[8; 24], expiration: LATER });
            connection.send(Message::ExtensionRefused);
            connection.expect(Message::LeaseRequestWithCookie { cookie: &[8; 24] });
        }
        connection.send(Message::LeaseGranted { id: 77, cookie: &[8; 24], expiration: LATER });
        connection.send(Message::EstablishNotification { session: SESSION });
    };
    await_session_at(script, |lease| ids.push(lease.id)).expect("a session");
    assert_eq!(ids, [77]);
}
