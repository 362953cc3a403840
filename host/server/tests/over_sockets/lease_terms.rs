//! How long leases last: the term that a fresh relay is given, the one that a state file keeps, and what the log says of it.

use std::fs;
use std::path::Path;
use std::thread;
use std::time::Duration;

use codec::Message;
use peer::{receive_file, Fingerprint, Peer};
use server::LeaseTerm;

use crate::clocks::Standing;
use crate::state::{establish_status, folder};
use crate::support::{Relay, Socket};

const START: u64 = 1_000_000;
/// Where a state file has the term, counted from its end: before the clock, its last number.
const TERM_PLACE: usize = 16;

fn start(clock: &Standing, named: Option<u64>, state: Option<&Path>) -> Relay {
    Relay::with_settings(clock.clone(), |settings| {
        settings.lease_term = named.map(|seconds| LeaseTerm::new(seconds).expect("a term"));
        settings.state = state.map(Path::to_owned);
    })
}

/// Stops the relay. Gives what its log says of the term, which is one line.
fn term_told(relay: Relay) -> String {
    let (_, log) = relay.stop();
    let told: Vec<_> = log.iter().filter_map(|line| line.strip_prefix("the relay: leases last ")).collect();
    assert_eq!(told.len(), 1, "{log:?}");
    told[0].to_owned()
}

/// A lease as the relay tells it.
struct Lease {
    id: u32,
    cookie: Vec<u8>,
    expiration: u64,
}

fn lease(socket: &mut Socket, request: Message) -> Lease {
    socket.send(request);
    match codec::decode(&socket.receive().expect("an answer")) {
        Some(Message::LeaseGranted { id, cookie, expiration }) => Lease { id, cookie: cookie.to_vec(), expiration },
        other => panic!("{other:?}"),
    }
}

/// Extends the lease. Gives its new expiration.
fn extend(socket: &mut Socket, cookie: &[u8]) -> u64 {
    socket.send(Message::ExtensionRequest { cookie });
    match codec::decode(&socket.receive().expect("an answer")) {
        Some(Message::ExtensionGranted { expiration }) => expiration,
        other => panic!("{other:?}"),
    }
}

/// Leases, extends and renews an id, each for so many seconds. Gives the id.
fn assert_lasts(relay: &Relay, clock: &Standing, now: u64, term: u64) -> u32 {
    let mut holder = relay.peer(0);
    let first = lease(&mut holder, Message::LeaseRequest);
    assert_eq!(first.expiration, now + term);
    clock.advance(10);
    assert_eq!(extend(&mut holder, &first.cookie), now + 10 + term);
    holder.leave();
    relay.await_line("partner 0, connection 0: closed");
    clock.advance(20);
    let again = lease(&mut relay.peer(0), Message::LeaseRequestWithCookie { cookie: &first.cookie });
    assert_eq!((again.id, again.expiration), (first.id, now + 30 + term));
    first.id
}

#[test]
fn leases_last_for_the_term_that_is_named_and_else_for_600_seconds() {
    for (named, term) in [(None, 600), (Some(600), 600), (Some(601), 601), (Some(1_200), 1_200), (Some(86_400), 86_400)]
    {
        let clock = Standing::from(START);
        let relay = start(&clock, named, None);
        let id = assert_lasts(&relay, &clock, START, term);
        clock.advance(term - 1);
        assert_eq!(establish_status(&relay, id), 2, "it runs, and its holder is offline");
        clock.advance(1);
        assert_eq!(establish_status(&relay, id), 1, "it has ended");
        assert_eq!(term_told(relay), format!("{term} seconds"));
    }
}

fn term_in(file: &Path) -> u64 {
    let bytes = fs::read(file).expect("a state");
    u64::from_be_bytes(*bytes[bytes.len() - TERM_PLACE..].first_chunk().expect("a number"))
}

fn set_term(file: &Path, number: u64) {
    let mut bytes = fs::read(file).expect("a state");
    let place = bytes.len() - TERM_PLACE;
    bytes[place..][..8].copy_from_slice(&number.to_be_bytes());
    fs::write(file, bytes).expect("a state");
}

const UNUSED: &str =
    "; the 7200 named now aren't used: the state file keeps its term, and only a fresh relay is given one";

/// Starts relays with a state file that has this number, with and without a term that is named.
fn assert_kept(number: u64, term: u64, why: &str) {
    let folder = folder();
    let file = folder.path().join("state");
    start(&Standing::from(START), Some(1_200), Some(&file)).stop();
    assert_eq!(term_in(&file), 1_200);
    set_term(&file, number);
    let told = format!("{term} seconds{why}");
    for (round, (named, told)) in
        (1..).zip([(None, told.clone()), (Some(term), told.clone()), (Some(7_200), told + UNUSED)])
    {
        // The leases of the relay before have ended.
        let now = START + round * 1_000_000;
        let clock = Standing::from(now);
        let relay = start(&clock, named, Some(&file));
        assert_lasts(&relay, &clock, now, term);
        assert_eq!(term_told(relay), told, "{number}, named {named:?}");
        assert_eq!(term_in(&file), number, "a relay doesn't change it");
    }
}

#[test]
fn a_state_file_keeps_its_term() {
    assert_kept(600, 600, "");
    assert_kept(1_200, 1_200, "");
    assert_kept(86_400, 86_400, "");
}

#[test]
fn a_state_file_of_an_older_relay_keeps_an_hour() {
    assert_kept(0, 3_600, ", since an older relay made the state file");
}

#[test]
fn a_term_that_is_out_of_range_reads_as_600_seconds() {
    for number in [1, 599, 86_401, (1 << 32) + 1_200, u64::MAX] {
        assert_kept(number, 600, &format!(", since the state file's term of {number} is out of range"));
    }
}

/// As after a term that was changed in the file.
#[test]
fn a_lease_may_come_to_end_earlier_when_it_is_renewed() {
    let folder = folder();
    let file = folder.path().join("state");
    let relay = start(&Standing::from(START), Some(86_400), Some(&file));
    let first = lease(&mut relay.peer(0), Message::LeaseRequest);
    assert_eq!(first.expiration, START + 86_400);
    relay.stop();
    set_term(&file, 700);
    let relay = start(&Standing::from(START + 5), None, Some(&file));
    let again = lease(&mut relay.peer(0), Message::LeaseRequestWithCookie { cookie: &first.cookie });
    assert_eq!((again.id, again.expiration), (first.id, START + 705));
}

/// Lets ten times 300 seconds pass by the relay's clock. Each time the receiver has asked for more time before the next, and
/// every other peer has said that it is there.
fn pass_terms(relay: &Relay, clock: &Standing, mut others: Option<&mut Socket>) {
    for _ in 0..10 {
        clock.pass(300);
        others.iter_mut().for_each(|peer| peer.send(Message::Keepalive));
        let done = relay.server.statistics()[0].done;
        relay.await_done(0, done + 3);
    }
}

/// The next message that isn't a Keepalive.
fn next_message(socket: &mut Socket) -> Vec<u8> {
    loop {
        let message = socket.receive().expect("a message");
        if message != [13] {
            return message;
        }
    }
}

/// By the relay's clock minutes pass in moments, and so the peer's wait is short too.
#[test]
fn a_receiver_has_its_id_for_many_terms_while_it_waits_and_while_a_file_comes() {
    let clock = Standing::from(START);
    let relay = start(&clock, None, None);
    let mut peer = Peer::connect(relay.server.addresses()[0]).expect("a handshake");
    peer.set_extension_wait(Duration::from_millis(20));
    let id = peer.lease().expect("a lease");
    let receiving = thread::spawn(move || {
        let mut written = Vec::new();
        receive_file(&mut peer, &mut written, |_| ()).map(|_| written)
    });
    pass_terms(&relay, &clock, None);
    let mut caller = relay.peer(0);
    caller.send(Message::EstablishRequest { id });
    let established = next_message(&mut caller);
    assert!(matches!(codec::decode(&established), Some(Message::Established { .. })), "{established:?}");
    caller.send(Message::DataSend { data: &3_u64.to_be_bytes() });
    pass_terms(&relay, &clock, Some(&mut caller));
    assert_eq!(establish_status(&relay, id), 3, "its holder is busy, and its lease runs");
    let sent = Fingerprint::read(&b"abc"[..]).expect("bytes");
    caller.send(Message::DataSend { data: b"abc" });
    caller.send(Message::DataSend { data: &sent.digest });
    assert_eq!(next_message(&mut caller).len(), 41, "it is confirmed");
    caller.send(Message::SessionEnd);
    assert_eq!(receiving.join().expect("a receiver").expect("a file"), b"abc");
}
