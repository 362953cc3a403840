//! Files through a relay: whole ones, and sides that vanish or break the format.

use std::fs::{self, File, OpenOptions};
use std::io::{self, Write};
use std::os::unix::fs::FileExt;
use std::sync::atomic::{AtomicBool, Ordering};
use std::sync::mpsc::{self, RecvTimeoutError};
use std::sync::Arc;
use std::thread;
use std::time::Duration;

use codec::{Message, DATA_LIMIT};
use peer::{receive_file, send_contents, send_file, Patience, Peer, Progress, SourceFile, MESSAGE_SIZE};
use tempfile::TempDir;

use crate::support::{
    announce, assert_words, confirmation, expect_whole, fill, fingerprint, forwarding, holder, receive_at, scripted,
    send_at, send_whole, Noting, ID, LATER, SESSION,
};

/// Bytes that don't repeat soon.
fn contents(length: usize) -> Vec<u8> {
    (0..length as u32).map(|at| (at.wrapping_mul(2_654_435_761) >> 24) as u8).collect()
}

/// Sends a file of this length to a second peer in messages of this size.
#[track_caller]
fn check_transfer(length: usize, message_size: usize) {
    let file = contents(length);
    let (address, relay) = forwarding();
    let mut receiver = holder(address);
    let receiving = thread::spawn(move || {
        let (mut received, mut told) = (Vec::new(), Vec::new());
        let count = receive_file(&mut receiver, &mut received, |progress| told.push(progress));
        (count.expect("a file"), received, told)
    });
    let mut sender = Peer::connect(address).expect("a handshake");
    sender.establish(ID).expect("a session");
    let mut arrived = Vec::new();
    let progress = |progress| arrived.push(progress);
    send_contents(&mut sender, file.as_slice(), length as u64, message_size, Patience::default(), progress)
        .expect("sent");
    sender.finish().expect("the end");
    let (count, received, told) = receiving.join().expect("the receiver");
    assert!(received == file, "the file has changed");
    assert_eq!(count, length as u64);
    let [none, all] = [0, count].map(|done| Progress::Moved { done, total: count });
    assert_eq!((arrived.first(), arrived.last()), (Some(&none), Some(&all)));
    assert!(arrived.iter().skip(1).all(|counted| told.contains(counted)), "counted before it came");
    assert_eq!((told.first(), told.last()), (Some(&none), Some(&all)));
    let kinds = relay.join().expect("the relay");
    let data_messages = 2 + length.div_ceil(message_size);
    assert_eq!(kinds, [vec![11; data_messages], vec![9]].concat());
}

#[test]
fn a_whole_file() {
    check_transfer(3_000_000, MESSAGE_SIZE);
    check_transfer(3 * MESSAGE_SIZE, MESSAGE_SIZE);
    check_transfer(2 * DATA_LIMIT + 1, DATA_LIMIT);
    check_transfer(100, 1);
}

#[test]
fn an_empty_file() {
    check_transfer(0, MESSAGE_SIZE);
}

const STOPPED: &str = "the relay stopped or closed the connection";

#[test]
fn the_sender_vanishes() {
    let (outcome, written) = receive_at(|connection| {
        announce(connection, 5_000);
        connection.send(Message::DataReceive { data: &[1; 1_234] });
        connection.send(Message::SessionEndNotification);
        connection.drain();
    });
    assert_words(outcome.expect_err("no file"), &["ended the session or vanished", "1,234 of 5,000 bytes"]);
    assert_eq!(written.len(), 1_234);
    let (outcome, _) = receive_at(|connection| connection.send(Message::SessionEndNotification));
    assert_words(outcome.expect_err("no file"), &["ended the session or vanished", "no byte had come"]);
}

#[test]
fn the_relay_stops_while_a_file_is_received() {
    let (outcome, _) = receive_at(|connection| announce(connection, 1));
    assert_words(outcome.expect_err("no file"), &[STOPPED, "0 of 1 bytes"]);
    // Within a frame.
    let (outcome, _) = receive_at(|connection| {
        announce(connection, 1);
        connection.send_raw(&[0, 9, 1]);
    });
    assert_words(outcome.expect_err("no file"), &[STOPPED, "0 of 1 bytes"]);
    // With a count that it hasn't read, by which the connection is reset.
    let (outcome, _) = receive_at(|connection| {
        announce(connection, 50_000);
        connection.send(Message::DataReceive { data: &[1; 40_000] });
        connection.await_bytes();
    });
    assert_words(outcome.expect_err("no file"), &[STOPPED, "40,000 of 50,000 bytes"]);
}

#[test]
fn more_than_announced() {
    let (outcome, written) = receive_at(|connection| {
        announce(connection, 3);
        connection.send(Message::DataReceive { data: b"four" });
        connection.drain();
    });
    assert_words(outcome.expect_err("no file"), &["more bytes than it had announced", "0 of 3 bytes"]);
    assert_eq!(written, b"");
    let (outcome, _) = receive_at(|connection| {
        send_whole(connection, b"one");
        connection.expect(Message::DataSend { data: &confirmation(b"one") });
        connection.send(Message::DataReceive { data: b"more" });
    });
    assert_words(outcome.expect_err("too much"), &["more bytes than it had announced"]);
}

#[test]
fn no_length_first() {
    let (outcome, _) = receive_at(|connection| connection.send(Message::DataReceive { data: b"a text" }));
    assert_words(outcome.expect_err("no file"), &["isn't the length of a file"]);
}

#[test]
fn malformed_bytes_in_a_session() {
    let (outcome, _) = receive_at(|connection| {
        announce(connection, 3);
        connection.send_raw(&[0, 3, 1, 13, 13]);
        connection.drain();
    });
    assert_words(outcome.expect_err("no file"), &["malformed", "type 13, 2 bytes", "0 of 3 bytes"]);
}

#[test]
fn after_the_answer_the_relay_may_close() {
    let (outcome, written) = receive_at(|connection| {
        send_whole(connection, b"one");
        connection.expect(Message::DataSend { data: &confirmation(b"one") });
    });
    assert_eq!((outcome.expect("a file"), written.as_slice()), (3, &b"one"[..]));
}

/// A disk that is slow to make safe what was written.
struct Slow(Arc<AtomicBool>);

impl Write for Slow {
    fn write(&mut self, bytes: &[u8]) -> io::Result<usize> {
        Ok(bytes.len())
    }

    fn flush(&mut self) -> io::Result<()> {
        thread::sleep(Duration::from_millis(200));
        self.0.store(true, Ordering::SeqCst);
        Ok(())
    }
}

#[test]
fn the_whole_length_is_told_when_the_file_is_safe() {
    let safe = Arc::new(AtomicBool::new(false));
    let seen = Arc::clone(&safe);
    let (address, relay) = scripted(move |mut connection| {
        connection.shake_hands();
        connection.grant_lease(LATER);
        connection.send(Message::EstablishNotification { session: SESSION });
        announce(&mut connection, 40_000);
        connection.send(Message::DataReceive { data: &[1; 35_000] });
        connection.expect(Message::DataSend { data: &35_000_u64.to_be_bytes() });
        connection.send(Message::DataReceive { data: &[1; 5_000] });
        connection.send(Message::DataReceive { data: &fingerprint(&[1; 40_000]).digest });
        connection.expect(Message::DataSend { data: &confirmation(&[1; 40_000]) });
        assert!(seen.load(Ordering::SeqCst), "told before it was safe");
    });
    receive_file(&mut holder(address), Slow(safe), |_| ()).expect("a file");
    relay.join().expect("the relay");
}

/// A disk without room.
struct Full;

impl Write for Full {
    fn write(&mut self, _: &[u8]) -> io::Result<usize> {
        Err(io::ErrorKind::StorageFull.into())
    }

    fn flush(&mut self) -> io::Result<()> {
        Ok(())
    }
}

#[test]
fn a_file_that_cannot_be_written_ends_both_sides() {
    let (address, relay) = forwarding();
    let mut receiver = holder(address);
    // The peer outlives its error: the connection's end mustn't depend on its drop.
    let receiving = thread::spawn(move || (receive_file(&mut receiver, Full, |_| ()), receiver));
    let mut sender = Peer::connect(address).expect("a handshake");
    let file = contents(100);
    let error = send_file(&mut sender, ID, file.as_slice(), 100, |_| ()).expect_err("not sent");
    assert_words(error, &["ended the session or vanished", "0 of 100 bytes had arrived"]);
    let (received, _receiver) = receiving.join().expect("the receiver");
    assert_words(received.expect_err("no file"), &["can't be written", "0 of 100 bytes"]);
    drop(sender);
    relay.join().expect("the relay");
}

#[test]
fn the_receiver_vanishes_while_a_write_waits() {
    let (to_relay, reads) = mpsc::channel();
    let (failed, failing) = mpsc::channel::<()>();
    let (address, relay) = scripted(move |mut connection| {
        connection.shake_hands();
        connection.grant_session();
        fill(&mut connection, &reads);
        connection.send(Message::SessionEndNotification);
        assert_eq!(failing.recv_timeout(Duration::from_secs(5)), Err(RecvTimeoutError::Disconnected));
    });
    let mut peer = Peer::connect(address).expect("a handshake");
    let endless = Noting { reader: io::repeat(1), to_relay };
    let error = send_file(&mut peer, ID, endless, 1 << 40, |_| ()).expect_err("not sent");
    drop(failed);
    assert_words(error, &["ended the session or vanished", "of 1,099,511,627,776 bytes"]);
    relay.join().expect("the relay");
}

#[test]
fn the_sender_is_never_far_ahead_of_the_receiver() {
    let (to_test, reads) = mpsc::channel();
    let error = send_at(Noting { reader: io::repeat(1), to_relay: to_test }, 1 << 30, move |connection| {
        let mut read = 0;
        while let Ok(count) = reads.recv_timeout(Duration::from_millis(500)) {
            read += count;
        }
        assert!((131_072..=131_072 + 2 * MESSAGE_SIZE).contains(&read), "{read}");
        connection.send(Message::SessionEndNotification);
        connection.drain();
    });
    assert_words(error.expect_err("not sent"), &["0 of 1,073,741,824 bytes had arrived"]);
}

#[test]
fn the_relay_stops_while_a_file_is_sent() {
    let error = send_at(&b"abc"[..], 3, |connection| expect_whole(connection, b"abc"));
    assert_words(error.expect_err("not sent"), &[STOPPED, "0 of 3 bytes had arrived"]);
    // With bytes that it hasn't read, by which the connection is reset.
    let error = send_at(io::repeat(1), 1 << 40, |connection| connection.await_bytes());
    assert_words(error.expect_err("not sent"), &[STOPPED, "0 of 1,099,511,627,776 bytes had arrived"]);
}

#[test]
fn a_wrong_count() {
    let count = |count: u64| count.to_be_bytes().to_vec();
    let wrong =
        [vec![b"yes".to_vec()], vec![vec![]], vec![count(4)], vec![count(2), count(2)], vec![count(2), count(1)]];
    for answers in wrong {
        let error = send_at(&b"abc"[..], 3, move |connection| {
            expect_whole(connection, b"abc");
            answers.iter().for_each(|data| connection.send(Message::DataReceive { data }));
            connection.drain();
        });
        assert_words(error.expect_err("not sent"), &["isn't a count of bytes that it can have"]);
    }
}

#[test]
fn a_keepalive_is_answered_while_a_file_is_sent() {
    let outcome = send_at(&b"abc"[..], 3, |connection| {
        expect_whole(connection, b"abc");
        connection.send(Message::Keepalive);
        connection.expect(Message::Keepalive);
        connection.send(Message::DataReceive { data: &confirmation(b"abc") });
        connection.expect(Message::SessionEnd);
    });
    outcome.expect("sent");
}

/// Its last bytes are never sent, and here nothing is, so that the receiver can't keep the file.
#[test]
fn a_file_of_another_length_than_announced() {
    for (file, length, words) in [("abc", 4, "shorter now"), ("abc", 2, "longer now"), ("a", 0, "longer now")] {
        let (heard, kinds) = mpsc::channel();
        let error = send_at(file.as_bytes(), length, move |connection| {
            while connection.next().is_some_and(|message| heard.send(format!("{message:?}")).is_ok()) {}
        });
        assert_words(error.expect_err("not sent"), &[words]);
        assert_eq!(kinds.iter().count(), 0);
    }
}

/// Neither its last bytes nor its digest are sent.
#[test]
fn a_file_that_changes_while_it_is_sent() {
    let folder = TempDir::new().expect("a folder");
    let path = folder.path().join("file");
    let length = 20 * MESSAGE_SIZE as u64;
    fs::write(&path, contents(length as usize)).expect("written");
    let file = SourceFile::new(File::open(&path).expect("the file")).expect("its version");
    assert_eq!(file.length(), length);
    let error = send_at(file, length, move |connection| {
        connection.expect(Message::DataSend { data: &length.to_be_bytes() });
        // The sender can't have read all of it, since nothing is counted yet.
        let file = OpenOptions::new().write(true).open(&path).expect("the file");
        file.write_all_at(b"other bytes", 0).expect("written");
        let mut come = 0;
        while let Some(Message::DataSend { data }) = connection.next() {
            come += data.len() as u64;
            connection.try_send(Message::DataReceive { data: &come.to_be_bytes() });
        }
        assert!(come < length, "all of it was sent");
    });
    assert_words(error.expect_err("not sent"), &["the file changed while it was sent"]);
}

#[test]
fn malformed_bytes_while_a_file_is_sent() {
    let error = send_at(&b"abc"[..], 3, |connection| {
        connection.send_raw(&[0, 2, 1, 99]);
        connection.drain();
    });
    assert_words(error.expect_err("not sent"), &["malformed", "type 99, 1 bytes"]);
}
