//! A file that isn't the one that was sent is noticed by either side.

use codec::Message;
use peer::Fingerprint;

use crate::support::{
    announce, assert_words, confirmation, expect_whole, fingerprint, receive_at, send_at, send_whole, Connection,
};

const DIFFER: &str = "isn't the one that was sent: their SHA-256 digests differ";
const WRONG_COUNT: &str = "isn't a count of bytes that it can have";

/// The example of FIPS 180-2.
#[test]
fn the_digest_is_sha_256() {
    let digest = [
        0xba, 0x78, 0x16, 0xbf, 0x8f, 0x01, 0xcf, 0xea, 0x41, 0x41, 0x40, 0xde, 0x5d, 0xae, 0x22, 0x23, 0xb0, 0x03,
        0x61, 0xa3, 0x96, 0x17, 0x7a, 0x9c, 0xb4, 0x10, 0xff, 0x61, 0xf2, 0x00, 0x15, 0xad,
    ];
    assert_eq!(fingerprint(b"abc"), Fingerprint { length: 3, digest });
}

#[test]
fn the_receiver_refuses_another_file_than_was_sent() {
    let (outcome, _) = receive_at(|connection| {
        announce(connection, 3);
        connection.send(Message::DataReceive { data: b"abc" });
        connection.send(Message::DataReceive { data: &fingerprint(b"abd").digest });
        assert_eq!(connection.next(), None, "confirmed");
    });
    assert_words(outcome.expect_err("no file"), &[DIFFER]);
}

#[test]
fn the_receiver_wants_a_digest_after_the_file() {
    for after in [&b"abc"[..], b"", &[7; 31], &[7; 33]] {
        let (outcome, _) = receive_at(move |connection| {
            announce(connection, 3);
            connection.send(Message::DataReceive { data: b"abc" });
            connection.send(Message::DataReceive { data: after });
            assert_eq!(connection.next(), None, "confirmed");
        });
        assert_words(outcome.expect_err("no file"), &["after the file isn't a SHA-256 digest", "3 of 3 bytes"]);
    }
}

#[test]
fn the_receiver_confirms_what_it_has() {
    let (outcome, written) = receive_at(|connection| {
        send_whole(connection, b"abc");
        connection.expect(Message::DataSend { data: &confirmation(b"abc") });
    });
    assert_eq!((outcome.expect("a file"), written.as_slice()), (3, &b"abc"[..]));
}

/// The words of sending "abc" if this happens in the session.
fn check_refused(words: &str, script: impl FnOnce(&mut Connection) + Send + 'static) {
    let outcome = send_at(&b"abc"[..], 3, |connection| {
        script(connection);
        while let Some(message) = connection.next() {
            assert_ne!(message, Message::SessionEnd, "ended in order");
        }
    });
    assert_words(outcome.expect_err("not sent"), &[words]);
}

#[test]
fn the_sender_refuses_a_confirmation_of_another_file() {
    for (file, words) in [(&b"abd"[..], DIFFER), (b"ab", WRONG_COUNT), (b"abcd", WRONG_COUNT)] {
        check_refused(words, move |connection| {
            expect_whole(connection, b"abc");
            connection.send(Message::DataReceive { data: &confirmation(file) });
        });
    }
}

/// A count of all bytes isn't a confirmation.
#[test]
fn the_sender_waits_for_the_confirmation() {
    check_refused("3 of 3 bytes had arrived", |connection| {
        expect_whole(connection, b"abc");
        connection.send(Message::DataReceive { data: &3_u64.to_be_bytes() });
        connection.send(Message::SessionEndNotification);
    });
}

#[test]
fn the_sender_refuses_a_confirmation_before_all_is_sent() {
    let file = vec![5; 1_000_000];
    let outcome = send_at(std::io::Cursor::new(file.clone()), file.len() as u64, move |connection| {
        connection.send(Message::DataReceive { data: &confirmation(&file) });
        connection.drain();
    });
    assert_words(outcome.expect_err("not sent"), &[WRONG_COUNT, "0 of 1,000,000 bytes"]);
}

/// Where the last byte would be counted, it is confirmed instead.
#[test]
fn the_whole_length_is_not_counted() {
    let file = vec![5; 32_768];
    let (outcome, _) = receive_at(move |connection| {
        send_whole(connection, &file);
        connection.expect(Message::DataSend { data: &confirmation(&file) });
    });
    assert_eq!(outcome.expect("a file"), 32_768);
}
