//! Each of the eighteen forms against bytes written out by hand, there and back.

use codec::{decode, encode, write, Message, Refusal, Session, COOKIE_LENGTH};

const COOKIE: &[u8; COOKIE_LENGTH] = b"the cookie's twenty-four";
const SESSION: Session = Session { id: b"the session's id", peer: b"the peer's own i", key: b"the peer's own k" };

/// A message of each form, and its bytes.
const FORMS: [(Message, &[u8]); 18] = [
    (Message::ProtocolVersion { major: 12, minor: 345 }, b"\x00SVSC 012.345"),
    (Message::VersionAnswer { ok: 1 }, &[1, 1]),
    (Message::LeaseRequest, &[2, 0]),
    (Message::LeaseRequestWithCookie { cookie: COOKIE }, b"\x02\x01the cookie's twenty-four"),
    (Message::LeaseRefused, &[3, 0]),
    (
        Message::LeaseGranted { id: 0x01020304, cookie: COOKIE, expiration: 0x05060708090a0b0c },
        b"\x03\x01\x01\x02\x03\x04the cookie's twenty-four\x05\x06\x07\x08\x09\x0a\x0b\x0c",
    ),
    (Message::ExtensionRequest { cookie: COOKIE }, b"\x04the cookie's twenty-four"),
    (Message::ExtensionRefused, &[5, 0]),
    (Message::ExtensionGranted { expiration: 0x0102030405060708 }, &[5, 1, 1, 2, 3, 4, 5, 6, 7, 8]),
    (Message::EstablishRequest { id: 0xfffefdfc }, &[6, 255, 254, 253, 252]),
    (Message::EstablishRefused { id: 0x04030201, status: 5 }, &[7, 4, 3, 2, 1, 5]),
    (
        Message::Established { id: 256, session: SESSION },
        b"\x07\x00\x00\x01\x00\x00the session's idthe peer's own ithe peer's own k",
    ),
    (Message::EstablishNotification { session: SESSION }, b"\x08the session's idthe peer's own ithe peer's own k"),
    (Message::SessionEnd, &[9]),
    (Message::SessionEndNotification, &[10]),
    (Message::DataSend { data: b"" }, &[11]),
    (Message::DataReceive { data: b"any bytes" }, b"\x0cany bytes"),
    (Message::Keepalive, &[13]),
];

#[test]
fn each_form_has_its_bytes() {
    for (message, bytes) in FORMS {
        assert_eq!(encode(&message).as_deref(), Some(bytes), "{message:?}");
        assert_eq!(decode(bytes), Some(message), "{bytes:?}");
    }
}

/// Data may have any length below the limit; every other form has one length.
#[test]
fn a_byte_more_or_fewer_is_another_message_or_none() {
    for (message, bytes) in FORMS {
        let longer = [bytes, &[0]].concat();
        for other in [&longer, &bytes[..bytes.len() - 1]] {
            let read = decode(other);
            let has_data = matches!(message, Message::DataSend { .. } | Message::DataReceive { .. });
            assert_ne!(read, Some(message));
            assert_eq!(read.is_some(), has_data && !other.is_empty(), "{other:?}");
        }
    }
}

#[test]
fn a_write_keeps_the_bytes_behind_it_and_a_refused_one_all() {
    for (message, bytes) in FORMS {
        for room in 0..bytes.len() + 3 {
            let mut buffer = vec![0xaa; room];
            let written = write(&message, &mut buffer);
            if room < bytes.len() {
                assert_eq!(written, Err(Refusal::Short));
                assert_eq!(buffer, vec![0xaa; room]);
            } else {
                assert_eq!(written, Ok(bytes.len()));
                assert_eq!(buffer, [bytes, &[0xaa, 0xaa][..room - bytes.len()]].concat());
            }
        }
    }
}
