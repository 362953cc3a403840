//! The comparison can fail: each of these wrong answers is noticed, and the right one isn't.

use codec::{encode, Message};
use compare::agree;
use compare::boundary::{Boundary, Second};
use engine::svsc::{self, Written};

/// Answers as the second implementation does, and then spoils something.
#[derive(Clone, Copy)]
struct Spoiled {
    message: fn(&mut svsc::Message),
    written: fn(&mut Written),
    buffer: fn(&mut [u8]),
}

const UNSPOILED: Spoiled = Spoiled { message: |_| {}, written: |_| {}, buffer: |_| {} };

const SPOILED_MESSAGES: [fn(&mut svsc::Message); 7] = [
    |message| message.number ^= 6,
    |message| message.kind += 1,
    |message| message.flag ^= 1,
    |message| message.major += 1,
    |message| message.minor += 1,
    |message| message.id ^= 1 << 31,
    |message| message.expiration ^= 1 << 63,
];

const SPOILED_CALLS: [Spoiled; 4] = [
    Spoiled { written: |written| written.number ^= 1, ..UNSPOILED },
    Spoiled { written: |written| written.length += 1, ..UNSPOILED },
    Spoiled { buffer: |buffer| buffer[0] ^= 1, ..UNSPOILED },
    Spoiled { buffer: |buffer| *buffer.last_mut().expect("a buffer with room") ^= 1, ..UNSPOILED },
];

impl Boundary for Spoiled {
    fn read(&self, message: &[u8]) -> svsc::Message {
        let mut read = Second.read(message);
        (self.message)(&mut read);
        read
    }

    fn field(&self, message: &[u8], field: u32, buffer: &mut [u8]) -> Written {
        self.spoil(Second.field(message, field, buffer), buffer)
    }

    fn write(&self, message: &Message, buffer: &mut [u8]) -> Written {
        self.spoil(Second.write(message, buffer), buffer)
    }
}

impl Spoiled {
    fn spoil(&self, mut written: Written, buffer: &mut [u8]) -> Written {
        (self.written)(&mut written);
        (self.buffer)(buffer);
        written
    }
}

const COOKIE: &[u8] = &[7; 24];
const SHORT_COOKIE: &[u8] = &[7; 23];

#[test]
fn a_wrong_number_of_a_message() {
    let bytes = encode(&Message::ExtensionRequest { cookie: COOKIE }).expect("a cookie of 24 bytes");
    for input in [&bytes[..], &bytes[1..]] {
        assert!(agree::read(&UNSPOILED, input).is_ok());
        for message in SPOILED_MESSAGES {
            assert!(agree::read(&Spoiled { message, ..UNSPOILED }, input).is_err());
        }
    }
}

#[test]
fn a_wrong_answer_or_byte_of_a_field() {
    let bytes = encode(&Message::ExtensionRequest { cookie: COOKIE }).expect("a cookie of 24 bytes");
    for input in [&bytes[..], &bytes[1..]] {
        for (field, room) in [(svsc::COOKIE, 23), (svsc::COOKIE, 24), (svsc::COOKIE, 25), (svsc::DATA, 3)] {
            assert!(agree::field(&UNSPOILED, input, field, room).is_ok());
            for spoiled in SPOILED_CALLS {
                assert!(agree::field(&spoiled, input, field, room).is_err());
            }
        }
    }
}

#[test]
fn a_wrong_answer_or_byte_of_a_writer() {
    for (cookie, room) in [(COOKIE, 24), (COOKIE, 25), (COOKIE, 26), (SHORT_COOKIE, 26)] {
        let message = Message::ExtensionRequest { cookie };
        assert!(agree::write(&UNSPOILED, &message, room).is_ok());
        for spoiled in SPOILED_CALLS {
            assert!(agree::write(&spoiled, &message, room).is_err());
        }
    }
}
