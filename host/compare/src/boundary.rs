//! The C boundary as a trait, and the two codecs behind it.

use codec::{decode, Message, Refusal};
use engine::svsc::{self, Written};

pub trait Boundary {
    fn read(&self, message: &[u8]) -> svsc::Message;
    fn field(&self, message: &[u8], field: u32, buffer: &mut [u8]) -> Written;
    /// Calls the writer of the message's form with its fields, which may be outside their ranges.
    fn write(&self, message: &Message, buffer: &mut [u8]) -> Written;
}

/// The proved codec: the archive.
pub struct Proved;

impl Boundary for Proved {
    fn read(&self, message: &[u8]) -> svsc::Message {
        svsc::read(message)
    }

    fn field(&self, message: &[u8], field: u32, buffer: &mut [u8]) -> Written {
        svsc::field(message, field, buffer)
    }

    fn write(&self, message: &Message, to: &mut [u8]) -> Written {
        match *message {
            Message::ProtocolVersion { major, minor } => svsc::write_version(to, major, minor),
            Message::VersionAnswer { ok } => svsc::write_version_answer(to, ok),
            Message::LeaseRequest => svsc::write_lease_request(to),
            Message::LeaseRequestWithCookie { cookie } => svsc::write_lease_request_with_cookie(to, cookie),
            Message::LeaseRefused => svsc::write_lease_refused(to),
            Message::LeaseGranted { id, cookie, expiration } => svsc::write_lease_granted(to, id, cookie, expiration),
            Message::ExtensionRequest { cookie } => svsc::write_extension_request(to, cookie),
            Message::ExtensionRefused => svsc::write_extension_refused(to),
            Message::ExtensionGranted { expiration } => svsc::write_extension_granted(to, expiration),
            Message::EstablishRequest { id } => svsc::write_establish_request(to, id),
            Message::EstablishRefused { id, status } => svsc::write_establish_refused(to, id, status),
            Message::Established { id, session } => {
                svsc::write_established(to, id, session.id, session.peer, session.key)
            }
            Message::EstablishNotification { session } => {
                svsc::write_establish_notification(to, session.id, session.peer, session.key)
            }
            Message::SessionEnd => svsc::write_session_end(to),
            Message::SessionEndNotification => svsc::write_session_end_notification(to),
            Message::DataSend { data } => svsc::write_data_send(to, data),
            Message::DataReceive { data } => svsc::write_data_receive(to, data),
            Message::Keepalive => svsc::write_keepalive(to),
        }
    }
}

/// The second implementation, its answers put as include/svsc.h has them.
pub struct Second;

impl Boundary for Second {
    fn read(&self, message: &[u8]) -> svsc::Message {
        match decode(message) {
            Some(read) => svsc::Message { number: svsc::DONE, kind: message[0].into(), ..numbers(read) },
            None => svsc::Message { number: svsc::MALFORMED, ..svsc::Message::default() },
        }
    }

    fn field(&self, message: &[u8], field: u32, buffer: &mut [u8]) -> Written {
        if decode(message).is_none() {
            return Written { number: svsc::MALFORMED, length: 0 };
        }
        written(copy(field_of(message, field), buffer))
    }

    fn write(&self, message: &Message, buffer: &mut [u8]) -> Written {
        written(codec::write(message, buffer))
    }
}

/// The numbers that a message has; the others are 0.
fn numbers(message: Message) -> svsc::Message {
    let none = svsc::Message::default();
    match message {
        Message::ProtocolVersion { major, minor } => svsc::Message { major: major.into(), minor: minor.into(), ..none },
        Message::VersionAnswer { ok } => svsc::Message { flag: ok.into(), ..none },
        Message::LeaseRequestWithCookie { .. } => svsc::Message { flag: 1, ..none },
        Message::LeaseGranted { id, expiration, .. } => svsc::Message { flag: 1, id, expiration, ..none },
        Message::ExtensionGranted { expiration } => svsc::Message { flag: 1, expiration, ..none },
        Message::EstablishRefused { id, status } => svsc::Message { flag: status.into(), id, ..none },
        Message::EstablishRequest { id } | Message::Established { id, .. } => svsc::Message { id, ..none },
        _ => none,
    }
}

/// A field of bytes; empty where these bytes are no message or one without it.
pub fn field_of(message: &[u8], field: u32) -> &[u8] {
    match (decode(message), field) {
        (Some(Message::LeaseRequestWithCookie { cookie }), svsc::COOKIE)
        | (Some(Message::LeaseGranted { cookie, .. }), svsc::COOKIE)
        | (Some(Message::ExtensionRequest { cookie }), svsc::COOKIE) => cookie,
        (Some(Message::Established { session, .. } | Message::EstablishNotification { session }), _) => match field {
            svsc::SESSION => session.id,
            svsc::PEER => session.peer,
            svsc::KEY => session.key,
            _ => &[],
        },
        (Some(Message::DataSend { data } | Message::DataReceive { data }), svsc::DATA) => data,
        _ => &[],
    }
}

fn copy(bytes: &[u8], buffer: &mut [u8]) -> Result<usize, Refusal> {
    buffer.get_mut(..bytes.len()).ok_or(Refusal::Short)?.copy_from_slice(bytes);
    Ok(bytes.len())
}

fn written(answer: Result<usize, Refusal>) -> Written {
    match answer {
        Ok(length) => Written { number: svsc::DONE, length },
        Err(refusal) => Written { number: refusal as u32, length: 0 },
    }
}
