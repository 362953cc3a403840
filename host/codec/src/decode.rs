//! Bytes to messages.

use crate::cursor::Cursor;
use crate::message::{Message, Session, COOKIE_LENGTH, SESSION_FIELD_LENGTH};

/// The message that these bytes are, all of them; None for whatever the table hasn't got.
pub fn decode(bytes: &[u8]) -> Option<Message<'_>> {
    let mut cursor = Cursor::new(bytes);
    let message = take_message(&mut cursor)?;
    (cursor.is_empty() && message.in_range()).then_some(message)
}

/// Takes a message without looking at the ranges of its fields.
fn take_message<'a>(from: &mut Cursor<'a>) -> Option<Message<'a>> {
    match from.u8()? {
        0 => take_version(from),
        1 => Some(Message::VersionAnswer { ok: from.u8()? }),
        2 => take_lease_request(from),
        3 => take_lease_response(from),
        4 => Some(Message::ExtensionRequest { cookie: from.take(COOKIE_LENGTH)? }),
        5 => take_extension_response(from),
        6 => Some(Message::EstablishRequest { id: from.u32()? }),
        7 => take_establish_response(from),
        8 => Some(Message::EstablishNotification { session: take_session(from)? }),
        9 => Some(Message::SessionEnd),
        10 => Some(Message::SessionEndNotification),
        11 => Some(Message::DataSend { data: from.take_rest() }),
        12 => Some(Message::DataReceive { data: from.take_rest() }),
        13 => Some(Message::Keepalive),
        _ => None,
    }
}

fn take_version<'a>(from: &mut Cursor<'a>) -> Option<Message<'a>> {
    from.literal(b"SVSC ")?;
    let major = from.three_digits()?;
    from.literal(b".")?;
    let minor = from.three_digits()?;
    Some(Message::ProtocolVersion { major, minor })
}

fn take_lease_request<'a>(from: &mut Cursor<'a>) -> Option<Message<'a>> {
    if !take_flag(from)? {
        return Some(Message::LeaseRequest);
    }
    let cookie = from.take(COOKIE_LENGTH)?;
    Some(Message::LeaseRequestWithCookie { cookie })
}

fn take_lease_response<'a>(from: &mut Cursor<'a>) -> Option<Message<'a>> {
    if !take_flag(from)? {
        return Some(Message::LeaseRefused);
    }
    let id = from.u32()?;
    let cookie = from.take(COOKIE_LENGTH)?;
    let expiration = from.u64()?;
    Some(Message::LeaseGranted { id, cookie, expiration })
}

fn take_extension_response<'a>(from: &mut Cursor<'a>) -> Option<Message<'a>> {
    if !take_flag(from)? {
        return Some(Message::ExtensionRefused);
    }
    let expiration = from.u64()?;
    Some(Message::ExtensionGranted { expiration })
}

fn take_establish_response<'a>(from: &mut Cursor<'a>) -> Option<Message<'a>> {
    let id = from.u32()?;
    let status = from.u8()?;
    if status != 0 {
        return Some(Message::EstablishRefused { id, status });
    }
    let session = take_session(from)?;
    Some(Message::Established { id, session })
}

fn take_session<'a>(from: &mut Cursor<'a>) -> Option<Session<'a>> {
    Some(Session {
        id: from.take(SESSION_FIELD_LENGTH)?,
        peer: from.take(SESSION_FIELD_LENGTH)?,
        key: from.take(SESSION_FIELD_LENGTH)?,
    })
}

/// Takes the byte that says whether the long form follows: 0 or 1.
fn take_flag(from: &mut Cursor) -> Option<bool> {
    match from.u8()? {
        0 => Some(false),
        1 => Some(true),
        _ => None,
    }
}
