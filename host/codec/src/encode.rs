//! Messages to bytes.

use crate::message::{Message, Session};

/// Why a message isn't written, with the scope's answer number.
#[derive(Clone, Copy, Debug, PartialEq, Eq)]
pub enum Refusal {
    /// The buffer is too short for the message.
    Short = 5,
    /// A field is outside its range.
    Malformed = 6,
}

/// The bytes of a message; None where a field is outside its range.
pub fn encode(message: &Message) -> Option<Vec<u8>> {
    message.in_range().then(|| bytes_of(message))
}

/// Writes a message to the start of the buffer and gives its length. A refusal, the range before the room, changes
/// nothing.
pub fn write(message: &Message, buffer: &mut [u8]) -> Result<usize, Refusal> {
    let bytes = encode(message).ok_or(Refusal::Malformed)?;
    let room = buffer.get_mut(..bytes.len()).ok_or(Refusal::Short)?;
    room.copy_from_slice(&bytes);
    Ok(bytes.len())
}

/// The scope's table, row by row; numbers are most significant byte first.
fn bytes_of(message: &Message) -> Vec<u8> {
    match *message {
        Message::ProtocolVersion { major, minor } => {
            let text = format!("SVSC {major:03}.{minor:03}");
            [&[0], text.as_bytes()].concat()
        }
        Message::VersionAnswer { ok } => vec![1, ok],
        Message::LeaseRequest => vec![2, 0],
        Message::LeaseRequestWithCookie { cookie } => [&[2, 1], cookie].concat(),
        Message::LeaseRefused => vec![3, 0],
        Message::LeaseGranted { id, cookie, expiration } => {
            let (id, expiration) = (id.to_be_bytes(), expiration.to_be_bytes());
            [&[3, 1], &id[..], cookie, &expiration].concat()
        }
        Message::ExtensionRequest { cookie } => [&[4], cookie].concat(),
        Message::ExtensionRefused => vec![5, 0],
        Message::ExtensionGranted { expiration } => [&[5, 1], &expiration.to_be_bytes()[..]].concat(),
        Message::EstablishRequest { id } => [&[6], &id.to_be_bytes()[..]].concat(),
        Message::EstablishRefused { id, status } => [&[7], &id.to_be_bytes()[..], &[status]].concat(),
        Message::Established { id, session } => {
            [&[7], &id.to_be_bytes()[..], &[0], &bytes_of_session(session)].concat()
        }
        Message::EstablishNotification { session } => [&[8], &bytes_of_session(session)[..]].concat(),
        Message::SessionEnd => vec![9],
        Message::SessionEndNotification => vec![10],
        Message::DataSend { data } => [&[11], data].concat(),
        Message::DataReceive { data } => [&[12], data].concat(),
        Message::Keepalive => vec![13],
    }
}

fn bytes_of_session(session: Session) -> Vec<u8> {
    [session.id, session.peer, session.key].concat()
}
