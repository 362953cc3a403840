//! Establishing and ending a session.

use codec::Message;

use crate::{Error, Peer};

impl Peer {
    /// Establishes a session with the holder of an id.
    pub fn establish(&mut self, id: u32) -> Result<(), Error> {
        self.send(&Message::EstablishRequest { id })?;
        self.answer(|message| match message {
            Message::Established { id: of, .. } if of == id => Some(Ok(())),
            Message::EstablishRefused { id: of, status } if of == id => {
                Some(Err(Error::EstablishRefused { id, status }))
            }
            _ => None,
        })?
    }

    pub fn end_session(&mut self) -> Result<(), Error> {
        self.send(&Message::SessionEnd)
    }
}

/// The status of a session that isn't established, in words.
pub(crate) fn refusal(id: u32, status: u8) -> String {
    match status {
        1 => format!("no id {id} is leased under this partner; it may be mistyped, expired, or another partner's"),
        2 => format!("the holder of id {id} is offline; its lease runs, but its connection is gone"),
        3 => format!("the holder of id {id} is busy with another session"),
        4 => "this peer is busy: it has a session already".into(),
        5 => format!("id {id} is this peer's own, and it can't have a session with itself"),
        _ => format!("the relay refused a session with id {id} by the unknown status {status}"),
    }
}
