//! What a message call brings: the request that a peer sends, and random bytes.

use codec::{decode, Message};

use crate::records::{Session, State};

/// The messages "that peers send": types 1, 2, 4, 6, 9, 11, 13.
#[derive(Clone, Copy, Debug, PartialEq, Eq)]
pub enum Request<'a> {
    VersionAnswer {
        ok: bool,
    },
    /// "From now on a request's cookie is considered."
    Lease {
        cookie: Option<&'a [u8]>,
    },
    Extension {
        cookie: &'a [u8],
    },
    Establish {
        id: u32,
    },
    SessionEnd,
    Data {
        data: &'a [u8],
    },
    Keepalive,
}

impl<'a> Request<'a> {
    /// None for what is no message or one that peers don't send.
    pub fn decode(bytes: &'a [u8]) -> Option<Self> {
        match decode(bytes)? {
            Message::VersionAnswer { ok } => Some(Self::VersionAnswer { ok: ok == 1 }),
            Message::LeaseRequest => Some(Self::Lease { cookie: None }),
            Message::LeaseRequestWithCookie { cookie } => Some(Self::Lease { cookie: Some(cookie) }),
            Message::ExtensionRequest { cookie } => Some(Self::Extension { cookie }),
            Message::EstablishRequest { id } => Some(Self::Establish { id }),
            Message::SessionEnd => Some(Self::SessionEnd),
            Message::DataSend { data } => Some(Self::Data { data }),
            Message::Keepalive => Some(Self::Keepalive),
            _ => None,
        }
    }

    /// "awaiting permits 1 only, open permits 2, 4, 6, 9, 11, 13"
    pub fn permitted_in(&self, state: State) -> bool {
        match state {
            State::Closed => false,
            State::Awaiting => matches!(self, Self::VersionAnswer { .. }),
            State::Open => !matches!(self, Self::VersionAnswer { .. }),
        }
    }

    pub fn needs_session(&self) -> bool {
        matches!(self, Self::SessionEnd | Self::Data { .. })
    }
}

/// The scope's draw: 80 random bytes, with which a lease or a session is made.
#[derive(Clone, Copy, Debug)]
pub struct RandomBytes<'a>(&'a [u8; 80]);

impl<'a> RandomBytes<'a> {
    /// None unless there are 80.
    pub fn new(bytes: &'a [u8]) -> Option<Self> {
        bytes.try_into().ok().map(Self)
    }

    /// Bytes 0 to 23, a new lease's cookie.
    pub fn cookie(&self) -> [u8; 24] {
        self.part(0)
    }

    /// "Draw bytes 24-79 are fourteen candidates of four bytes, each taken modulo 67,108,864"
    pub fn candidates(&self) -> impl Iterator<Item = u32> + use<'a> {
        self.0[24..].chunks_exact(4).map(|bytes| u32::from_be_bytes(bytes.try_into().expect("four bytes")) % 67_108_864)
    }

    /// "session-id (0-15), caller's peer-id and peer-key (16-31, 32-47)"
    pub fn session_of_caller(&self) -> Session {
        Session { id: self.part(0), peer: self.part(16), key: self.part(32) }
    }

    /// The same session-id, "holder's peer-id and peer-key (48-63, 64-79)"
    pub fn session_of_holder(&self) -> Session {
        Session { id: self.part(0), peer: self.part(48), key: self.part(64) }
    }

    fn part<const N: usize>(&self, from: usize) -> [u8; N] {
        self.0[from..from + N].try_into().expect("a part as long as the array")
    }
}
