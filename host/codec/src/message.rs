//! The eighteen forms of the fourteen messages, and the range of each field.

/// The highest major or minor version: "three digits".
pub const VERSION_LIMIT: u16 = 999;
pub const COOKIE_LENGTH: usize = 24;
pub const SESSION_FIELD_LENGTH: usize = 16;
/// The most data that a message carries: its whole length is at most 65,534, of which one byte is the type.
pub const DATA_LIMIT: usize = 65_533;

/// A message; types 2, 3, 5 and 7 have two forms each. A field's type can say more than its range has, so that a
/// writer can be asked for what it must refuse.
#[derive(Clone, Copy, Debug, PartialEq, Eq)]
pub enum Message<'a> {
    ProtocolVersion { major: u16, minor: u16 },
    VersionAnswer { ok: u8 },
    LeaseRequest,
    LeaseRequestWithCookie { cookie: &'a [u8] },
    LeaseRefused,
    LeaseGranted { id: u32, cookie: &'a [u8], expiration: u64 },
    ExtensionRequest { cookie: &'a [u8] },
    ExtensionRefused,
    ExtensionGranted { expiration: u64 },
    EstablishRequest { id: u32 },
    EstablishRefused { id: u32, status: u8 },
    Established { id: u32, session: Session<'a> },
    EstablishNotification { session: Session<'a> },
    SessionEnd,
    SessionEndNotification,
    DataSend { data: &'a [u8] },
    DataReceive { data: &'a [u8] },
    Keepalive,
}

/// What a peer is told of its session: session-id, peer-id and peer-key.
#[derive(Clone, Copy, Debug, PartialEq, Eq)]
pub struct Session<'a> {
    pub id: &'a [u8],
    pub peer: &'a [u8],
    pub key: &'a [u8],
}

impl Message<'_> {
    /// Whether each field is one that the table has.
    pub fn in_range(&self) -> bool {
        match *self {
            Self::ProtocolVersion { major, minor } => major.max(minor) <= VERSION_LIMIT,
            Self::VersionAnswer { ok } => ok <= 1,
            Self::LeaseRequestWithCookie { cookie }
            | Self::LeaseGranted { cookie, .. }
            | Self::ExtensionRequest { cookie } => cookie.len() == COOKIE_LENGTH,
            Self::EstablishRefused { status, .. } => (1..=5).contains(&status),
            Self::Established { session, .. } | Self::EstablishNotification { session } => session.in_range(),
            Self::DataSend { data } | Self::DataReceive { data } => data.len() <= DATA_LIMIT,
            // Ids and expirations fill their fields.
            Self::ExtensionGranted { .. } | Self::EstablishRequest { .. } => true,
            Self::LeaseRequest
            | Self::LeaseRefused
            | Self::ExtensionRefused
            | Self::SessionEnd
            | Self::SessionEndNotification
            | Self::Keepalive => true,
        }
    }
}

impl Session<'_> {
    fn in_range(&self) -> bool {
        [self.id, self.peer, self.key].iter().all(|field| field.len() == SESSION_FIELD_LENGTH)
    }
}
