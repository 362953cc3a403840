//! Messages to try: each of the eighteen forms with random fields, and with its fields at the edges of their ranges.

use codec::{Message, Session, COOKIE_LENGTH, DATA_LIMIT, SESSION_FIELD_LENGTH, VERSION_LIMIT};

use crate::random::Random;

/// The fourteen types, by first byte.
pub const TYPES: [&str; 14] = [
    "ProtocolVersion",
    "version answer",
    "LeaseRequest",
    "LeaseResponse",
    "LeaseExtensionRequest",
    "LeaseExtensionResponse",
    "EstablishSessionRequest",
    "EstablishSessionResponse",
    "EstablishSessionNotification",
    "SessionEnd",
    "SessionEndNotification",
    "SessionDataSend",
    "SessionDataReceive",
    "Keepalive",
];

/// Data around the limit, and hardly any.
pub const DATA_LENGTHS: [usize; 6] = [0, 1, DATA_LIMIT - 1, DATA_LIMIT, DATA_LIMIT + 1, DATA_LIMIT + 2];

const VERSIONS: [u16; 5] = [0, 1, VERSION_LIMIT, VERSION_LIMIT + 1, u16::MAX];
const OKS: [u8; 4] = [0, 1, 2, 255];
const STATUSES: [u8; 8] = [0, 1, 2, 3, 4, 5, 6, 255];
const IDS: [u32; 7] = [0, 1, 255, 256, (1 << 26) - 1, 1 << 26, u32::MAX];
const EXPIRATIONS: [u64; 7] = [0, 1, 255, 256, u32::MAX as u64 + 1, 1 << 40, u64::MAX];

/// The type that the first byte says.
pub fn type_name(message: &[u8]) -> &'static str {
    match message.first() {
        None => "empty",
        Some(&first) => TYPES.get(usize::from(first)).unwrap_or(&"unknown type"),
    }
}

/// The message's form, for counts and differences.
pub fn name(message: &Message) -> &'static str {
    match message {
        Message::ProtocolVersion { .. } => "ProtocolVersion",
        Message::VersionAnswer { .. } => "VersionAnswer",
        Message::LeaseRequest => "LeaseRequest",
        Message::LeaseRequestWithCookie { .. } => "LeaseRequestWithCookie",
        Message::LeaseRefused => "LeaseRefused",
        Message::LeaseGranted { .. } => "LeaseGranted",
        Message::ExtensionRequest { .. } => "ExtensionRequest",
        Message::ExtensionRefused => "ExtensionRefused",
        Message::ExtensionGranted { .. } => "ExtensionGranted",
        Message::EstablishRequest { .. } => "EstablishRequest",
        Message::EstablishRefused { .. } => "EstablishRefused",
        Message::Established { .. } => "Established",
        Message::EstablishNotification { .. } => "EstablishNotification",
        Message::SessionEnd => "SessionEnd",
        Message::SessionEndNotification => "SessionEndNotification",
        Message::DataSend { .. } => "DataSend",
        Message::DataReceive { .. } => "DataReceive",
        Message::Keepalive => "Keepalive",
    }
}

/// Random bytes to take fields from, enough for the longest data.
pub fn pool(random: &mut Random) -> Vec<u8> {
    random.bytes(DATA_LIMIT + 300)
}

/// A message of each form, its fields random and in range.
pub fn one_of_each<'a>(random: &mut Random, pool: &'a [u8]) -> [Message<'a>; 18] {
    let id = random.number() as u32;
    let expiration = random.number();
    let cookie = random.part(pool, COOKIE_LENGTH);
    let session = session(random, pool, [SESSION_FIELD_LENGTH; 3]);
    let length = random.below(200);
    let data = random.part(pool, length);
    [
        Message::ProtocolVersion { major: random.below(1000) as u16, minor: random.below(1000) as u16 },
        Message::VersionAnswer { ok: random.below(2) as u8 },
        Message::LeaseRequest,
        Message::LeaseRequestWithCookie { cookie },
        Message::LeaseRefused,
        Message::LeaseGranted { id, cookie, expiration },
        Message::ExtensionRequest { cookie },
        Message::ExtensionRefused,
        Message::ExtensionGranted { expiration },
        Message::EstablishRequest { id },
        Message::EstablishRefused { id, status: 1 + random.below(5) as u8 },
        Message::Established { id, session },
        Message::EstablishNotification { session },
        Message::SessionEnd,
        Message::SessionEndNotification,
        Message::DataSend { data },
        Message::DataReceive { data },
        Message::Keepalive,
    ]
}

/// Every form but the two of data, with each field in turn at and beyond its edges.
pub fn edges<'a>(random: &mut Random, pool: &'a [u8]) -> Vec<Message<'a>> {
    let cookies = lengths_around(COOKIE_LENGTH).map(|length| random.part(pool, length));
    let mut messages = vec![
        Message::LeaseRequest,
        Message::LeaseRefused,
        Message::ExtensionRefused,
        Message::SessionEnd,
        Message::SessionEndNotification,
        Message::Keepalive,
    ];
    messages.extend(pairs(VERSIONS, VERSIONS).map(|(major, minor)| Message::ProtocolVersion { major, minor }));
    messages.extend(OKS.map(|ok| Message::VersionAnswer { ok }));
    messages.extend(cookies.map(|cookie| Message::LeaseRequestWithCookie { cookie }));
    for cookie in cookies {
        let granted = |(id, expiration)| Message::LeaseGranted { id, cookie, expiration };
        messages.extend(pairs(IDS, EXPIRATIONS).map(granted));
    }
    messages.extend(cookies.map(|cookie| Message::ExtensionRequest { cookie }));
    messages.extend(EXPIRATIONS.map(|expiration| Message::ExtensionGranted { expiration }));
    messages.extend(IDS.map(|id| Message::EstablishRequest { id }));
    messages.extend(pairs(IDS, STATUSES).map(|(id, status)| Message::EstablishRefused { id, status }));
    for session in sessions_around(random, pool) {
        messages.extend(IDS.map(|id| Message::Established { id, session }));
        messages.push(Message::EstablishNotification { session });
    }
    messages
}

/// Both forms of data, with as much as this.
pub fn with_data(data: &[u8]) -> [Message<'_>; 2] {
    [Message::DataSend { data }, Message::DataReceive { data }]
}

/// Sessions whose fields have every mixture of lengths around the right one.
fn sessions_around<'a>(random: &mut Random, pool: &'a [u8]) -> Vec<Session<'a>> {
    let lengths = lengths_around(SESSION_FIELD_LENGTH);
    let mixtures = pairs(lengths, lengths).flat_map(|(id, peer)| lengths.map(|key| [id, peer, key]));
    mixtures.map(|mixture| session(random, pool, mixture)).collect()
}

fn session<'a>(random: &mut Random, pool: &'a [u8], lengths: [usize; 3]) -> Session<'a> {
    let [id, peer, key] = lengths.map(|length| random.part(pool, length));
    Session { id, peer, key }
}

/// None, one fewer, just as many, one more.
fn lengths_around(length: usize) -> [usize; 4] {
    [0, length - 1, length, length + 1]
}

fn pairs<A: Copy, B: Copy, const N: usize, const M: usize>(
    left: [A; N],
    right: [B; M],
) -> impl Iterator<Item = (A, B)> {
    left.into_iter().flat_map(move |a| right.map(|b| (a, b)))
}
