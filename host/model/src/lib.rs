//! The relay, written from the project's scope and requests alone: a second implementation that shares nothing with the
//! proved one but the papers. The three tables are decoded to typed records ([`Relay`]), a call acts on these, and what
//! it leaves is encoded again if the call is accepted, with the map beside them. [`reasons`] says of a call, without making it, why it is turned
//! away or what decides it. [`replay()`] works out from the calls' records alone what they leave of the allowances.

mod calls;
mod checks;
mod journal;
mod keepalives;
mod leases;
mod levels;
mod maps;
mod plan;
pub mod reasons;
mod records;
mod relay;
mod renewals;
mod replay;
mod requests;
mod sessions;
mod terms;

pub use calls::{close, fresh, keepalive, message, open, Answer};
pub use checks::Refusal;
pub use journal::Entry;
pub use keepalives::{Due, ANSWER_TIMEOUT, KEEPALIVE_TIMEOUT};
pub use leases::{Condition, Offer};
pub use levels::{FilledEachSecond, Levels, RefilledWhenRead};
pub use maps::{connections_of, rebuild, PartnerConnections, Rebuilt};
pub use plan::BASE_COST;
pub use records::{Allowance, Common, Connection, Lease, Record, Session, State};
pub use relay::{partner_of, partner_of_row, Relay, Tables, CONNECTIONS, LEASES, PARTNERS};
pub use renewals::Part;
pub use replay::{replay, replay_plain, Contradiction, Ledger, Replayed};
pub use requests::{RandomBytes, Request};
pub use terms::{StoredTerm, OLD_TERM, TERMS, USUAL_TERM};

/// No connection: as a peer, a holder or a destination.
pub const NOBODY: u8 = 255;
/// Times are below this: "the reading is 2^40 or more" is refused.
pub const TIME_LIMIT: u64 = 1 << 40;
/// The most that a partner's level can be.
pub const LEVEL_LIMIT: u64 = 262_144;
/// What a level gains with each second, up to the limit.
pub const REFILL: u64 = 65_536;
