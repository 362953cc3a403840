//! The relay over TCP: the proved engine behind sockets, buffers and a clock. One port per partner; messages framed as in
//! section 3.1 of the ScreenView paper.
//!
//! One thread does all of it (`event_loop`): bytes come in, whole messages are offered to the engine, and what it sends goes
//! out. A thread each for the log, the state file and the journal keep a slow terminal or disk from holding it up.

mod buffer_pool;
pub mod calls;
mod clock;
mod connection;
mod descriptors;
mod event_loop;
mod files;
mod input;
pub mod journal;
mod kept;
mod lease_term;
mod limits;
mod log;
mod message;
mod output;
mod port;
mod random;
mod refusal;
mod relay;
mod saver;
mod server;
mod sockets;
mod state_file;
mod statistics;
mod turns;

pub use clock::{Clock, JumpingClock, SystemClock, CLOCK_LIMIT};
pub use lease_term::{KeptTerm, LeaseTerm, NoTerm};
pub use limits::Limits;
pub use log::{Event, Log, LogFormat, Place, Said};
pub use port::{bind, bind_free, Listeners};
pub use refusal::{Consequence, Refusal};
pub use relay::Tables;
pub use server::{Server, Settings, Stopper};
pub use statistics::Statistics;

pub const PARTNERS: usize = 8;
/// Connections of each partner; number c belongs to partner c / 8.
pub const CONNECTIONS_EACH: usize = 8;
