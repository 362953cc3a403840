//! A peer of the relay: it connects, leases an id, establishes sessions, and sends and receives files.
//!
//! # A file over a session
//!
//! A session carries bytes and gives them no meaning, so the transfer has a format of its own:
//!
//! 1. The sender's first data message is the file's length: 8 bytes, most significant first.
//! 2. The file's bytes follow in data messages of any size, and after the last of them the SHA-256 digest of all, in a
//!    data message of exactly 32 bytes.
//! 3. The receiver answers now and then with the count of bytes that it has, 8 bytes likewise. The sender is never far
//!    ahead of these counts.
//! 4. Once the receiver has kept the file, which it does only if it has that digest, it confirms it by 40 bytes: the
//!    count and the digest of what it kept. If these are the sender's own, the sender ends the session.
//!
//! A session that ends before all has come is a failed transfer for the receiver, one that ends before the confirmation
//! for the sender. After an error in a transfer the connection is closed, by which the other side's session ends too.

mod address;
mod connection;
mod cookie_file;
mod disk;
mod error;
mod fingerprint;
mod heartbeat;
mod lease;
mod part_file;
mod patience;
mod peer;
mod progress;
mod receive;
mod routine;
mod send;
mod session;
mod source_file;

pub use address::{AddressError, RelayAddress};
pub use connection::Closer;
pub use cookie_file::{Access, Backup, CookieFile};
pub use disk::{Disk, SystemDisk};
pub use error::Error;
pub use fingerprint::{Fingerprint, DIGEST_LENGTH};
pub use heartbeat::SILENCE;
pub use lease::{Cookie, Lease, EXTENSION_WAIT};
pub use part_file::PartFile;
pub use patience::Patience;
pub use peer::Peer;
pub use progress::{grouped, text, Meter, Progress};
pub use receive::{confirm, receive_contents, receive_file};
pub use send::{send_contents, send_file, MESSAGE_SIZE};
pub use source_file::SourceFile;

/// Bytes of a file's length and of the receiver's counts.
const COUNT_LENGTH: usize = 8;
