//! include/crondelith.h, name by name without the prefix `crondelith_`: the relay.

use std::mem::{align_of, offset_of, size_of};

/// The archive of these functions, for a C program to link too.
pub const ARCHIVE: &str = env!("CRONDELITH_LINKED_CRONDELITH");

/// The sizes of the three tables.
pub const CONNECTIONS: usize = 4096;
pub const LEASES: usize = 5120;
pub const ALLOWANCES: usize = 144;
/// Random bytes that a message is lent.
pub const RANDOM: usize = 80;
/// The least reply buffer; a relay buffer also holds as many bytes as the message.
pub const BUFFER: usize = 64;
pub const NOBODY: u32 = 255;
/// Bytes of a record of the journal.
pub const RECORD: usize = 16;

/// `crondelith_answer`.
#[repr(C)]
#[derive(Clone, Copy, Debug, PartialEq, Eq)]
pub struct Answer {
    /// 0, or the check that refused the call: then nothing has changed.
    pub number: u32,
    /// Bytes at the start of the reply buffer, for the caller's connection.
    pub reply: u32,
    /// Bytes at the start of the relay buffer, for the destination.
    pub relay: u32,
    /// A connection, or [`NOBODY`].
    pub destination: u32,
    /// 1: the host has to disconnect the caller.
    pub disconnect: u32,
    /// The map of the connections afterwards: bit c, from the lowest, is 1 while connection c isn't closed.
    pub map: u64,
    /// The call's record in the journal; zero bytes on 1 to 3, and of a fresh start.
    pub record: Record,
}

/// A record of the journal, as bytes.
pub type Record = [u8; RECORD];

// host/c/crondelith_check.c has the same numbers about the header's struct.
const _: () = assert!(size_of::<Answer>() == 48 && align_of::<Answer>() == 8);
const _: () = assert!(offset_of!(Answer, map) == 24 && offset_of!(Answer, record) == 32);

/// The numbers in the order above, the map and the record apart.
impl From<([u32; 5], u64, Record)> for Answer {
    fn from(([number, reply, relay, destination, disconnect], map, record): ([u32; 5], u64, Record)) -> Self {
        Self { number, reply, relay, destination, disconnect, map, record }
    }
}

/// `crondelith_partner_connections`.
#[repr(C)]
#[derive(Clone, Copy, Debug, PartialEq, Eq)]
pub struct PartnerConnections {
    /// 0, or 3 if there is no such partner.
    pub number: u32,
    /// How many connections it has.
    pub connections: u32,
    /// The lowest of its numbers that is closed, or [`NOBODY`].
    pub lowest: u32,
}

const _: () = assert!(size_of::<PartnerConnections>() == 12 && align_of::<PartnerConnections>() == 4);

/// `crondelith_rebuilt`.
#[repr(C)]
#[derive(Clone, Copy, Debug, PartialEq, Eq)]
pub struct Rebuilt {
    /// 0, or 1 if the table has another size.
    pub number: u32,
    /// Or 0.
    pub map: u64,
}

const _: () = assert!(size_of::<Rebuilt>() == 16 && align_of::<Rebuilt>() == 8 && offset_of!(Rebuilt, map) == 8);

/// `crondelith_replayed`.
#[repr(C)]
#[derive(Clone, Copy, Debug, PartialEq, Eq)]
pub struct Replayed {
    /// 0, or 1, 2 or 6 as a fresh start is refused.
    pub number: u32,
    /// 1 if the journal is contradicted: then the allowances have not changed.
    pub contradicted: u32,
    /// The byte at which the first record that contradicts the rules begins, or what is left at the end; else 0.
    pub place: u64,
}

const _: () = assert!(size_of::<Replayed>() == 16 && align_of::<Replayed>() == 8 && offset_of!(Replayed, place) == 8);

/// The three tables, lent for a call. Another length than the table's is refused.
#[derive(Debug)]
pub struct Tables<'a> {
    pub connections: &'a mut [u8],
    pub leases: &'a mut [u8],
    pub allowances: &'a mut [u8],
}

declare_on_tables! {
    mut -> Answer;
    crondelith_fresh(map: u64, now: u64, term: u64);
    crondelith_open(map: u64, now: u64, connection: u64, reply: *mut u8, reply_length: usize);
    crondelith_message(
        map: u64,
        now: u64,
        connection: u64,
        message: *const u8,
        message_length: usize,
        random: *const u8,
        random_length: usize,
        reply: *mut u8,
        reply_length: usize,
        relay: *mut u8,
        relay_length: usize
    );
    crondelith_close(map: u64, now: u64, connection: u64, relay: *mut u8, relay_length: usize);
    crondelith_keepalive(
        map: u64,
        now: u64,
        connection: u64,
        reply: *mut u8,
        reply_length: usize,
        relay: *mut u8,
        relay_length: usize
    );
}

/// Makes a fresh relay of the tables, whose leases last so many seconds; 0 means 600. Its map is 0.
pub fn fresh(tables: Tables, map: u64, now: u64, term: u64) -> Answer {
    call_on_tables!(crondelith_fresh, tables.as_mut_ptr, map, now, term)
}

/// Opens a connection: the reply is the version message.
pub fn open(tables: Tables, map: u64, now: u64, connection: u64, reply: &mut [u8]) -> Answer {
    call_on_tables!(crondelith_open, tables.as_mut_ptr, map, now, connection, reply.as_mut_ptr(), reply.len())
}

/// Takes a message from a connection.
#[inline]
#[allow(clippy::too_many_arguments, reason = "they are those of the C function")]
pub fn message(
    tables: Tables,
    map: u64,
    now: u64,
    connection: u64,
    message: &[u8],
    random: &[u8],
    reply: &mut [u8],
    relay: &mut [u8],
) -> Answer {
    call_on_tables!(
        crondelith_message,
        tables.as_mut_ptr,
        map,
        now,
        connection,
        message.as_ptr(),
        message.len(),
        random.as_ptr(),
        random.len(),
        reply.as_mut_ptr(),
        reply.len(),
        relay.as_mut_ptr(),
        relay.len()
    )
}

/// Closes a connection.
pub fn close(tables: Tables, map: u64, now: u64, connection: u64, relay: &mut [u8]) -> Answer {
    call_on_tables!(crondelith_close, tables.as_mut_ptr, map, now, connection, relay.as_mut_ptr(), relay.len())
}

/// Finds out whether a connection is dead: it is closed, or asked, or nothing is due.
pub fn keepalive(tables: Tables, map: u64, now: u64, connection: u64, reply: &mut [u8], relay: &mut [u8]) -> Answer {
    call_on_tables!(
        crondelith_keepalive,
        tables.as_mut_ptr,
        map,
        now,
        connection,
        reply.as_mut_ptr(),
        reply.len(),
        relay.as_mut_ptr(),
        relay.len()
    )
}

mod map {
    extern "C" {
        pub fn crondelith_connections_of(map: u64, partner: u64) -> super::PartnerConnections;
        pub fn crondelith_rebuild(connections: *const u8, connections_length: usize) -> super::Rebuilt;
    }
}

/// How many connections a partner has, and which number a new one gets.
pub fn connections_of(map: u64, partner: u64) -> PartnerConnections {
    // SAFETY: two numbers go in, and numbers come out; the function is total.
    unsafe { map::crondelith_connections_of(map, partner) }
}

/// The map of a connection table.
pub fn rebuild(connections: &[u8]) -> Rebuilt {
    // SAFETY: the pointer and the length are those of a slice borrowed for the call; the function only reads within it.
    unsafe { map::crondelith_rebuild(connections.as_ptr(), connections.len()) }
}

mod journal {
    extern "C" {
        pub fn crondelith_replay(
            allowances: *mut u8,
            allowances_length: usize,
            journal: *const u8,
            journal_length: usize,
            now: u64,
            term: u64,
        ) -> super::Replayed;
        pub fn crondelith_replay_plain(
            allowances: *mut u8,
            allowances_length: usize,
            journal: *const u8,
            journal_length: usize,
            now: u64,
            term: u64,
        ) -> super::Replayed;
    }
}

/// The allowances after the calls of a journal, which begins with a fresh start at that time and with that term; or where it is contradicted.
pub fn replay(allowances: &mut [u8], journal: &[u8], now: u64, term: u64) -> Replayed {
    let (al, al_length) = (allowances.as_mut_ptr(), allowances.len());
    // SAFETY: the pointers and lengths are those of two slices borrowed for the call; the function stays within them.
    unsafe { journal::crondelith_replay(al, al_length, journal.as_ptr(), journal.len(), now, term) }
}

/// The same, by filling every level once for each second; each level is written at the time of the latest done record.
pub fn replay_plain(allowances: &mut [u8], journal: &[u8], now: u64, term: u64) -> Replayed {
    let (al, al_length) = (allowances.as_mut_ptr(), allowances.len());
    // SAFETY: as above.
    unsafe { journal::crondelith_replay_plain(al, al_length, journal.as_ptr(), journal.len(), now, term) }
}
