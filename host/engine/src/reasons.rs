//! The functions of include/crondelith.h that explain a call, name by name without the prefix `crondelith_explain_`: what
//! the relay would answer to it, and by how many units it can or can't be paid. They change nothing.

use std::mem::{align_of, offset_of, size_of};

/// The archive of these functions, for a C program to link too.
pub const ARCHIVE: &str = env!("CRONDELITH_LINKED_CRONDELITH_REASONS");

/// `crondelith_reason`.
#[repr(C)]
#[derive(Clone, Copy, Debug, PartialEq, Eq)]
pub struct Reason {
    /// 0, or the check that stops the call.
    pub check: u32,
    /// What was asked for by a call that is done: [`LEASE`], [`ESTABLISH`], or 0.
    pub request: u32,
    /// What decided it: of a lease 0, or the first of the four conditions that fails; of an establish the status; else 0.
    pub condition: u32,
    /// 1: there is a headroom.
    pub charged: u32,
    /// What the partner has left after the call, or, below 0, what it is short of; 0 where there is none.
    pub headroom: i64,
}

impl Reason {
    /// What the partner is short of, if that is what stops the call.
    pub fn shortfall(&self) -> Option<u64> {
        (self.headroom < 0).then(|| self.headroom.unsigned_abs())
    }
}

pub const LEASE: u32 = 1;
pub const ESTABLISH: u32 = 2;

// host/c/crondelith_reasons_check.c has the same numbers about the header's struct.
const _: () = assert!(size_of::<Reason>() == 24 && align_of::<Reason>() == 8 && offset_of!(Reason, headroom) == 16);

/// The three tables, to be read. Another length than the table's is what check 1 stops.
#[derive(Clone, Copy, Debug)]
pub struct Tables<'a> {
    pub connections: &'a [u8],
    pub leases: &'a [u8],
    pub allowances: &'a [u8],
}

declare_on_tables! {
    const -> Reason;
    crondelith_explain_open(now: u64, connection: u64, reply_length: u64);
    crondelith_explain_message(
        now: u64,
        connection: u64,
        message: *const u8,
        message_length: usize,
        random: *const u8,
        random_length: usize,
        reply_length: u64,
        relay_length: u64
    );
    crondelith_explain_close(now: u64, connection: u64, relay_length: u64);
    crondelith_explain_keepalive(now: u64, connection: u64, reply_length: u64, relay_length: u64);
}

/// Opening a connection, with a reply buffer of such a length.
pub fn open(tables: Tables, now: u64, connection: u64, reply_length: u64) -> Reason {
    call_on_tables!(crondelith_explain_open, tables.as_ptr, now, connection, reply_length)
}

/// A message from a connection, with buffers of such lengths.
pub fn message(
    tables: Tables,
    now: u64,
    connection: u64,
    message: &[u8],
    random: &[u8],
    reply_length: u64,
    relay_length: u64,
) -> Reason {
    call_on_tables!(
        crondelith_explain_message,
        tables.as_ptr,
        now,
        connection,
        message.as_ptr(),
        message.len(),
        random.as_ptr(),
        random.len(),
        reply_length,
        relay_length
    )
}

/// Closing a connection, with a relay buffer of such a length.
pub fn close(tables: Tables, now: u64, connection: u64, relay_length: u64) -> Reason {
    call_on_tables!(crondelith_explain_close, tables.as_ptr, now, connection, relay_length)
}

/// Finding out whether a connection is dead, with buffers of such lengths.
pub fn keepalive(tables: Tables, now: u64, connection: u64, reply_length: u64, relay_length: u64) -> Reason {
    call_on_tables!(crondelith_explain_keepalive, tables.as_ptr, now, connection, reply_length, relay_length)
}
