//! include/svsc.h, name by name without the prefix `svsc_`: the codec of the ScreenView server protocol.

use std::mem::{offset_of, size_of};

/// The archive of these functions, for a C program to link too.
pub const ARCHIVE: &str = env!("CRONDELITH_LINKED_SVSC");

pub const DONE: u32 = 0;
/// The buffer is too short.
pub const SHORT: u32 = 5;
/// Not a message, or a field outside its range.
pub const MALFORMED: u32 = 6;

/// Fields of bytes, for [`field`].
pub const COOKIE: u32 = 0;
pub const SESSION: u32 = 1;
pub const PEER: u32 = 2;
pub const KEY: u32 = 3;
pub const DATA: u32 = 4;

/// A message as numbers, `svsc_message`; `kind` is its `type`, which is a word of Rust's own.
#[repr(C)]
#[derive(Clone, Copy, Debug, Default, PartialEq, Eq)]
pub struct Message {
    pub number: u32,
    pub kind: u32,
    pub flag: u32,
    pub major: u32,
    pub minor: u32,
    pub id: u32,
    pub expiration: u64,
}

/// What a call did to its buffer, `svsc_written`.
#[repr(C)]
#[derive(Clone, Copy, Debug, PartialEq, Eq)]
pub struct Written {
    pub number: u32,
    pub length: usize,
}

// host/c/svsc_check.c has the same numbers about the header's structs.
const _: () = assert!(size_of::<Message>() == 32 && offset_of!(Message, expiration) == 24);
const _: () = assert!(size_of::<Written>() == 16 && offset_of!(Written, length) == 8);

mod c {
    use super::{Message, Written};

    extern "C" {
        pub fn svsc_read(message: *const u8, message_length: usize) -> Message;
        pub fn svsc_field(
            message: *const u8,
            message_length: usize,
            field: u32,
            buffer: *mut u8,
            buffer_length: usize,
        ) -> Written;
        pub fn svsc_write_version(buffer: *mut u8, buffer_length: usize, major: u16, minor: u16) -> Written;
        pub fn svsc_write_version_answer(buffer: *mut u8, buffer_length: usize, ok: u8) -> Written;
        pub fn svsc_write_lease_request(buffer: *mut u8, buffer_length: usize) -> Written;
        pub fn svsc_write_lease_request_with_cookie(
            buffer: *mut u8,
            buffer_length: usize,
            cookie: *const u8,
            cookie_length: usize,
        ) -> Written;
        pub fn svsc_write_lease_refused(buffer: *mut u8, buffer_length: usize) -> Written;
        pub fn svsc_write_lease_granted(
            buffer: *mut u8,
            buffer_length: usize,
            id: u32,
            cookie: *const u8,
            cookie_length: usize,
            expiration: u64,
        ) -> Written;
        pub fn svsc_write_extension_request(
            buffer: *mut u8,
            buffer_length: usize,
            cookie: *const u8,
            cookie_length: usize,
        ) -> Written;
        pub fn svsc_write_extension_refused(buffer: *mut u8, buffer_length: usize) -> Written;
        pub fn svsc_write_extension_granted(buffer: *mut u8, buffer_length: usize, expiration: u64) -> Written;
        pub fn svsc_write_establish_request(buffer: *mut u8, buffer_length: usize, id: u32) -> Written;
        pub fn svsc_write_establish_refused(buffer: *mut u8, buffer_length: usize, id: u32, status: u8) -> Written;
        pub fn svsc_write_established(
            buffer: *mut u8,
            buffer_length: usize,
            id: u32,
            session: *const u8,
            session_length: usize,
            peer: *const u8,
            peer_length: usize,
            key: *const u8,
            key_length: usize,
        ) -> Written;
        pub fn svsc_write_establish_notification(
            buffer: *mut u8,
            buffer_length: usize,
            session: *const u8,
            session_length: usize,
            peer: *const u8,
            peer_length: usize,
            key: *const u8,
            key_length: usize,
        ) -> Written;
        pub fn svsc_write_session_end(buffer: *mut u8, buffer_length: usize) -> Written;
        pub fn svsc_write_session_end_notification(buffer: *mut u8, buffer_length: usize) -> Written;
        pub fn svsc_write_data_send(
            buffer: *mut u8,
            buffer_length: usize,
            bytes: *const u8,
            bytes_length: usize,
        ) -> Written;
        pub fn svsc_write_data_receive(
            buffer: *mut u8,
            buffer_length: usize,
            bytes: *const u8,
            bytes_length: usize,
        ) -> Written;
        pub fn svsc_write_keepalive(buffer: *mut u8, buffer_length: usize) -> Written;
    }
}

// SAFETY of every call below: the pointer and length are those of a slice borrowed for the call, so the memory is
// there, and a `&mut` buffer overlaps nothing else. The functions are total, stay within the lengths they are given
// and keep no pointer, as proved of them. That the declarations above are the header's is what the tests of `compare`
// show, by calling each function with every kind of argument.

/// Reads a message as numbers.
pub fn read(message: &[u8]) -> Message {
    unsafe { c::svsc_read(message.as_ptr(), message.len()) }
}

/// Copies a field of bytes of a message into the buffer; [`MALFORMED`] where the bytes are no message.
pub fn field(message: &[u8], field: u32, buffer: &mut [u8]) -> Written {
    let (at, room) = (buffer.as_mut_ptr(), buffer.len());
    unsafe { c::svsc_field(message.as_ptr(), message.len(), field, at, room) }
}

pub fn write_version(buffer: &mut [u8], major: u16, minor: u16) -> Written {
    unsafe { c::svsc_write_version(buffer.as_mut_ptr(), buffer.len(), major, minor) }
}

pub fn write_version_answer(buffer: &mut [u8], ok: u8) -> Written {
    unsafe { c::svsc_write_version_answer(buffer.as_mut_ptr(), buffer.len(), ok) }
}

pub fn write_lease_request(buffer: &mut [u8]) -> Written {
    unsafe { c::svsc_write_lease_request(buffer.as_mut_ptr(), buffer.len()) }
}

pub fn write_lease_request_with_cookie(buffer: &mut [u8], cookie: &[u8]) -> Written {
    let (at, room) = (buffer.as_mut_ptr(), buffer.len());
    unsafe { c::svsc_write_lease_request_with_cookie(at, room, cookie.as_ptr(), cookie.len()) }
}

pub fn write_lease_refused(buffer: &mut [u8]) -> Written {
    unsafe { c::svsc_write_lease_refused(buffer.as_mut_ptr(), buffer.len()) }
}

pub fn write_lease_granted(buffer: &mut [u8], id: u32, cookie: &[u8], expiration: u64) -> Written {
    let (at, room) = (buffer.as_mut_ptr(), buffer.len());
    unsafe { c::svsc_write_lease_granted(at, room, id, cookie.as_ptr(), cookie.len(), expiration) }
}

pub fn write_extension_request(buffer: &mut [u8], cookie: &[u8]) -> Written {
    let (at, room) = (buffer.as_mut_ptr(), buffer.len());
    unsafe { c::svsc_write_extension_request(at, room, cookie.as_ptr(), cookie.len()) }
}

pub fn write_extension_refused(buffer: &mut [u8]) -> Written {
    unsafe { c::svsc_write_extension_refused(buffer.as_mut_ptr(), buffer.len()) }
}

pub fn write_extension_granted(buffer: &mut [u8], expiration: u64) -> Written {
    unsafe { c::svsc_write_extension_granted(buffer.as_mut_ptr(), buffer.len(), expiration) }
}

pub fn write_establish_request(buffer: &mut [u8], id: u32) -> Written {
    unsafe { c::svsc_write_establish_request(buffer.as_mut_ptr(), buffer.len(), id) }
}

pub fn write_establish_refused(buffer: &mut [u8], id: u32, status: u8) -> Written {
    unsafe { c::svsc_write_establish_refused(buffer.as_mut_ptr(), buffer.len(), id, status) }
}

pub fn write_established(buffer: &mut [u8], id: u32, session: &[u8], peer: &[u8], key: &[u8]) -> Written {
    unsafe {
        c::svsc_write_established(
            buffer.as_mut_ptr(),
            buffer.len(),
            id,
            session.as_ptr(),
            session.len(),
            peer.as_ptr(),
            peer.len(),
            key.as_ptr(),
            key.len(),
        )
    }
}

pub fn write_establish_notification(buffer: &mut [u8], session: &[u8], peer: &[u8], key: &[u8]) -> Written {
    unsafe {
        c::svsc_write_establish_notification(
            buffer.as_mut_ptr(),
            buffer.len(),
            session.as_ptr(),
            session.len(),
            peer.as_ptr(),
            peer.len(),
            key.as_ptr(),
            key.len(),
        )
    }
}

pub fn write_session_end(buffer: &mut [u8]) -> Written {
    unsafe { c::svsc_write_session_end(buffer.as_mut_ptr(), buffer.len()) }
}

pub fn write_session_end_notification(buffer: &mut [u8]) -> Written {
    unsafe { c::svsc_write_session_end_notification(buffer.as_mut_ptr(), buffer.len()) }
}

pub fn write_data_send(buffer: &mut [u8], bytes: &[u8]) -> Written {
    let (at, room) = (buffer.as_mut_ptr(), buffer.len());
    unsafe { c::svsc_write_data_send(at, room, bytes.as_ptr(), bytes.len()) }
}

pub fn write_data_receive(buffer: &mut [u8], bytes: &[u8]) -> Written {
    let (at, room) = (buffer.as_mut_ptr(), buffer.len());
    unsafe { c::svsc_write_data_receive(at, room, bytes.as_ptr(), bytes.len()) }
}

pub fn write_keepalive(buffer: &mut [u8]) -> Written {
    unsafe { c::svsc_write_keepalive(buffer.as_mut_ptr(), buffer.len()) }
}
