//! include/svsc_frames.h, name by name without the prefix `svsc_frame_`: messages on a TCP stream.

use std::mem::{offset_of, size_of};

/// The archive of these functions, for a C program to link too.
pub const ARCHIVE: &str = env!("CRONDELITH_LINKED_SVSC_FRAMES");

pub const DONE: u32 = 0;
/// The buffer is too short.
pub const SHORT: u32 = 5;
/// No frame, or a message too long for one.
pub const REFUSED: u32 = 6;

/// The longest message, which is what a reader's buffer must hold.
pub const MESSAGE_LIMIT: usize = 65_534;
/// The longest frame.
pub const FRAME_LIMIT: usize = 65_537;

/// A step of reading, `svsc_frame_step`.
#[repr(C)]
#[derive(Clone, Copy, Debug, Default, PartialEq, Eq)]
pub struct Step {
    pub number: u32,
    pub complete: u32,
    pub used: u64,
    pub length: u32,
    pub taken: u32,
    pub size: u32,
}

/// What the writer did, `svsc_frame_written`.
#[repr(C)]
#[derive(Clone, Copy, Debug, Default, PartialEq, Eq)]
pub struct Written {
    pub number: u32,
    pub length: u32,
}

// host/c/svsc_frames_check.c has the same numbers about the header's structs.
const _: () = assert!(size_of::<Step>() == 32 && offset_of!(Step, used) == 8 && offset_of!(Step, size) == 24);
const _: () = assert!(size_of::<Written>() == 8 && offset_of!(Written, length) == 4);

mod c {
    use super::{Step, Written};

    extern "C" {
        pub fn svsc_frame_read(
            taken: u32,
            size: u32,
            message: *mut u8,
            message_length: usize,
            chunk: *const u8,
            chunk_length: usize,
        ) -> Step;
        pub fn svsc_frame_write(
            frame: *mut u8,
            frame_length: usize,
            message: *const u8,
            message_length: usize,
        ) -> Written;
    }
}

// SAFETY of both calls: the pointers and lengths are those of slices borrowed for the call, so the memory is there, and
// the `&mut` buffer overlaps nothing else. The functions are total, stay within the lengths they are given and keep no
// pointer, as proved of them. That the declarations are the header's is what the tests of `compare` show.

/// Reads on in a stream, up to the end of one frame at most.
#[inline]
pub fn read(taken: u32, size: u32, message: &mut [u8], chunk: &[u8]) -> Step {
    let (at, room) = (message.as_mut_ptr(), message.len());
    unsafe { c::svsc_frame_read(taken, size, at, room, chunk.as_ptr(), chunk.len()) }
}

/// Writes a message's frame.
#[inline]
pub fn write(frame: &mut [u8], message: &[u8]) -> Written {
    let (at, room) = (frame.as_mut_ptr(), frame.len());
    unsafe { c::svsc_frame_write(at, room, message.as_ptr(), message.len()) }
}
