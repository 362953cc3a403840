//! Single steps from any state, with buffers and chunks of every kind, and counts of what was reached.

use std::fmt;

use codec::frames::{encode, MESSAGE_LIMIT};
use engine::frames::{Step, DONE, FRAME_LIMIT, REFUSED, SHORT};

use super::agree::{self, Buffers};
use super::boundary::Boundary;
use super::kinds;
use crate::amount;
use crate::difference::Difference;
use crate::random::Random;
use crate::tally::{Found, Tally};

const FRESH: (u32, u32) = (0, 0);
/// The longest of the buffers.
const LONGER: usize = 66_000;
const ROOMS: [usize; 6] = [0, 1, MESSAGE_LIMIT - 1, MESSAGE_LIMIT, MESSAGE_LIMIT + 1, LONGER];

const SIZES: [u32; 27] = [
    0, 1, 2, 3, 4, 5, 12, 255, 256, 257, 511, 512, 513, 32_767, 32_768, 65_279, 65_280, 65_281, 65_534, 65_535, 65_536,
    65_537, 65_792, 0x01000000, 0x80000000, 0xffffff00, 0xffffffff,
];
/// Taken whatever the size is.
const TAKEN: [u32; 13] = [0, 1, 2, 3, 4, 5, 258, 65_535, 65_536, 65_537, 65_538, 1 << 31, u32::MAX];
/// Taken besides the size, wrapped around.
const BESIDES: [u32; 6] = [u32::MAX, 0, 1, 2, 3, 4];

/// What was reached.
#[derive(Default)]
pub struct Reached {
    /// States, and how steps from them are answered.
    answers: Tally,
    /// What was taken of chunks, by states, and lengths of buffers.
    found: Found,
    pub steps: u64,
}

/// Compares steps from each of the states and then so many more, until one differs.
pub fn compare(subject: &impl Boundary, number: u64) -> Result<Reached, Difference> {
    let mut random = amount::random();
    let mut buffers = Buffers::new(LONGER);
    let mut reached = Reached::default();
    let mut step = |state, room, chunk: &[u8]| reached.step(subject, state, &mut buffers, room, chunk);
    for state in edges() {
        for (room, length) in ROOMS.into_iter().flat_map(|room| lengths(state).map(|length| (room, length))) {
            step(state, room, &continued(&mut random, state, length))?;
        }
    }
    let frames = longest_frames(&mut random);
    for (taken, size) in [FRESH, (1, 65_280), (2, 65_535), (3, 65_535), (1_003, 65_535)] {
        for end in FRAME_LIMIT - 1..=FRAME_LIMIT + 4 {
            step((taken, size), MESSAGE_LIMIT, &frames[taken as usize..end])?;
        }
        step((taken, size), MESSAGE_LIMIT, &frames[taken as usize..])?;
    }
    for _ in 0..amount::rounds(number) {
        let state = any_state(&mut random);
        let few = random.below(20);
        let length = random.mostly(few, &lengths(state));
        let room = random.mostly(MESSAGE_LIMIT, &ROOMS);
        step(state, room, &continued(&mut random, state, length))?;
    }
    Ok(reached)
}

/// States around where they become others, or none.
fn edges() -> impl Iterator<Item = (u32, u32)> {
    SIZES.into_iter().flat_map(|size| {
        let besides = BESIDES.map(|besides| size.wrapping_add(besides));
        TAKEN.into_iter().chain(besides).map(move |taken| (taken, size))
    })
}

/// Three of the longest frames.
fn longest_frames(random: &mut Random) -> Vec<u8> {
    encode(&random.bytes(MESSAGE_LIMIT)).expect("a message that fits").repeat(3)
}

/// Compares steps through every header: each length with type 1, byte by byte and at once, and each type.
pub fn compare_headers(subject: &impl Boundary) -> Result<Reached, Difference> {
    let mut buffers = Buffers::new(MESSAGE_LIMIT);
    let mut reached = Reached::default();
    let mut step = |state, chunk: &[u8]| reached.step(subject, state, &mut buffers, MESSAGE_LIMIT, chunk);
    for length in 0..=u16::MAX {
        let [high, low] = length.to_be_bytes();
        let (first, size) = (u32::from(high) * 256, u32::from(length));
        step(FRESH, &[high, low])?;
        step(FRESH, &[high, low, 1, b'm'])?;
        step((1, first), &[low])?;
        step((2, size), &[1])?;
    }
    for kind in 0..=u8::MAX {
        step(FRESH, &[kind])?;
        for length in [1, 2, 300, u16::MAX] {
            step((2, length.into()), &[kind])?;
            step(FRESH, &[&length.to_be_bytes()[..], &[kind, 0]].concat())?;
        }
    }
    Ok(reached)
}

/// Lengths of chunks: none, some, up to the end of the frame, and beyond.
fn lengths((taken, size): (u32, u32)) -> [usize; 8] {
    let missing = u64::from(size) + 2 - u64::from(taken).min(u64::from(size) + 2);
    let missing = missing.min(FRAME_LIMIT as u64) as usize;
    [0, 1, 2, 3, missing.saturating_sub(1), missing, missing + 1, missing + 7]
}

/// One that bytes lead to, mostly within a short message, or any numbers.
fn any_state(random: &mut Random) -> (u32, u32) {
    let size = match random.below(4) {
        0 => random.choice(&SIZES),
        1 => random.number() as u32 >> random.below(32),
        _ => random.below(300) as u32,
    };
    let taken = match random.below(8) {
        0 => 0,
        1 => return (1, size / 256 * 256),
        2 => 1,
        3 => 2,
        4 => random.choice(&TAKEN),
        5 => size.wrapping_add(random.choice(&BESIDES)),
        _ => random.below(size.clamp(1, 1 << 20) as usize) as u32 + 2,
    };
    match taken {
        0 => (0, random.choice(&[0, 0, 0, 1, 1, size])),
        _ => (taken, size),
    }
}

/// Bytes that continue the frame and go on with the next, but for one in two, where one of a header may be another.
fn continued(random: &mut Random, (taken, size): (u32, u32), length: usize) -> Vec<u8> {
    let header = match taken {
        0 => vec![random.choice(&[0, 0, 0, 1, 255]), random.below(12) as u8, 1],
        1 => vec![random.below(12) as u8, 1],
        2 => vec![1],
        _ => vec![],
    };
    let of_message = (u64::from(size) + 2).saturating_sub(taken.max(3).into()).min(length as u64) as usize;
    let mut chunk = [header, random.bytes(of_message), vec![0, 3, 1]].concat();
    if random.one_in(2) {
        let place = random.below(chunk.len().min(3));
        let any = random.byte();
        chunk[place] = random.choice(&[0, 0, 1, 2, 255, any]);
    }
    while chunk.len() < length {
        chunk.push(random.byte());
    }
    chunk.truncate(length);
    chunk
}

impl Reached {
    fn step(
        &mut self,
        subject: &impl Boundary,
        state: (u32, u32),
        buffers: &mut Buffers,
        room: usize,
        chunk: &[u8],
    ) -> Result<(), Difference> {
        let step = agree::step(subject, state, buffers, room, chunk)?;
        if step.used > 0 {
            buffers.renew();
        }
        self.steps += 1;
        let kind = kinds::state(state.0, state.1);
        self.answers.count(kind, step.number);
        self.found.add(kind, taken_of(&step, chunk));
        self.found.add("room", room_for(room));
        Ok(())
    }

    /// Asserts that everything was reached.
    pub fn assert_all(&self) {
        println!("{self}");
        let [of_header @ .., within] = kinds::STATES;
        for kind in of_header {
            self.answers.assert_just(&[(kind, &[DONE, SHORT, REFUSED])]);
            self.found.assert_reached(&[(kind, &[&NOTHING_TAKEN, &TAKEN_BY, &REFUSED_BY])]);
        }
        self.answers.assert_just(&[(within, &[DONE, SHORT])]);
        self.found.assert_reached(&[(within, &[&NOTHING_TAKEN, &TAKEN_BY]), ("room", &[&ROOM_FOR])]);
        for kind in kinds::NO_STATES.into_iter().chain([kinds::REFUSED]) {
            self.answers.assert_just(&[(kind, &[SHORT, REFUSED])]);
            self.found.assert_reached(&[(kind, &[&NOTHING_TAKEN])]);
        }
    }
}

const NOTHING_TAKEN: [&str; 2] = ["empty", "none taken"];
const TAKEN_BY: [&str; 3] = ["all taken", "message at the end", "message with bytes left"];
const REFUSED_BY: [&str; 2] = ["refused at the end", "refused with bytes left"];

/// What was taken of a chunk.
fn taken_of(step: &Step, chunk: &[u8]) -> &'static str {
    let is_all = step.used == chunk.len() as u64;
    match (step.number, step.complete) {
        _ if chunk.is_empty() => NOTHING_TAKEN[0],
        _ if step.used == 0 => NOTHING_TAKEN[1],
        (REFUSED, _) => REFUSED_BY[usize::from(!is_all)],
        (_, 1) => TAKEN_BY[1 + usize::from(!is_all)],
        _ => TAKEN_BY[0],
    }
}

const ROOM_FOR: [&str; 5] = ["none", "too short", "one short", "just enough", "longer"];

fn room_for(room: usize) -> &'static str {
    const ONE_SHORT: usize = MESSAGE_LIMIT - 1;
    match room {
        0 => ROOM_FOR[0],
        1..ONE_SHORT => ROOM_FOR[1],
        ONE_SHORT => ROOM_FOR[2],
        MESSAGE_LIMIT => ROOM_FOR[3],
        _ => ROOM_FOR[4],
    }
}

impl fmt::Display for Reached {
    fn fmt(&self, out: &mut fmt::Formatter) -> fmt::Result {
        write!(out, "{}{}", self.found, self.answers)
    }
}
