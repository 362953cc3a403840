//! Frames written, compared and read back, and counts of what was reached.

use codec::frames::MESSAGE_LIMIT;
use engine::frames::{DONE, FRAME_LIMIT};

use super::agree::{self, Buffers, Steps};
use super::boundary::Boundary;
use super::cuts::{self, WAYS};
use crate::amount;
use crate::difference::{same, Difference};
use crate::random::Random;
use crate::tally::Tally;

/// Lengths of messages, around those where a byte of the length changes, and around the limit.
const LENGTHS: [usize; 20] = [
    0, 1, 2, 3, 253, 254, 255, 256, 257, 510, 511, 512, 16_384, 65_278, 65_279, 65_280, 65_532, 65_533, 65_534, 65_535,
];
/// Those of messages that are longer, and would pass if only the last bytes of their length were looked at.
const LONGER: [usize; 5] = [65_536, 65_537, 65_790, 131_071, 131_072];

/// By messages' lengths, so many of these writes had each answer.
pub const NAMES: [&str; 4] = ["empty", "short", "long", "too long"];

/// Compares each of these lengths with every kind of room, and so many writes more, until something differs.
pub fn compare(subject: &impl Boundary, number: u64) -> Result<Tally, Difference> {
    let mut random = amount::random();
    let pool = random.bytes(140_000);
    let mut tally = Tally::default();
    for length in LENGTHS.into_iter().chain(LONGER) {
        for room in rooms(length) {
            count(subject, &mut tally, random.part(&pool, length), room)?;
        }
    }
    for _ in 0..amount::rounds(number) {
        let length = random.below(600);
        let room = random.choice(&rooms(length));
        count(subject, &mut tally, random.part(&pool, length), room)?;
    }
    for _ in 0..amount::rounds(number / 100) {
        read_back(subject, &mut random, &pool)?;
    }
    Ok(tally)
}

fn count(subject: &impl Boundary, tally: &mut Tally, message: &[u8], room: usize) -> Result<(), Difference> {
    let name = match message.len() {
        0 => NAMES[0],
        1..600 => NAMES[1],
        600..=MESSAGE_LIMIT => NAMES[2],
        _ => NAMES[3],
    };
    tally.count(name, agree::write(subject, message, room)?.number);
    Ok(())
}

/// None, hardly any, around the message's length and the frame's, and around the longest frame's.
fn rooms(length: usize) -> Vec<usize> {
    let frame = length + 3;
    let around = [0, 1, 2, length, length + 1, frame - 1, frame, frame + 1, frame + 100];
    let limits = [MESSAGE_LIMIT, FRAME_LIMIT - 1, FRAME_LIMIT, FRAME_LIMIT + 1, 2 * FRAME_LIMIT];
    [&around[..], &limits].concat()
}

/// Writes some messages one after another. The stream of them must be read as these, in any chunks.
fn read_back(subject: &impl Boundary, random: &mut Random, pool: &[u8]) -> Result<(), Difference> {
    let mut stream = vec![];
    for _ in 0..4 {
        let length = match random.one_in(8) {
            true => random.choice(&LENGTHS[..LENGTHS.len() - 1]),
            false => random.below(60),
        };
        let mut frame = vec![0; FRAME_LIMIT];
        let written = subject.write(&mut frame, random.part(pool, length));
        same(|| format!("writing {length} bytes"), &written.number, &DONE)?;
        stream.extend_from_slice(&frame[..written.length as usize]);
    }
    let mut buffers = Buffers::new(MESSAGE_LIMIT);
    for way in WAYS {
        let places = way(random, &stream);
        agree::stream(subject, &mut buffers, &[], &cuts::chunks(&stream, &places), &mut Steps::default())?;
    }
    Ok(())
}
