//! Streams of frames, and what can happen to them.

use codec::frames::{encode, MESSAGE_LIMIT};

use super::cuts::starts;
use super::kinds::{ANOTHER_TYPE, BETWEEN, LENGTH_0, WITHIN};
use crate::forms;
use crate::random::Random;

/// Values that a byte is changed to as often as to any: those of lengths and types.
const EDGES: [u8; 5] = [0, 1, 2, 3, 255];

/// What happens to a stream.
pub type Damage = fn(&mut Random, &mut Vec<u8>);

/// Ends of streams, as a tally's outcomes have them.
pub type Ends = &'static [&'static [&'static str]];

/// Each of them.
pub const ANY: Ends = &[&[BETWEEN, WITHIN, LENGTH_0, ANOTHER_TYPE]];

/// All that can happen, and the ends that it must come to.
pub const DAMAGES: [(&str, Ends, Damage); 15] = [
    ("nothing", &[&[BETWEEN]], |_, _| {}),
    ("a byte changed", ANY, |random, stream| change(random, stream)),
    ("a bit changed", ANY, |random, stream| change_bit(random, stream)),
    ("several bytes changed", ANY, |random, stream| (0..2 + random.below(4)).for_each(|_| change(random, stream))),
    ("a byte removed", ANY, remove),
    ("a byte inserted", ANY, insert),
    ("the end cut off", &[&[BETWEEN, WITHIN]], |random, stream| stream.truncate(random.below(stream.len() + 1))),
    ("a length of 0", &[&[LENGTH_0]], |random, stream| put_length(random, stream, 0)),
    ("a length of 1", ANY, |random, stream| put_length(random, stream, 1)),
    ("a length of 2", ANY, |random, stream| put_length(random, stream, 2)),
    ("a length of 65,535", &[&[WITHIN]], |random, stream| put_length(random, stream, u16::MAX)),
    ("another length", ANY, |random, stream| {
        let length = random.below(40) as u16;
        put_length(random, stream, length);
    }),
    ("another type", &[&[ANOTHER_TYPE]], |random, stream| another_type(random, stream)),
    ("random bytes", &[&[WITHIN, ANOTHER_TYPE]], |random, stream| {
        let length = random.below(25);
        *stream = random.bytes(length);
    }),
    ("small bytes", ANY, |random, stream| *stream = small_bytes(random)),
];

/// Where one of the frames starts.
fn start(random: &mut Random, stream: &[u8]) -> Option<usize> {
    let starts: Vec<usize> = starts(stream).into_iter().filter(|&start| start < stream.len()).collect();
    (!starts.is_empty()).then(|| random.choice(&starts))
}

/// A place of one of the stream's bytes, half of the time a header's.
fn place(random: &mut Random, stream: &[u8]) -> Option<usize> {
    let header = start(random, stream)? + random.below(3);
    match random.one_in(2) {
        true if header < stream.len() => Some(header),
        _ => Some(random.below(stream.len())),
    }
}

fn any_byte(random: &mut Random) -> u8 {
    match random.one_in(2) {
        true => random.choice(&EDGES),
        false => random.byte(),
    }
}

fn change(random: &mut Random, stream: &mut [u8]) {
    if let Some(place) = place(random, stream) {
        stream[place] = any_byte(random);
    }
}

fn change_bit(random: &mut Random, stream: &mut [u8]) {
    if let Some(place) = place(random, stream) {
        stream[place] ^= 1 << random.below(8);
    }
}

fn remove(random: &mut Random, stream: &mut Vec<u8>) {
    if let Some(place) = place(random, stream) {
        stream.remove(place);
    }
}

fn insert(random: &mut Random, stream: &mut Vec<u8>) {
    let place = place(random, stream).unwrap_or(0);
    stream.insert(place, any_byte(random));
}

/// Gives one of the frames another length.
fn put_length(random: &mut Random, stream: &mut [u8], length: u16) {
    if let Some(start) = start(random, stream) {
        stream[start..].iter_mut().zip(length.to_be_bytes()).for_each(|(byte, new)| *byte = new);
    }
}

fn another_type(random: &mut Random, stream: &mut [u8]) {
    if let Some(byte) = start(random, stream).and_then(|start| stream.get_mut(start + 2)) {
        *byte = any_byte(random);
    }
}

/// Up to four frames, one after another.
pub fn well_formed(random: &mut Random, pool: &[u8]) -> Vec<u8> {
    let frames = if random.one_in(20) { 0 } else { 1 + random.below(4) };
    (0..frames).flat_map(|_| encode(&message(random, pool)).expect("a message that fits")).collect()
}

/// A message of the protocol, or any bytes; mostly few.
fn message(random: &mut Random, pool: &[u8]) -> Vec<u8> {
    let length = match random.below(1_000) {
        0..300 => return of_the_protocol(random, pool),
        300..450 => 0,
        450..600 => return small_bytes(random),
        600..950 => random.below(9),
        950..995 => 250 + random.below(10),
        995..997 => random.below(MESSAGE_LIMIT),
        _ => MESSAGE_LIMIT - random.below(2),
    };
    random.part(pool, length).to_vec()
}

fn of_the_protocol(random: &mut Random, pool: &[u8]) -> Vec<u8> {
    let messages = forms::one_of_each(random, pool);
    codec::encode(&random.choice(&messages)).expect("a message whose fields are in range")
}

/// Those of headers, so that what is within a message reads as frames, too.
fn small_bytes(random: &mut Random) -> Vec<u8> {
    (0..random.below(25)).map(|_| random.choice(&[0, 0, 0, 1, 1, 1, 2, 3])).collect()
}
