//! Ways to cut a stream into chunks.

use codec::frames::parse;

use super::agree::{self, Buffers, Steps};
use super::boundary::Boundary;
use super::kinds;
use crate::difference::Difference;
use crate::random::Random;
use crate::tally::Found;

/// Streams of up to so many bytes are also offered byte by byte.
const SHORT: usize = 20;

/// The places at which to cut, in ascending order; one that comes twice makes an empty chunk.
pub type Way = fn(&mut Random, &[u8]) -> Vec<usize>;

/// Each stream is cut in all of these.
pub const WAYS: [Way; 4] = [|_, _| vec![], finely, anywhere, within_lengths];

/// The chunks between the places.
pub fn chunks<'a>(stream: &'a [u8], places: &[usize]) -> Vec<&'a [u8]> {
    let starts = [&[0], places].concat();
    let ends = [places, &[stream.len()]].concat();
    starts.into_iter().zip(ends).map(|(start, end)| &stream[start..end]).collect()
}

/// Where frames start, and the bytes behind the last that is complete.
pub fn starts(stream: &[u8]) -> Vec<usize> {
    let (messages, _) = parse(stream);
    let behind = messages.iter().scan(0, |place, message| {
        *place += message.len() + 3;
        Some(*place)
    });
    [0].into_iter().chain(behind).collect()
}

/// Byte by byte, or if the stream is long around each header.
fn finely(random: &mut Random, stream: &[u8]) -> Vec<usize> {
    match stream.len() {
        0..=SHORT => (1..stream.len()).collect(),
        _ => around_headers(random, stream),
    }
}

/// Before, within and behind each header; some places are left out or come twice.
fn around_headers(random: &mut Random, stream: &[u8]) -> Vec<usize> {
    let around = starts(stream).into_iter().flat_map(|start| (start.max(1) - 1)..=start + 4);
    let mut places: Vec<usize> = around.filter(|&place| place <= stream.len()).collect();
    places.sort();
    if random.one_in(2) {
        places.dedup();
    }
    if random.one_in(2) {
        places.retain(|_| random.one_in(2));
    }
    places
}

/// Up to seven places from anywhere, both ends included, often some twice.
fn anywhere(random: &mut Random, stream: &[u8]) -> Vec<usize> {
    let mut places: Vec<usize> = (0..1 + random.below(7)).map(|_| random.below(stream.len() + 1)).collect();
    if random.one_in(4) {
        places.extend_from_within(..);
    }
    places.sort();
    places
}

/// Between the two bytes of each length only.
fn within_lengths(_: &mut Random, stream: &[u8]) -> Vec<usize> {
    starts(stream).into_iter().map(|start| start + 1).filter(|&place| place < stream.len()).collect()
}

/// Streams short enough for all their cuts.
const STREAMS: [&[u8]; 14] = [
    b"\x00\x01\x01\x00\x03\x01hi\x00\x02\x01!\x00",
    b"\x00\x03\x01hi\x00\x01\x01\x00\x02\x01!",
    b"\x00\x01\x01\x00\x01\x01\x00\x01\x01\x00\x01\x01",
    b"\x00\x0b\x01keepalives",
    b"\x00\x02\x01\x0d\x00\x02\x01\x09\x00\x03\x01\x02\x00",
    b"\x00\x03\x01\x01\x00\x00\x05\x01four",
    b"\x00\x02\x01\x01\x00\x02\x01\x00\x00\x01",
    b"\x00\x03\x01ab\x00\x00\x01\x00\x02\x01\x0d",
    b"\x00\x01\x01\x00\x02\x01\x00\x00\x00\x00\x01\x01",
    b"\x00\x00\x01\x00\x01\x01\x00\x02\x01a",
    b"\x00\x01\x01\x00\x02\x02a\x00\x01\x01",
    b"\x00\x04\x01abc\x01\x00\x00\x00\x01\x01\x00",
    b"\x00\x01\x01\xff\xff\x01longest",
    b"\x01\x00\x01cut here",
];

/// Every cut of each of these streams. How they end is counted.
pub fn compare_all(subject: &impl Boundary) -> Result<(Steps, Found), Difference> {
    let mut buffers = Buffers::new(codec::frames::MESSAGE_LIMIT);
    let (mut steps, mut ends) = (Steps::default(), Found::default());
    for stream in STREAMS {
        for cut in 0..1 << (stream.len() - 1) {
            let places: Vec<usize> = (1..stream.len()).filter(|place| cut >> (place - 1) & 1 == 1).collect();
            agree::stream(subject, &mut buffers, &[], &chunks(stream, &places), &mut steps)?;
            ends.add("cuts of streams that end", kinds::end(stream));
        }
    }
    Ok((steps, ends))
}
