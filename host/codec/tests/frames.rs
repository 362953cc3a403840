//! The frames of a stream: the request's examples, and what its sentences say beyond them.

use codec::frames::{encode, parse, step, write, End, Numbers, Step, MESSAGE_LIMIT};
use codec::Refusal;

const FRESH: Numbers = Numbers { taken: 0, size: 0 };
const REFUSED: Numbers = Numbers { taken: 0, size: 1 };

/// A step with a buffer of so many zeros, and the buffer behind it.
fn step_into(room: usize, taken: u32, size: u32, chunk: &[u8]) -> (Step, Vec<u8>) {
    let mut buffer = vec![0; room];
    (step(Numbers { taken, size }, &mut buffer, chunk), buffer)
}

/// A step that is refused after so many bytes, and writes nothing.
fn assert_refused(taken: u32, size: u32, chunk: &[u8], used: usize) {
    let (step, buffer) = step_into(MESSAGE_LIMIT, taken, size, chunk);
    assert_eq!(step, Step { answer: Err(Refusal::Malformed), used, state: REFUSED }, "({taken}, {size}), {chunk:?}");
    assert_eq!(buffer, [0; MESSAGE_LIMIT]);
}

/// A step that ends a frame: its message, of which these bytes are stored from this place on.
fn assert_message(taken: u32, size: u32, chunk: &[u8], used: usize, place: usize, stored: &[u8]) {
    let (step, buffer) = step_into(MESSAGE_LIMIT, taken, size, chunk);
    let length = place + stored.len();
    assert_eq!(step, Step { answer: Ok(Some(length)), used, state: FRESH }, "({taken}, {size}), {chunk:?}");
    assert_eq!(buffer[place..length], *stored);
    assert!(buffer[..place].iter().chain(&buffer[length..]).all(|&byte| byte == 0));
}

/// A step that takes all of the chunk and comes to this state.
fn assert_within(taken: u32, size: u32, chunk: &[u8], state: (u32, u32)) {
    let state = Numbers { taken: state.0, size: state.1 };
    let (step, _) = step_into(MESSAGE_LIMIT, taken, size, chunk);
    assert_eq!(step, Step { answer: Ok(None), used: chunk.len(), state }, "({taken}, {size}), {chunk:?}");
}

#[test]
fn the_request_s_streams() {
    assert_refused(0, 0, &[0, 0, 1], 2);
    assert_refused(0, 0, &[0, 1, 2, 0x7a], 3);
    assert_message(0, 0, &[0, 1, 1, 0, 1, 1], 3, 0, b"");
    assert_message(0, 0, b"\x00\x03\x01hi!", 5, 0, b"hi");
    assert_eq!(parse(&[0, 0, 1]), (vec![], End::Refused(2)));
    assert_eq!(parse(&[0, 1, 2, 0x7a]), (vec![], End::Refused(3)));
    assert_eq!(parse(&[0, 1, 1, 0, 1, 1]), (vec![&b""[..], b""], End::Within(0)));
    assert_eq!(parse(b"\x00\x03\x01hi!"), (vec![&b"hi"[..]], End::Within(1)));
}

#[test]
fn the_request_s_states() {
    assert_refused(1, 0, &[0], 1);
    assert_message(3, 2, b"ab", 1, 0, b"a");
    for (taken, size) in [(2, 0), (5, 3), (7, 3)] {
        assert_refused(taken, size, &[], 0);
        assert_refused(taken, size, &[1, 1, 1], 0);
    }
    assert_within(4, 3, &[], (4, 3));
}

#[test]
fn the_request_s_writes() {
    let longest = vec![7; MESSAGE_LIMIT];
    let mut frame = vec![0; MESSAGE_LIMIT + 3];
    assert_eq!(write(&longest, &mut frame[1..]), Err(Refusal::Short));
    assert_eq!(frame, vec![0; MESSAGE_LIMIT + 3]);
    assert_eq!(write(&longest, &mut frame), Ok(MESSAGE_LIMIT + 3));
    assert_eq!(frame, [&[0xff, 0xff, 1], &longest[..]].concat());
    for room in [0, 2, MESSAGE_LIMIT + 3, MESSAGE_LIMIT + 4, 2 * MESSAGE_LIMIT] {
        let mut frame = vec![0; room];
        assert_eq!(write(&vec![7; MESSAGE_LIMIT + 1], &mut frame), Err(Refusal::Malformed));
        assert_eq!(frame, vec![0; room]);
    }
}

#[test]
fn a_short_buffer_comes_before_all_else_and_does_not_last() {
    let states = [(0, 0), (0, 1), (1, 256), (1, 1), (2, 0), (2, 5), (4, 3), (5, 3), (u32::MAX, u32::MAX)];
    for (taken, size) in states {
        for (room, chunk) in [(0, &[][..]), (0, &[0, 0]), (MESSAGE_LIMIT - 1, &[]), (MESSAGE_LIMIT - 1, &[0, 0, 1])] {
            let (step, buffer) = step_into(room, taken, size, chunk);
            assert_eq!(step, Step { answer: Err(Refusal::Short), used: 0, state: Numbers { taken, size } });
            assert_eq!(buffer, vec![0; room]);
        }
    }
}

#[test]
fn a_refused_stream_stays_refused() {
    for chunk in [&[][..], &[0], &[0, 1, 1], &[1; 300]] {
        assert_refused(0, 1, chunk, 0);
    }
}

#[test]
fn the_bytes_of_a_header_one_by_one() {
    assert_within(0, 0, &[], (0, 0));
    for high in 0..=255 {
        let first = u32::from(high) * 256;
        assert_within(0, 0, &[high], (1, first));
        for low in [0, 1, 127, 128, 255] {
            let size = first + u32::from(low);
            match size {
                0 => assert_refused(1, first, &[low], 1),
                _ => assert_within(1, first, &[low], (2, size)),
            }
        }
    }
    assert_message(2, 1, &[1], 1, 0, b"");
    assert_within(2, 2, &[1], (3, 2));
    for kind in (0..=255).filter(|&kind| kind != 1) {
        assert_refused(2, 2, &[kind, 1], 1);
    }
}

/// "A state is taken as valid exactly if some bytes lead to it from a fresh one."
#[test]
fn valid_states_are_those_that_bytes_lead_to() {
    let mut buffer = vec![0; MESSAGE_LIMIT];
    for size in (0..800).chain(65_000..66_000).chain([u32::MAX - 255, u32::MAX]) {
        for taken in (0..800).chain([size, size.saturating_add(1), size.saturating_add(2), u32::MAX]) {
            let numbers = Numbers { taken, size };
            let is_valid = step(numbers, &mut buffer, &[]).answer.is_ok();
            assert_eq!(is_valid, leads_to(numbers, &mut buffer), "{numbers:?}");
        }
    }
}

/// Whether so many bytes of a frame of this length lead to the state.
fn leads_to(numbers: Numbers, buffer: &mut [u8]) -> bool {
    let taken = numbers.taken as usize;
    if taken > MESSAGE_LIMIT + 3 || numbers == REFUSED {
        return false;
    }
    let [.., high, low] = numbers.size.to_be_bytes();
    let mut frame = vec![high, low];
    frame.resize(taken.max(2), 1);
    step(FRESH, buffer, &frame[..taken]).state == numbers
}

#[test]
fn messages_read_back_as_they_were_written() {
    let messages: Vec<Vec<u8>> = [0, 1, 2, 254, 255, 256, 257, MESSAGE_LIMIT - 1, MESSAGE_LIMIT]
        .map(|length| (0..length).map(|place| place as u8).collect())
        .into();
    let frames = messages.iter().map(|message| encode(message).expect("a message that fits"));
    let stream: Vec<u8> = frames.flatten().collect();
    assert_eq!(parse(&stream), (messages.iter().map(Vec::as_slice).collect(), End::Within(0)));
    let mut buffer = vec![0; MESSAGE_LIMIT];
    let mut rest = &stream[..];
    for message in &messages {
        let read = step(FRESH, &mut buffer, rest);
        assert_eq!((read.answer, read.state), (Ok(Some(message.len())), FRESH));
        assert_eq!(buffer[..message.len()], **message);
        rest = &rest[read.used..];
    }
    assert!(rest.is_empty());
}
