//! What is framed is read back, however the stream is cut; what is no frame is refused.

use std::io::{self, Read};

use frames::{append, Error, InputBuffer, Reader, Refusal, CAPACITY, MESSAGE_LIMIT};

/// A message's frame, by section 3.1.
fn frame(message: &[u8]) -> Vec<u8> {
    let [high, low] = (message.len() as u16 + 1).to_be_bytes();
    [&[high, low, 1], message].concat()
}

/// A stream that gives its bytes in pieces of at most this length, with a timeout before each.
struct Pieces<'a> {
    bytes: &'a [u8],
    length: usize,
    late: bool,
}

impl Read for Pieces<'_> {
    fn read(&mut self, to: &mut [u8]) -> io::Result<usize> {
        self.late = !self.late;
        if self.late {
            return Err(io::ErrorKind::WouldBlock.into());
        }
        let length = self.length.min(to.len()).min(self.bytes.len());
        to[..length].copy_from_slice(&self.bytes[..length]);
        self.bytes = &self.bytes[length..];
        Ok(length)
    }
}

/// All messages, and the error that ended the stream, if one did.
fn read_all(bytes: &[u8], length: usize) -> (Vec<Vec<u8>>, Option<Error>) {
    let mut stream = Pieces { bytes, length, late: false };
    let mut reader = Reader::default();
    let mut messages = Vec::new();
    loop {
        match reader.next(&mut stream) {
            Ok(Some(message)) => messages.push(message.to_vec()),
            Ok(None) => return (messages, None),
            Err(error) if error.is_timeout() => {}
            Err(error) => return (messages, Some(error)),
        }
    }
}

#[test]
fn a_frame_is_length_type_message() {
    let mut bytes = Vec::new();
    append(&[13], &mut bytes).expect("a frame");
    append(&[], &mut bytes).expect("a frame");
    assert_eq!(bytes, [0, 2, 1, 13, 0, 1, 1]);
}

#[test]
fn the_longest_message_has_a_frame_and_a_longer_one_none() {
    let mut bytes = vec![7];
    append(&[8; 65_534], &mut bytes).expect("a frame");
    assert!(bytes == [&[7, 255, 255, 1][..], &[8; 65_534]].concat());
    bytes.truncate(1);
    for length in [65_535, 65_536, 200_000] {
        assert_eq!(append(&vec![0; length], &mut bytes), None);
        assert_eq!(bytes, [7]);
    }
}

#[test]
fn messages_are_read_however_the_stream_is_cut() {
    let longest: Vec<u8> = (0..MESSAGE_LIMIT).map(|at| at as u8).collect();
    let messages = [vec![13], vec![], longest.clone(), vec![0; 300], longest, vec![9]];
    let bytes = messages.iter().flat_map(|message| frame(message)).collect::<Vec<_>>();
    for length in [1, 2, 3, 4, 1000, 65_536, 200_000] {
        let (read, error) = read_all(&bytes, length);
        assert_eq!(read, messages);
        assert!(error.is_none());
    }
}

#[test]
fn what_is_no_frame_is_refused_after_the_frames_before_it() {
    for length in [1, 2, 3, 100] {
        let refused = |bytes: &[u8]| {
            let (messages, error) = read_all(&[&[0, 2, 1, 13], bytes].concat(), length);
            assert_eq!(messages, [[13]]);
            error.map(|error| error.to_string())
        };
        let (no_length, cut) = (Some("a frame of length 0".into()), Some("the stream ended within a frame".into()));
        assert_eq!(refused(&[0, 0]), no_length);
        assert_eq!(refused(&[0, 0, 1, 5]), no_length);
        assert_eq!(refused(&[0, 2, 2, 13]), Some("a frame of type 2, not 1".into()));
        assert_eq!(refused(&[255, 255, 0]), Some("a frame of type 0, not 1".into()));
        assert_eq!(refused(&[0]), cut);
        assert_eq!(refused(&[0, 1]), cut);
        assert_eq!(refused(&[0, 3, 1]), cut);
        assert_eq!(refused(&[0, 3, 1, 11]), cut);
        assert_eq!(refused(&[]), None);
    }
}

#[test]
fn a_refused_stream_stays_refused_for_the_same_reason() {
    let mut stream = &[&[0, 2, 5][..], &frame(b"a message")].concat()[..];
    let mut reader = Reader::default();
    for _ in 0..3 {
        let refused = reader.next(&mut stream);
        assert!(matches!(refused, Err(Error::Refused(Refusal::WrongType(5)))), "{refused:?}");
    }
}

#[test]
fn an_interrupted_read_is_made_again() {
    struct Interrupted<'a>(&'a [u8], bool);
    impl Read for Interrupted<'_> {
        fn read(&mut self, to: &mut [u8]) -> io::Result<usize> {
            self.1 = !self.1;
            if self.1 {
                return Err(io::ErrorKind::Interrupted.into());
            }
            self.0.read(to)
        }
    }
    let bytes = frame(b"hi");
    let mut stream = Interrupted(&bytes, false);
    let mut reader = Reader::default();
    assert_eq!(reader.next(&mut stream).expect("a frame"), Some(&b"hi"[..]));
    assert_eq!(reader.next(&mut stream).expect("the end"), None);
}

/// Reads once, with new memory if it is asked for. Gives whether it was.
fn read_once(buffer: &mut InputBuffer, mut bytes: &[u8]) -> bool {
    let mut is_asked = false;
    let memory = || {
        is_asked = true;
        vec![0; CAPACITY].into()
    };
    let expected = bytes.len();
    assert_eq!(buffer.read_from(&mut bytes, memory).expect("a read"), expected);
    is_asked
}

#[test]
fn memory_is_needed_for_a_message_and_not_for_a_header() {
    let mut buffer = InputBuffer::default();
    for byte in [0, 3, 1] {
        assert!(read_once(&mut buffer, &[byte]), "it has given it back");
        assert!(buffer.release().is_some_and(|memory| memory.len() == CAPACITY));
        assert!(buffer.release().is_none(), "it has none");
        assert!(!buffer.is_empty(), "a frame has begun");
    }
    assert!(read_once(&mut buffer, b"h"));
    assert!(buffer.release().is_none());
    assert!(!read_once(&mut buffer, &[&b"i"[..], &frame(b""), &[0]].concat()));
    assert_eq!(buffer.message(), Some(&b"hi"[..]));
    for expected in [Some(&b""[..]), None] {
        assert!(buffer.release().is_none());
        buffer.take();
        assert_eq!(buffer.message(), expected);
    }
    assert!(buffer.release().is_some() && !buffer.is_empty(), "the next frame has begun");
    assert!(buffer.discard().is_none() && buffer.is_empty());
}
