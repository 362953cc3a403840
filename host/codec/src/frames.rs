//! Messages on a TCP stream, section 3.1 of the paper: "data-length 2, type 1, then data-length minus 1 bytes", in the
//! words of the project's request 9; "the number counts the type byte". What a whole stream gives is [`parse`], by
//! slices; a reader that gets it in chunks is [`step`], which takes byte by byte.

use crate::Refusal;

/// The longest message, 65,534 bytes: the highest length, which counts the type too, leaves so many.
pub const MESSAGE_LIMIT: usize = u16::MAX as usize - 1;

/// The only type.
const TYPE: u8 = 1;

/// How a stream ends.
#[derive(Clone, Copy, Debug, PartialEq, Eq)]
pub enum End {
    /// So many bytes of a frame are there; 0: none.
    Within(usize),
    /// The byte that shows that this is no stream of frames is the last of so many.
    Refused(usize),
}

/// The messages of a whole stream, and its end.
pub fn parse(stream: &[u8]) -> (Vec<&[u8]>, End) {
    let mut messages = vec![];
    let mut rest = stream;
    loop {
        match first_frame(rest) {
            Front::Frame { message, behind } => {
                messages.push(message);
                rest = behind;
            }
            Front::Incomplete => return (messages, End::Within(rest.len())),
            Front::Refused { after } => return (messages, End::Refused(stream.len() - rest.len() + after)),
        }
    }
}

/// What a stream starts with.
enum Front<'a> {
    Frame { message: &'a [u8], behind: &'a [u8] },
    Incomplete,
    Refused { after: usize },
}

/// "Length 0 or a type other than 1 is refused [..], the byte that shows it the last one taken"; "length 1 is an empty
/// message".
fn first_frame(stream: &[u8]) -> Front<'_> {
    match *stream {
        [0, 0, ..] => Front::Refused { after: 2 },
        [high, low, TYPE, ref data @ ..] => {
            let length = u16::from_be_bytes([high, low]);
            match data.split_at_checked(usize::from(length) - 1) {
                Some((message, behind)) => Front::Frame { message, behind },
                None => Front::Incomplete,
            }
        }
        [_, _, _, ..] => Front::Refused { after: 3 },
        _ => Front::Incomplete,
    }
}

/// The two numbers that stand for a reader's state: how many bytes of a frame it has taken, and of the frame's length
/// what these say.
#[derive(Clone, Copy, Debug, PartialEq, Eq)]
pub struct Numbers {
    pub taken: u32,
    pub size: u32,
}

/// What a step did.
#[derive(Clone, Copy, Debug, PartialEq, Eq)]
pub struct Step {
    /// The length of the message that stands in the buffer, if there is one.
    pub answer: Result<Option<usize>, Refusal>,
    /// So many bytes of the chunk were taken.
    pub used: usize,
    /// The state from now on.
    pub state: Numbers,
}

/// The state at a stream's start, and behind each frame.
const FRESH: Numbers = Numbers { taken: 0, size: 0 };
/// The state of a refused stream.
const REFUSED: Numbers = Numbers { taken: 0, size: 1 };

/// Takes bytes of the chunk "up to the end of one frame at most", the message's to their places in the buffer.
///
/// "A buffer under 65,534 bytes: 5 before any 6, also with an empty chunk, a refused or an invalid state; nothing taken,
/// the state handed back."
pub fn step(state: Numbers, buffer: &mut [u8], chunk: &[u8]) -> Step {
    if buffer.len() < MESSAGE_LIMIT {
        return Step { answer: Err(Refusal::Short), used: 0, state };
    }
    let refused = |used| Step { answer: Err(Refusal::Malformed), used, state: REFUSED };
    let Some(mut within) = Within::decode(state) else { return refused(0) };
    for (&byte, used) in chunk.iter().zip(1..) {
        match within.take(byte, buffer) {
            Next::Within(next) => within = next,
            Next::Message(length) => return Step { answer: Ok(Some(length.into())), used, state: FRESH },
            Next::Refused => return refused(used),
        }
    }
    Step { answer: Ok(None), used: chunk.len(), state: within.encode() }
}

/// The part of a frame that is there.
#[derive(Clone, Copy)]
enum Within {
    Nothing,
    /// The length's first byte.
    HalfLength(u8),
    /// The length, which isn't 0.
    Length(u16),
    /// The length, the type and so many bytes of the message, which has more.
    Data {
        length: u16,
        there: u16,
    },
}

/// What a byte leads to.
enum Next {
    Within(Within),
    /// The end of the frame: a message of this length.
    Message(u16),
    Refused,
}

impl Within {
    fn take(self, byte: u8, buffer: &mut [u8]) -> Next {
        match self {
            Within::Nothing => Next::Within(Within::HalfLength(byte)),
            Within::HalfLength(high) => match u16::from_be_bytes([high, byte]) {
                // "Length 0 is shown by its second byte; the type byte isn't taken then."
                0 => Next::Refused,
                length => Next::Within(Within::Length(length)),
            },
            Within::Length(length) if byte == TYPE => Next::with_data(length, 0),
            // "Another type is shown by the type byte."
            Within::Length(_) => Next::Refused,
            Within::Data { length, there } => {
                buffer[usize::from(there)] = byte;
                Next::with_data(length, there + 1)
            }
        }
    }

    /// None for what no bytes lead to, or is refused: "valid exactly if (0, 0); or taken 1 and size a first byte times
    /// 256; or taken 2 or more, size 1 to 65,535 and taken < size + 2. (0, 1) stands for refused; every other state is
    /// answered with 6, 0 used, and comes back as (0, 1)."
    fn decode(Numbers { taken, size }: Numbers) -> Option<Self> {
        let length = u16::try_from(size).ok()?;
        match (taken, length.to_be_bytes()) {
            (0, [0, 0]) => Some(Within::Nothing),
            (1, [high, 0]) => Some(Within::HalfLength(high)),
            (0 | 1, _) | (_, [0, 0]) => None,
            (2, _) => Some(Within::Length(length)),
            (3.., _) => {
                let there = u16::try_from(taken - 3).ok()?;
                (there < length - 1).then_some(Within::Data { length, there })
            }
        }
    }

    fn encode(self) -> Numbers {
        match self {
            Within::Nothing => FRESH,
            Within::HalfLength(high) => Numbers { taken: 1, size: u32::from(high) * 256 },
            Within::Length(length) => Numbers { taken: 2, size: length.into() },
            Within::Data { length, there } => Numbers { taken: 3 + u32::from(there), size: length.into() },
        }
    }
}

impl Next {
    /// With so many bytes of the message, which may be all: "the number counts the type byte".
    fn with_data(length: u16, there: u16) -> Self {
        match length - 1 {
            whole if there == whole => Next::Message(whole),
            _ => Next::Within(Within::Data { length, there }),
        }
    }
}

/// The bytes of a message's frame; None for "a message above 65,534 bytes".
pub fn encode(message: &[u8]) -> Option<Vec<u8>> {
    let length = u16::try_from(message.len() + 1).ok()?;
    Some([&length.to_be_bytes()[..], &[TYPE], message].concat())
}

/// Writes a message's frame to the start of the buffer and gives its length. "The writer: a message above 65,534 bytes
/// is 6, then a buffer under its length and 3 is 5"; a refusal changes nothing.
pub fn write(message: &[u8], buffer: &mut [u8]) -> Result<usize, Refusal> {
    let frame = encode(message).ok_or(Refusal::Malformed)?;
    buffer.get_mut(..frame.len()).ok_or(Refusal::Short)?.copy_from_slice(&frame);
    Ok(frame.len())
}
