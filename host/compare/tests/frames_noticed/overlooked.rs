//! What a reader or a writer could overlook.

use codec::decode;
use engine::frames::{Step, DONE, MESSAGE_LIMIT, REFUSED, SHORT};

use crate::reading::{Handed, Reading, State, RIGHT};
use crate::writing::{self, Writing};

/// Something that is overlooked.
pub type Wrong<T> = (&'static str, fn(&mut T));

/// One of the numbers that a step answers, or bytes of the buffer.
pub const WRONG_NUMBERS: [Wrong<Reading>; 9] = [
    ("the number", |rules| rules.answer = |step, _, _| Step { number: step.number ^ 1, ..step }),
    ("whether there is a message", |rules| rules.answer = |step, _, _| Step { complete: step.complete ^ 1, ..step }),
    ("that a message is told with 1", |rules| rules.answer = |step, _, _| Step { complete: 2 * step.complete, ..step }),
    ("what is used", |rules| rules.answer = |step, _, _| Step { used: step.used ^ 1 << 32, ..step }),
    ("the message's length", |rules| rules.answer = |step, _, _| Step { length: step.length ^ 1 << 16, ..step }),
    ("what is taken", |rules| rules.answer = |step, _, _| Step { taken: step.taken ^ 1 << 31, ..step }),
    ("the size", |rules| rules.answer = |step, _, _| Step { size: step.size ^ 1 << 31, ..step }),
    ("the buffer's first byte", |rules| {
        rules.answer = |step, _, message| {
            message.iter_mut().take(1).for_each(|byte| *byte ^= 1);
            step
        }
    }),
    ("the buffer's last byte", |rules| {
        rules.answer = |step, _, message| {
            message.iter_mut().rev().take(1).for_each(|byte| *byte ^= 1);
            step
        }
    }),
];

/// About lengths and types.
pub const WRONG_HEADERS: [Wrong<Reading>; 14] = [
    ("that the length counts the type", |rules| rules.length = |size| size as usize),
    ("that the length doesn't count itself", |rules| rules.length = |size| (size as usize).saturating_sub(3)),
    ("which byte of the length is first", |rules| {
        rules.header[0] = |_, byte| Some((1, byte.into()));
        rules.header[1] = |(_, size), byte| Some((2, size + u32::from(byte) * 256)).filter(|&(_, size)| size > 0);
        rules.is_valid = |(taken, size)| taken == 1 && size < 256 || taken != 1 && (RIGHT.is_valid)((taken, size));
    }),
    ("the length's first byte", |rules| rules.header[1] = |_, byte| (byte > 0).then_some((2, byte.into()))),
    ("that length 0 is refused", |rules| {
        rules.header[1] = |(_, size), byte| Some((2, size + u32::from(byte)));
        rules.length = |size| size.saturating_sub(1) as usize;
        rules.is_valid = |state| state == (2, 0) || (RIGHT.is_valid)(state);
    }),
    ("that length 0 is shown before the type", |rules| {
        rules.header[1] = |(_, size), byte| Some((2, size + u32::from(byte)));
        rules.header[2] = |(_, size), byte| (size > 0 && byte == 1).then_some((3, size));
        rules.is_valid = |state| state == (2, 0) || (RIGHT.is_valid)(state);
    }),
    ("that length 1 is a message's", |rules| {
        rules.header[1] = |(_, size), byte| Some((2, size + u32::from(byte))).filter(|&(_, size)| size > 1);
    }),
    ("that length 256 isn't 0", |rules| {
        rules.header[1] = |(_, size), byte| (byte > 0).then_some((2, size + u32::from(byte)));
    }),
    ("that length 65,535 is one", |rules| {
        rules.header[1] =
            |(_, size), byte| Some((2, size + u32::from(byte))).filter(|(_, size)| (1..65_535).contains(size));
    }),
    ("the type", |rules| rules.header[2] = |(_, size), _| Some((3, size))),
    ("that type 0 is another one", |rules| rules.header[2] = |(_, size), byte| (byte <= 1).then_some((3, size))),
    ("that type 2 is another one", |rules| {
        rules.header[2] = |(_, size), byte| matches!(byte, 1 | 2).then_some((3, size))
    }),
    ("that type 129 is another one", |rules| {
        rules.header[2] = |(_, size), byte| (byte & 127 == 1).then_some((3, size))
    }),
    ("the type of an empty message", |rules| {
        rules.header[2] = |(_, size), byte| (byte == 1 || size == 1).then_some((3, size));
    }),
];

/// About refusals.
pub const WRONG_REFUSALS: [Wrong<Reading>; 9] = [
    ("that a refusal lasts", |rules| rules.refused_state = |_| (0, 0)),
    ("that a refused stream takes nothing more", |rules| {
        rules.answer = |step, handed, _| match handed.state {
            (0, 1) if step.number == REFUSED => Step { used: handed.chunk.len() as u64, ..step },
            _ => step,
        }
    }),
    ("that a refused stream is refused without bytes", |rules| {
        rules.answer = |step, handed, _| match handed {
            Handed { state: (0, 1), chunk: [], .. } if step.number == REFUSED => Step { number: DONE, ..step },
            _ => step,
        }
    }),
    ("that the byte that shows it is taken", |rules| rules.refused_used = |before, _| before),
    ("that nothing behind it is taken", |rules| rules.refused_used = |_, chunk| chunk),
    ("that what was taken counts", |rules| rules.refused_used = |_, _| 0),
    ("the state of refused ones", |rules| rules.refused_state = |state| state),
    ("that a refusing step writes nothing", |rules| rules.refused_written = |message| message[0] = 1),
    ("that a refusing step clears nothing", |rules| rules.refused_written = |message| message.fill(0)),
];

/// About messages and what is taken.
pub const WRONG_MESSAGES: [Wrong<Reading>; 19] = [
    ("that an empty message is complete", |rules| {
        rules.answer = |step, _, _| Step { complete: u32::from(step.length > 0), ..step };
    }),
    ("that empty messages are given", |rules| {
        rules.and_then = |rules, step, handed, message| match step {
            Step { complete: 1, length: 0, .. } => go_on(rules, step, handed, message),
            _ => step,
        }
    }),
    ("that messages aren't judged", |rules| {
        rules.answer = |step, _, message| match step.complete == 1 && decode(&message[..step.length as usize]).is_none()
        {
            true => Step { complete: 0, length: 0, ..step },
            false => step,
        }
    }),
    ("that messages aren't refused", |rules| {
        rules.answer = |step, _, message| match step.complete == 1 && decode(&message[..step.length as usize]).is_none()
        {
            true => Step { number: REFUSED, complete: 0, length: 0, taken: 0, size: 1, ..step },
            false => step,
        }
    }),
    ("that a step gives one message", |rules| {
        rules.and_then = |rules, step, handed, message| match step.complete {
            1 => go_on(rules, step, handed, message),
            _ => step,
        }
    }),
    ("that the next frame isn't begun", |rules| {
        rules.answer = |step, handed, _| match step.complete {
            1 if step.used < handed.chunk.len() as u64 => {
                let first = handed.chunk[step.used as usize];
                Step { used: step.used + 1, taken: 1, size: u32::from(first) * 256, ..step }
            }
            _ => step,
        }
    }),
    ("that the header is taken", |rules| {
        rules.answer = |step, handed, _| match step.number {
            DONE => Step { used: step.used - u64::from(3 - handed.state.0.min(3)).min(step.used), ..step },
            _ => step,
        }
    }),
    ("that more than 65,535 bytes are taken", |rules| {
        rules.answer = |step, _, _| Step { used: u64::from(step.used as u16), ..step };
    }),
    ("that the rest of the chunk is for the next step", |rules| {
        rules.answer = |step, handed, _| match step.complete {
            1 => Step { used: handed.chunk.len() as u64, ..step },
            _ => step,
        }
    }),
    ("that the state is fresh behind a message", |rules| {
        rules.answer = |step, _, _| match step.complete {
            1 => Step { taken: step.length + 3, size: step.length + 1, ..step },
            _ => step,
        }
    }),
    ("that the size is 0 behind a message", |rules| {
        rules.answer = |step, _, _| match step.complete {
            1 => Step { size: step.length + 1, ..step },
            _ => step,
        }
    }),
    ("that a message has a length", |rules| rules.answer = |step, _, _| Step { length: 0, ..step }),
    ("that a part of a message has none", |rules| {
        rules.answer = |step, _, _| match step.complete {
            0 => Step { length: step.taken.saturating_sub(3), ..step },
            _ => step,
        }
    }),
    ("that the type isn't the message's", |rules| {
        rules.answer = |step, _, _| match step.complete {
            1 => Step { length: step.length + 1, ..step },
            _ => step,
        }
    }),
    ("that a message is complete with its last byte", |rules| {
        rules.answer = |step, handed, _| match step.complete {
            1 if step.used == handed.chunk.len() as u64 => Step {
                complete: 0,
                length: 0,
                taken: step.length + 2,
                size: step.length + 1,
                used: step.used - 1,
                ..step
            },
            _ => step,
        }
    }),
    ("where a message starts", |rules| rules.place = |there, _| there + 1),
    ("where a message goes on", |rules| rules.place = |_, _| 0),
    ("where a message goes on behind its first byte", |rules| {
        rules.place = |there, before| if before > 4 { there - 1 } else { there };
    }),
    ("what stood behind a message", |rules| {
        rules.answer = |step, _, message| {
            if step.complete == 1 {
                message[step.length as usize..].fill(0);
            }
            step
        }
    }),
];

/// Another step on what is left; what both took counts.
fn go_on(rules: &Reading, step: Step, handed: &Handed, message: &mut [u8]) -> Step {
    let chunk = &handed.chunk[step.used as usize..];
    if chunk.is_empty() {
        return step;
    }
    let next = rules.step(&Handed { state: (step.taken, step.size), chunk, ..*handed }, message);
    Step { used: step.used + next.used, ..next }
}

/// About buffers that are too short.
pub const WRONG_ROOMS: [Wrong<Reading>; 11] = [
    ("that nothing is written with 5", |rules| {
        rules.answer = |step, _, message| {
            if step.number == SHORT {
                message.iter_mut().take(1).for_each(|byte| *byte = 1);
            }
            step
        }
    }),
    ("that 65,533 bytes are too short", |rules| rules.is_short = |handed| handed.room < MESSAGE_LIMIT - 1),
    ("that 65,534 bytes are enough", |rules| rules.is_short = |handed| handed.room <= MESSAGE_LIMIT),
    ("that a buffer needn't be empty to be too short", |rules| rules.is_short = |handed| handed.room == 0),
    ("that a short buffer isn't enough for a short message", |rules| {
        rules.is_short = |handed| handed.room < (handed.state.1 as usize).min(MESSAGE_LIMIT);
    }),
    ("that a buffer is too short without bytes", |rules| {
        rules.is_short = |handed| handed.room < MESSAGE_LIMIT && !handed.chunk.is_empty();
    }),
    ("that 5 comes before 6", |rules| rules.is_refused_first = |_| true),
    ("that 5 comes before 6 if refused", |rules| rules.is_refused_first = |handed| handed.state == (0, 1)),
    ("that 5 comes before 6 without bytes", |rules| rules.is_refused_first = |handed| handed.chunk.is_empty()),
    ("that 5 doesn't last", |rules| rules.short_state = |_| (0, 1)),
    ("that nothing is taken with 5", |rules| {
        rules.answer = |step, handed, _| match step.number {
            SHORT => Step { used: handed.chunk.len() as u64, ..step },
            _ => step,
        }
    }),
];

fn is_valid_or(state: State, also: bool) -> bool {
    also || (RIGHT.is_valid)(state)
}

/// About states that no bytes lead to; only single steps have them.
pub const WRONG_STATES: [Wrong<Reading>; 12] = [
    ("that (2, 0) is no state", |rules| {
        rules.is_valid = |state| is_valid_or(state, state == (2, 0));
        rules.length = |size| size.saturating_sub(1) as usize;
    }),
    ("that a frame of which all is taken is no state", |rules| {
        rules.is_valid = |(taken, size)| is_valid_or((taken, size), taken > 2 && size < 65_536 && taken == size + 2);
    }),
    ("that there aren't more bytes than a frame has", |rules| {
        rules.is_valid = |(taken, size)| is_valid_or((taken, size), taken > 2 && (1..65_536).contains(&size));
    }),
    ("that larger sizes are none", |rules| {
        rules.is_valid = |(taken, size)| match size {
            65_536.. => (3..65_538).contains(&taken),
            _ => (RIGHT.is_valid)((taken, size)),
        };
        rules.length = |size| size.min(65_535) as usize - 1;
    }),
    ("that size 65,536 is none", |rules| {
        rules.is_valid = |(taken, size)| is_valid_or((taken, size), (2..=65_537).contains(&taken) && size == 65_536);
    }),
    ("that a first byte's size ends with 0", |rules| {
        rules.is_valid = |(taken, size)| is_valid_or((taken, size), taken == 1 && size < 65_536);
        rules.header[1] = |(_, size), byte| (RIGHT.header[1])((1, size / 256 * 256), byte);
    }),
    ("that 65,536 is no first byte's size", |rules| {
        rules.is_valid = |state| is_valid_or(state, state == (1, 65_536));
        rules.header[1] = |(_, size), byte| (RIGHT.header[1])((1, size % 65_536), byte);
    }),
    ("that 65,280 is a first byte's size", |rules| {
        rules.is_valid = |state| state != (1, 65_280) && (RIGHT.is_valid)(state);
    }),
    ("that 0 is a first byte's size", |rules| {
        rules.is_valid = |state| state != (1, 0) && (RIGHT.is_valid)(state);
    }),
    ("the size of which nothing is taken", |rules| {
        rules.is_valid = |(taken, size)| is_valid_or((taken, size), taken == 0 && size > 1);
    }),
    ("that 65,535 is a size", |rules| {
        rules.is_valid = |(taken, size)| size != 65_535 && (RIGHT.is_valid)((taken, size));
    }),
    ("that what is no state comes back as refused", |rules| {
        rules.refused_state = |state| if (RIGHT.is_valid)(state) { (0, 1) } else { state };
    }),
];

/// About writing.
pub const WRONG_WRITES: [Wrong<Writing>; 20] = [
    ("that 65,535 bytes are too long", |rules| {
        rules.is_too_long = |length| length > MESSAGE_LIMIT + 1;
        rules.header = |length| (writing::RIGHT.header)(length.min(MESSAGE_LIMIT));
    }),
    ("that 65,534 bytes aren't too long", |rules| rules.is_too_long = |length| length >= MESSAGE_LIMIT),
    ("that long messages are too long", |rules| {
        rules.is_too_long = |length| length % 65_536 > MESSAGE_LIMIT;
        rules.header = |length| (writing::RIGHT.header)(length % 65_536);
    }),
    ("that empty messages aren't refused", |rules| {
        rules.is_too_long = |length| length == 0 || length > MESSAGE_LIMIT;
    }),
    ("that 6 comes before 5", |rules| rules.is_short_first = true),
    ("that a frame has a header", |rules| rules.is_short = |room, length| room < length),
    ("that a header has a type", |rules| rules.is_short = |room, length| room < length + 2),
    ("that just enough is enough", |rules| rules.is_short = |room, length| room <= length + 3),
    ("that less than the longest is enough", |rules| rules.is_short = |room, _| room < MESSAGE_LIMIT + 3),
    ("that the length counts the type", |rules| {
        rules.header = |length| [&(length as u16).to_be_bytes()[..], &[1]].concat()
    }),
    ("that the length doesn't count itself", |rules| {
        rules.header = |length| [&(length as u16).wrapping_add(3).to_be_bytes()[..], &[1]].concat();
    }),
    ("which byte of the length is first", |rules| {
        rules.header = |length| [&(length as u16 + 1).to_le_bytes()[..], &[1]].concat();
    }),
    ("the length's first byte", |rules| rules.header = |length| vec![0, (length + 1) as u8, 1]),
    ("the type", |rules| rules.header = |length| [&(length as u16 + 1).to_be_bytes()[..], &[0]].concat()),
    ("that the header is written", |rules| rules.length = |length| length),
    ("that a refused message has no length", |rules| rules.refused_length = |length| length + 3),
    ("that nothing is written of a refused message", |rules| {
        rules.refused_written = |frame, message| {
            frame.iter_mut().zip(message).for_each(|(byte, &new)| *byte = new);
        };
    }),
    ("that no header is written of a refused message", |rules| {
        rules.refused_written = |frame, message| {
            let header = (message.len() as u16).wrapping_add(1).to_be_bytes();
            frame.iter_mut().zip(header).for_each(|(byte, new)| *byte = new);
        };
    }),
    ("what stands behind the frame", |rules| rules.rest = |rest| rest.fill(0)),
    ("that one byte behind the frame stays", |rules| {
        rules.rest = |rest| rest.iter_mut().take(1).for_each(|byte| *byte = 0);
    }),
];
