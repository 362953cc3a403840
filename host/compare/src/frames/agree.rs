//! One call made of both, and a stream followed step by step. Each function gives that on which they agree, or the
//! difference.

use codec::frames::{parse, End};
use engine::frames::{Step, Written, DONE, MESSAGE_LIMIT, REFUSED};

use super::boundary::{Boundary, Second};
use super::kinds;
use crate::difference::{same, same_bytes, shown, Difference};
use crate::guarded::Guarded;
use crate::tally::{Found, Tally};

/// The message buffers, one for each implementation. They must stay the same byte for byte.
pub struct Buffers {
    ours: Guarded,
    expected: Guarded,
    unwritten: Guarded,
}

impl Buffers {
    pub fn new(room: usize) -> Self {
        let unwritten = Guarded::unwritten(room);
        Self { ours: unwritten.clone(), expected: unwritten.clone(), unwritten }
    }

    /// As if nothing had been written to them.
    pub fn renew(&mut self) {
        for buffer in [&mut self.ours, &mut self.expected] {
            buffer.lend_mut().copy_from_slice(self.unwritten.lend());
        }
    }
}

/// A step in this state, with so much of the buffers.
pub fn step(
    subject: &impl Boundary,
    (taken, size): (u32, u32),
    buffers: &mut Buffers,
    room: usize,
    chunk: &[u8],
) -> Result<Step, Difference> {
    let lent = Guarded::holding(chunk);
    let ours = subject.read(taken, size, &mut buffers.ours.lend_mut()[..room], lent.lend());
    let expected = Second.read(taken, size, &mut buffers.expected.lend_mut()[..room], chunk);
    let call = || format!("({taken}, {size}), a buffer of {room} bytes, {}", shown(chunk));
    same(call, &ours, &expected)?;
    same_bytes(call, &buffers.ours, &buffers.expected)?;
    same_bytes(call, &lent, &Guarded::holding(chunk))?;
    Ok(ours)
}

/// What the steps through streams reached.
#[derive(Default)]
pub struct Steps {
    /// States before a step, and its answers.
    pub answers: Tally,
    /// States before a step with an empty chunk, and messages.
    pub found: Found,
    pub number: u64,
}

impl Steps {
    pub fn note(&mut self, state: (u32, u32), chunk: &[u8], step: &Step) {
        self.number += 1;
        let kind = kinds::state(state.0, state.1);
        self.answers.count(kind, step.number);
        if chunk.is_empty() {
            self.found.add("empty chunk", kind);
        }
    }
}

/// A reader on its way through a stream.
struct Reader<'a, B> {
    subject: &'a B,
    buffers: &'a mut Buffers,
    /// Before each step the same is tried with so short buffers.
    short: &'a [usize],
    steps: &'a mut Steps,
    state: (u32, u32),
    messages: Vec<Vec<u8>>,
    used: usize,
    /// How often it was refused.
    refusals: usize,
}

/// A refused stream goes on until it was refused so often.
const REFUSALS: usize = 5;

/// Offers the chunks of a stream one by one. The messages and the end must be those of the chunks joined.
pub fn stream<B: Boundary>(
    subject: &B,
    buffers: &mut Buffers,
    short: &[usize],
    chunks: &[&[u8]],
    steps: &mut Steps,
) -> Result<(), Difference> {
    buffers.renew();
    let (state, messages) = ((0, 0), vec![]);
    let mut reader = Reader { subject, buffers, short, steps, state, messages, used: 0, refusals: 0 };
    for chunk in chunks {
        if reader.refusals < REFUSALS {
            reader.offer(chunk)?;
        }
    }
    if reader.refusals > 0 {
        reader.offer(&[])?;
        reader.offer(&[0, 2, 1, 13, 0, 1, 1])?;
    }
    let whole = chunks.concat();
    let (messages, end) = parse(&whole);
    let call = || format!("{}, in chunks of {:?}", shown(&whole), lengths(chunks));
    same(call, &reader.messages.iter().map(Vec::as_slice).collect(), &messages)?;
    same(call, &reader.end(), &end)
}

/// The lengths of the first chunks.
fn lengths(chunks: &[&[u8]]) -> Vec<usize> {
    chunks.iter().take(70).map(|chunk| chunk.len()).collect()
}

impl<B: Boundary> Reader<'_, B> {
    /// Whatever a step leaves of the chunk is offered again, until one has taken all of it and has no message.
    fn offer(&mut self, mut chunk: &[u8]) -> Result<(), Difference> {
        while self.refusals == 0 {
            let step = self.step(chunk)?;
            self.state = (step.taken, step.size);
            self.used += step.used as usize;
            chunk = &chunk[step.used as usize..];
            match step {
                Step { number: REFUSED, .. } => self.refusals = 1,
                Step { complete: 1, length, .. } => self.give(length as usize),
                _ => return Ok(()),
            }
        }
        self.stays_refused(chunk)
    }

    fn step(&mut self, chunk: &[u8]) -> Result<Step, Difference> {
        for &room in self.short {
            let short = step(self.subject, self.state, self.buffers, room, chunk)?;
            self.steps.note(self.state, chunk, &short);
        }
        let step = step(self.subject, self.state, self.buffers, MESSAGE_LIMIT, chunk)?;
        self.steps.note(self.state, chunk, &step);
        Ok(step)
    }

    fn give(&mut self, length: usize) {
        let message = self.buffers.ours.lend()[..length].to_vec();
        self.steps.found.add("message", kinds::message(&message));
        self.messages.push(message);
    }

    /// Nothing more is taken of a refused stream, and nothing changes.
    fn stays_refused(&mut self, chunk: &[u8]) -> Result<(), Difference> {
        let (taken, size) = self.state;
        let lent = Guarded::holding(chunk);
        let again = self.subject.read(taken, size, &mut self.buffers.ours.lend_mut()[..MESSAGE_LIMIT], lent.lend());
        let call = || format!("({taken}, {size}) of a refused stream, {}", shown(chunk));
        same(call, &again, &Step { number: REFUSED, taken: 0, size: 1, ..Step::default() })?;
        self.steps.note(self.state, chunk, &again);
        self.refusals += 1;
        same_bytes(call, &self.buffers.ours, &self.buffers.expected)
    }

    fn end(&self) -> End {
        match self.refusals {
            0 => End::Within(self.state.0 as usize),
            _ => End::Refused(self.used),
        }
    }
}

/// Writes the message into a buffer with this much room, and reads back what was written.
pub fn write(subject: &impl Boundary, message: &[u8], room: usize) -> Result<Written, Difference> {
    let lent = Guarded::holding(message);
    let (mut ours, mut expected) = (Guarded::unwritten(room), Guarded::unwritten(room));
    let answer = subject.write(ours.lend_mut(), lent.lend());
    let expected_answer = Second.write(expected.lend_mut(), message);
    let call = || format!("writing {} into {room} bytes", shown(message));
    same(call, &answer, &expected_answer)?;
    same_bytes(call, &ours, &expected)?;
    same_bytes(call, &lent, &Guarded::holding(message))?;
    if answer.number == DONE {
        let frame = &ours.lend()[..answer.length as usize];
        same(|| format!("what comes back after {}", call()), &parse(frame), &(vec![message], End::Within(0)))?;
    } else {
        same_bytes(call, &ours, &Guarded::unwritten(room))?;
    }
    Ok(answer)
}
