//! A reader whose rules can be replaced one by one.

use compare::frames::boundary::{Boundary, Second};
use engine::frames::{Step, Written, MESSAGE_LIMIT, REFUSED, SHORT};

/// The reader's state: taken, and size.
pub type State = (u32, u32);

pub const FRESH: State = (0, 0);
const REFUSED_STATE: State = (0, 1);

/// What a step is handed.
pub struct Handed<'a> {
    pub state: State,
    pub room: usize,
    pub chunk: &'a [u8],
}

/// What a byte of a header leads to, or a refusal.
pub type Header = fn(State, u8) -> Option<State>;

/// A reader by these rules; it writes as the second implementation does.
#[derive(Clone, Copy)]
pub struct Reading {
    pub is_short: fn(&Handed) -> bool,
    /// Whether a state is refused before the buffer's length is looked at.
    pub is_refused_first: fn(&Handed) -> bool,
    /// The state behind a buffer that is too short.
    pub short_state: fn(State) -> State,
    pub is_valid: fn(State) -> bool,
    /// The state behind a refusal, from the one before it.
    pub refused_state: fn(State) -> State,
    /// What the length's first byte, its second and the type lead to.
    pub header: [Header; 3],
    /// How many bytes of a refused chunk are taken, with those before the byte that shows it and the whole chunk's.
    pub refused_used: fn(usize, usize) -> usize,
    /// What is written in a refusing step.
    pub refused_written: fn(&mut [u8]),
    /// The message's length by the frame's.
    pub length: fn(u32) -> usize,
    /// Where the next byte goes, by what is taken, and how many were taken before this step.
    pub place: fn(usize, u32) -> usize,
    /// The step's answer, changed.
    pub answer: fn(Step, &Handed, &mut [u8]) -> Step,
    /// What is done with a step and what it left.
    pub and_then: fn(&Reading, Step, &Handed, &mut [u8]) -> Step,
}

/// As the papers say.
pub const RIGHT: Reading = Reading {
    is_short: |handed| handed.room < MESSAGE_LIMIT,
    is_refused_first: |_| false,
    short_state: |state| state,
    is_valid: |(taken, size)| match taken {
        0 => size == 0,
        1 => size.is_multiple_of(256) && size <= 65_280,
        _ => (1..=65_535).contains(&size) && taken < size + 2,
    },
    refused_state: |_| REFUSED_STATE,
    header: [
        |_, byte| Some((1, u32::from(byte) * 256)),
        |(_, size), byte| Some((2, size + u32::from(byte))).filter(|&(_, size)| size > 0),
        |(_, size), byte| (byte == 1).then_some((3, size)),
    ],
    refused_used: |before, _| before + 1,
    refused_written: |_| {},
    length: |size| size as usize - 1,
    place: |there, _| there,
    answer: |step, _, _| step,
    and_then: |_, step, _, _| step,
};

impl Reading {
    pub fn step(&self, handed: &Handed, message: &mut [u8]) -> Step {
        let step = self.unchanged(handed, message);
        let step = (self.answer)(step, handed, message);
        (self.and_then)(self, step, handed, message)
    }

    fn unchanged(&self, handed: &Handed, message: &mut [u8]) -> Step {
        let is_valid = (self.is_valid)(handed.state);
        if (self.is_short)(handed) && (is_valid || !(self.is_refused_first)(handed)) {
            let (taken, size) = (self.short_state)(handed.state);
            return Step { number: SHORT, taken, size, ..Step::default() };
        }
        if !is_valid {
            return self.refused(handed.state, 0, message);
        }
        let mut state = handed.state;
        let mut used = 0;
        while let Some(rule) = self.header.get(state.0 as usize) {
            let Some(&byte) = handed.chunk.get(used) else { return within(state, used) };
            match rule(state, byte) {
                Some(next) => state = next,
                None => return self.refused(state, (self.refused_used)(used, handed.chunk.len()), message),
            }
            used += 1;
        }
        self.store(state, used, handed, message)
    }

    /// The message's bytes, as many as there are.
    fn store(&self, (taken, size): State, used: usize, handed: &Handed, message: &mut [u8]) -> Step {
        let length = (self.length)(size);
        let there = taken as usize - 3;
        let rest = &handed.chunk[used..];
        let stored = rest.len().min(length.saturating_sub(there));
        let place = (self.place)(there, handed.state.0);
        // What a wrong place leaves no room for isn't stored.
        message.iter_mut().skip(place).zip(&rest[..stored]).for_each(|(byte, &new)| *byte = new);
        let used = used + stored;
        if there + stored < length {
            return within((taken + stored as u32, size), used);
        }
        Step { complete: 1, length: length as u32, ..within(FRESH, used) }
    }

    fn refused(&self, state: State, used: usize, message: &mut [u8]) -> Step {
        (self.refused_written)(message);
        Step { number: REFUSED, ..within((self.refused_state)(state), used) }
    }
}

fn within((taken, size): State, used: usize) -> Step {
    Step { taken, size, used: used as u64, ..Step::default() }
}

impl Boundary for Reading {
    fn read(&self, taken: u32, size: u32, message: &mut [u8], chunk: &[u8]) -> Step {
        self.step(&Handed { state: (taken, size), room: message.len(), chunk }, message)
    }

    fn write(&self, frame: &mut [u8], message: &[u8]) -> Written {
        Second.write(frame, message)
    }
}
