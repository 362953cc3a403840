//! Mistakes in calls, so that some check may refuse them.

use codec::{encode, Message};
use engine::relay::{BUFFER, RANDOM};
use model::{CONNECTIONS, TIME_LIMIT};

use super::boundary::{Call, Kind};
use super::calls::{close, keepalive, message, open, Calls};
use crate::forms;
use crate::random::Random;

/// Connection numbers that there are not, some with low bytes that would be one.
const NO_CONNECTIONS: [u64; 8] =
    [CONNECTIONS as u64, CONNECTIONS as u64 + 1, 255, 256, 1 << 32, (1 << 32) + 5, 1 << 63, u64::MAX];

pub(super) const TIMES_TOO_LATE: [u64; 4] = [TIME_LIMIT, TIME_LIMIT + 1, 1 << 63, u64::MAX];

/// Lengths that no buffer has, some with low bits that would be too short.
const LENGTHS_BEYOND_MEMORY: [usize; 4] = [1 << 32, (1 << 32) + 64, 1 << 63, usize::MAX];

impl Calls<'_> {
    /// Changes one thing that the call brings.
    pub fn spoil(&mut self, call: &mut Call, clock: u64) {
        match self.random.below(6) {
            0 => call.now = self.odd_time(call.now, clock),
            1 => call.kind = self.any_kind(),
            2 => self.spoil_connection(&mut call.kind),
            3 => self.spoil_message(&mut call.kind),
            _ => self.spoil_buffer(&mut call.kind),
        }
    }

    fn odd_time(&mut self, now: u64, clock: u64) -> u64 {
        match self.random.below(3) {
            0 => self.random.choice(&TIMES_TOO_LATE),
            1 => self.random.choice(&[0, clock.saturating_sub(1)]),
            _ => now,
        }
    }

    /// A call of any connection, whatever its state.
    fn any_kind(&mut self) -> Kind {
        let connection = self.random.below(CONNECTIONS);
        match self.random.below(4) {
            0 => open(connection),
            1 => close(connection),
            2 => keepalive(connection),
            _ => message(connection, self.any_message(), self.any_random_bytes()),
        }
    }

    /// A message of any form, peers' or not.
    fn any_message(&mut self) -> Vec<u8> {
        let messages = forms::one_of_each(self.random, self.pool);
        encode(&self.random.choice::<Message>(&messages)).expect("a message whose fields are in range")
    }

    fn spoil_connection(&mut self, kind: &mut Kind) {
        if let Some(connection) = kind.connection_mut() {
            *connection = self.random.choice(&NO_CONNECTIONS);
        }
    }

    /// Another message, or the same with one byte changed, one fewer or one more.
    fn spoil_message(&mut self, kind: &mut Kind) {
        let another = self.any_message();
        if let Kind::Message { message, relay, .. } = kind {
            match self.random.below(5) {
                0 => *message = another,
                1 => message.push(0),
                2 => drop(message.pop()),
                3 if !message.is_empty() => {
                    let place = self.random.below(message.len().min(4));
                    message[place] = self.random.choice(&[0, 1, 2, 5, 9, 14, 255]);
                }
                _ => message.clear(),
            }
            *relay = BUFFER.max(message.len());
        }
    }

    /// Gives a buffer, at times, a length that none has.
    pub fn lengthen(&mut self, call: &mut Call) {
        if self.random.one_in(6) {
            let length = self.random.choice(&LENGTHS_BEYOND_MEMORY);
            self.change_room(&mut call.kind, |_, room| *room = length);
        }
    }

    /// One byte too few or too many of what must have a length.
    fn spoil_buffer(&mut self, kind: &mut Kind) {
        match kind {
            Kind::Message { random, .. } if self.random.one_in(3) => random.resize(near(self.random, RANDOM), 7),
            _ => self.change_room(kind, |random, room| *room = near(random, *room)),
        }
    }

    /// Changes the length of one of the buffers that the call is lent, if any.
    fn change_room(&mut self, kind: &mut Kind, change: impl FnOnce(&mut Random, &mut usize)) {
        let mut rooms = kind.rooms_mut();
        if !rooms.is_empty() {
            let place = self.random.below(rooms.len());
            change(self.random, rooms[place]);
        }
    }
}

fn near(random: &mut Random, length: usize) -> usize {
    random.choice(&[length.saturating_sub(1), length + 1, length + 40, 0])
}
