//! Sends of the engine against a plain copy of their data.

use std::hint::black_box;
use std::time::Duration;

use codec::DATA_LIMIT;
use engine::relay;

use super::cases::{self, Case};
use super::measure::{batch, Comparison};
use super::memory::{Memory, Place, ALIGNED, BUFFER_OFF, MESSAGE_OFF, NEAR};
use super::relays::{Kind, Lent};
use super::{compare, Aim, Limit, Row, Section};
use crate::Failure;

/// A send, and what is hoped of it, if anything.
struct Length {
    what: &'static str,
    data: usize,
    aim: Option<(&'static str, Limit)>,
}

const LENGTHS: [Length; 5] = [
    Length {
        what: "send of 1 byte",
        data: 1,
        aim: Some(("the shortest send under 60 ns over a plain copy", Limit::Nanoseconds(60.0))),
    },
    Length { what: "send of 64 bytes", data: 64, aim: None },
    Length { what: "send of 1,024 bytes", data: 1_024, aim: None },
    LONG,
    Length {
        what: "send of 65,533 bytes",
        data: DATA_LIMIT,
        aim: Some(("the longest send at most 1.05 times a plain copy", Limit::Ratio(1.05))),
    },
];

/// Message and buffer fit the first cache together, so its place counts most.
const LONG: Length = Length {
    what: "send of 16,384 bytes",
    data: 16_384,
    aim: Some(("one of 16,384 bytes at most 1.15 times a plain copy", Limit::Ratio(1.15))),
};

/// Sends of each length, with data where a host should have it.
pub fn by_length() -> Result<Section, Failure> {
    let rows = LENGTHS.iter().map(|length| row(length, &ALIGNED)).collect::<Result<_, _>>()?;
    let places = LENGTHS.iter().enumerate();
    let aims = places.filter_map(|(row, length)| length.aim.map(|(text, limit)| Aim { text, row: Some(row), limit }));
    Ok(Section { rows, aims: aims.collect() })
}

/// A long send with data elsewhere.
pub fn by_place() -> Result<Section, Failure> {
    let places = [BUFFER_OFF, MESSAGE_OFF, NEAR];
    let rows = places.iter().map(|place| row(&LONG, place)).collect::<Result<_, _>>()?;
    Ok(Section { rows, aims: Vec::new() })
}

fn row(length: &Length, place: &Place) -> Result<Row, Failure> {
    let mut send = Send::new(length, place).ok_or_else(super::unprepared)?;
    compare(format!("{}, {}, against a plain copy", length.what, place.text), &mut send)
}

/// Both sides copy from the one message to the one buffer.
struct Send {
    case: Case,
    lent: Lent,
    memory: Memory,
    /// The buffer after a send: the message as a receiver gets it, and the rest as it was.
    received: Vec<u8>,
}

impl Send {
    fn new(length: &Length, place: &Place) -> Option<Self> {
        let case = cases::send(length.what, length.data)?;
        let Kind::Message(message) = &case.calls.first()?.kind else { return None };
        let mut received = codec::encode(&codec::Message::DataReceive { data: message.get(1..)? })?;
        received.resize(case.prepared.relay.len(), 0);
        let memory = Memory::new(message, received.len(), place)?;
        Some(Self { lent: case.prepared.clone(), case, memory, received })
    }
}

// Neither the length nor the place is known where the two sides are compiled, as in any host.
impl Comparison for Send {
    fn engine(&mut self) -> Option<Duration> {
        self.memory.clear();
        let call = self.case.calls.first()?;
        let Lent { now, tables, map, random, reply, .. } = &mut self.lent;
        let (message, buffer) = self.memory.lend();
        let time = batch(|| {
            *now += self.case.seconds;
            let tables = relay::Tables {
                connections: &mut tables.connections,
                leases: &mut tables.leases,
                allowances: &mut tables.allowances,
            };
            let (message, buffer) = (black_box(message), black_box(&mut *buffer));
            let answer = relay::message(tables, *map, *now, call.connection, message, random, reply, buffer);
            *map = answer.map;
            call.is_answered_by(answer)
        })?;
        (*buffer == *self.received).then_some(time)
    }

    fn other(&mut self) -> Option<Duration> {
        self.memory.clear();
        let (message, buffer) = self.memory.lend();
        let data = message.get(1..)?;
        let room = buffer.get_mut(1..=data.len())?;
        let time = batch(|| {
            black_box(&mut *room).copy_from_slice(black_box(data));
            true
        })?;
        (room == data).then_some(time)
    }
}

#[cfg(test)]
mod tests {
    use super::{Comparison, Send, ALIGNED, BUFFER_OFF, LENGTHS, LONG, MESSAGE_OFF, NEAR};

    #[test]
    fn every_send_can_be_measured_at_every_place() {
        for length in LENGTHS {
            for place in [ALIGNED, BUFFER_OFF, MESSAGE_OFF, NEAR] {
                let mut send = Send::new(&length, &place).expect("a send");
                for _ in 0..2 {
                    assert!(send.engine().is_some(), "the engine: {}, {}", length.what, place.text);
                    assert!(send.other().is_some(), "the copy: {}, {}", length.what, place.text);
                }
            }
        }
    }

    #[test]
    fn another_byte_than_expected_is_noticed() {
        let mut send = Send::new(&LONG, &ALIGNED).expect("a send");
        send.received[LONG.data] ^= 1;
        assert!(send.engine().is_none());
    }
}
