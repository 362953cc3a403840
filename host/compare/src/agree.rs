//! One call made of both codecs. Each function gives the answer on which they agree, or the difference.

use codec::Message;
use engine::svsc::{self, Written};

use crate::boundary::{field_of, Boundary, Second};
use crate::difference::{same, same_bytes, shown, Difference};
use crate::forms;
use crate::guarded::Guarded;

/// Every field of bytes, and two numbers that are none.
pub const FIELDS: [u32; 7] = [svsc::COOKIE, svsc::SESSION, svsc::PEER, svsc::KEY, svsc::DATA, 5, u32::MAX];

/// Reads the bytes as numbers and as every field, each with a buffer of just its length.
pub fn read(subject: &impl Boundary, message: &[u8]) -> Result<svsc::Message, Difference> {
    let lent = Guarded::holding(message);
    let ours = subject.read(lent.lend());
    let call = || format!("reading {}", shown(message));
    same(call, &ours, &Second.read(message))?;
    for number in FIELDS {
        field_of_lent(subject, &lent, number, field_of(message, number).len())?;
    }
    same_bytes(call, &lent, &Guarded::holding(message))?;
    Ok(ours)
}

/// Copies a field into a buffer with this much room.
pub fn field(subject: &impl Boundary, message: &[u8], number: u32, room: usize) -> Result<Written, Difference> {
    let lent = Guarded::holding(message);
    let answer = field_of_lent(subject, &lent, number, room)?;
    same_bytes(|| format!("field {number} of {}", shown(message)), &lent, &Guarded::holding(message))?;
    Ok(answer)
}

fn field_of_lent(subject: &impl Boundary, lent: &Guarded, number: u32, room: usize) -> Result<Written, Difference> {
    let message = lent.lend();
    let (mut ours, mut expected) = (Guarded::unwritten(room), Guarded::unwritten(room));
    let expected_answer = Second.field(message, number, expected.lend_mut());
    let answer = subject.field(message, number, ours.lend_mut());
    let call = || format!("field {number} of {} into {room} bytes", shown(message));
    same(call, &answer, &expected_answer)?;
    same_bytes(call, &ours, &expected)?;
    Ok(answer)
}

/// Writes the message into a buffer with this much room, and reads back what was written.
pub fn write(subject: &impl Boundary, message: &Message, room: usize) -> Result<Written, Difference> {
    let (mut ours, mut expected) = (Guarded::unwritten(room), Guarded::unwritten(room));
    let expected_answer = Second.write(message, expected.lend_mut());
    let answer = subject.write(message, ours.lend_mut());
    let call = || format!("writing {} into {room} bytes", forms::name(message));
    same(call, &answer, &expected_answer)?;
    same_bytes(call, &ours, &expected)?;
    if answer.number == svsc::DONE {
        let bytes = &ours.lend()[..answer.length];
        read(subject, bytes)?;
        same(|| format!("what comes back after {}", call()), &codec::decode(bytes).as_ref(), &Some(message))?;
    } else {
        same_bytes(call, &ours, &Guarded::unwritten(room))?;
    }
    Ok(answer)
}
