//! The eighteen writers, with fields in and out of their ranges and buffers too short, just long enough and longer.

use codec::Message;
use compare::agree;
use compare::boundary::Proved;
use compare::difference::Difference;
use compare::tally::Tally;
use compare::{amount, forms};
use engine::svsc::{DONE, MALFORMED, SHORT};

/// One more than the longest form without data needs.
const MORE_THAN_ENOUGH: usize = 55;

#[test]
fn every_form_with_fields_at_their_edges() -> Result<(), Difference> {
    let mut random = amount::random();
    let mut tally = Tally::default();
    let pool = forms::pool(&mut random);
    for _ in 0..amount::rounds(10) {
        let edges = forms::edges(&mut random, &pool);
        for message in edges.into_iter().chain(forms::one_of_each(&mut random, &pool)) {
            count_writes(&mut tally, &message)?;
        }
    }
    for length in forms::DATA_LENGTHS {
        for message in forms::with_data(random.part(&pool, length)) {
            count_writes(&mut tally, &message)?;
        }
    }
    println!("{tally}");
    for message in forms::one_of_each(&mut random, &pool) {
        let name = forms::name(&message);
        tally.assert_reached(name, DONE, true);
        tally.assert_reached(name, SHORT, true);
        tally.assert_reached(name, MALFORMED, has_a_range(&message));
    }
    Ok(())
}

/// Writes the message into buffers of each length, and counts the answers under its form.
fn count_writes(tally: &mut Tally, message: &Message) -> Result<(), Difference> {
    for room in rooms(message) {
        tally.count(forms::name(message), agree::write(&Proved, message, room)?.number);
    }
    Ok(())
}

/// From none to one more than enough; where there is much data, some from the middle too and the last.
fn rooms(message: &Message) -> Vec<usize> {
    let mut rooms: Vec<usize> = (0..=MORE_THAN_ENOUGH).collect();
    if let Message::DataSend { data } | Message::DataReceive { data } = message {
        let enough = 1 + data.len();
        rooms.extend((0..4).map(|quarter| enough / 4 * quarter));
        rooms.extend(enough - 1..=enough + 1);
    }
    rooms
}

/// Whether some values of this form's fields are refused. Ids and expirations fill their fields, and the other forms
/// here have no fields.
fn has_a_range(message: &Message) -> bool {
    !matches!(
        message,
        Message::LeaseRequest
            | Message::LeaseRefused
            | Message::ExtensionRefused
            | Message::ExtensionGranted { .. }
            | Message::EstablishRequest { .. }
            | Message::SessionEnd
            | Message::SessionEndNotification
            | Message::Keepalive
    )
}
