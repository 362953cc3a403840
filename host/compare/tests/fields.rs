//! svsc_field for every form and every field number, with buffers too short, just long enough and longer.

use codec::encode;
use compare::agree;
use compare::boundary::{field_of, Proved};
use compare::difference::Difference;
use compare::tally::Tally;
use compare::{amount, forms};
use engine::svsc::{DONE, MALFORMED, SHORT};

const NAMES: [&str; 7] = ["cookie", "session", "peer", "key", "data", "5", "the highest number"];

#[test]
fn every_field_of_every_form() -> Result<(), Difference> {
    let mut random = amount::random();
    let mut tally = Tally::default();
    let pool = forms::pool(&mut random);
    for _ in 0..amount::rounds(200) {
        for message in forms::one_of_each(&mut random, &pool) {
            let bytes = encode(&message).expect("a message whose fields are in range");
            count_fields(&mut tally, &bytes)?;
            // Mostly no message at all.
            count_fields(&mut tally, &[&bytes[..], &[0]].concat())?;
        }
    }
    for length in forms::DATA_LENGTHS {
        for kind in [11, 12] {
            count_fields(&mut tally, &[&[kind], random.part(&pool, length)].concat())?;
        }
    }
    println!("{tally}");
    for (name, number) in NAMES.into_iter().zip(agree::FIELDS) {
        tally.assert_reached(name, DONE, true);
        tally.assert_reached(name, MALFORMED, true);
        tally.assert_reached(name, SHORT, number < 5);
    }
    Ok(())
}

/// Copies each field into buffers of several lengths, and counts the answers under the field.
fn count_fields(tally: &mut Tally, message: &[u8]) -> Result<(), Difference> {
    for (name, number) in NAMES.into_iter().zip(agree::FIELDS) {
        let enough = field_of(message, number).len();
        for room in [0, 1, enough / 2, enough.saturating_sub(1), enough, enough + 1, enough + 40] {
            tally.count(name, agree::field(&Proved, message, number, room)?.number);
        }
    }
    Ok(())
}
