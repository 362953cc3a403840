//! The reader, svsc_read, and for each input every field of bytes with a buffer of just its length.

use codec::{encode, Message};
use compare::agree;
use compare::boundary::Proved;
use compare::difference::Difference;
use compare::random::Random;
use compare::tally::Tally;
use compare::{amount, forms};
use engine::svsc::{DONE, MALFORMED};

/// Reads the bytes and counts the answer under the type that their first byte says.
fn count_by_type(tally: &mut Tally, message: &[u8]) -> Result<(), Difference> {
    let read = agree::read(&Proved, message)?;
    tally.count(forms::type_name(message), read.number);
    Ok(())
}

#[test]
fn inputs_of_up_to_two_bytes() -> Result<(), Difference> {
    let mut tally = Tally::default();
    count_by_type(&mut tally, &[])?;
    for first in 0..=255 {
        count_by_type(&mut tally, &[first])?;
        for second in 0..=255 {
            count_by_type(&mut tally, &[first, second])?;
        }
    }
    println!("{tally}");
    Ok(())
}

#[test]
fn every_first_byte_with_every_length() -> Result<(), Difference> {
    let mut random = amount::random();
    let mut tally = Tally::default();
    for round in 0..amount::rounds(48) {
        count_by_type(&mut tally, &[])?;
        for first in 0..=255 {
            for length in 0..70 {
                let rest = contents(&mut random, round, length);
                count_by_type(&mut tally, &[&[first], &rest[..]].concat())?;
            }
        }
    }
    println!("{tally}");
    for name in forms::TYPES {
        tally.assert_reached(name, DONE, true);
        // Data is never too long here: see `data_around_its_limit`.
        tally.assert_reached(name, MALFORMED, !name.starts_with("SessionData"));
    }
    Ok(())
}

/// What comes after the type. The round decides how much of it is left to chance, so that with any seed every flag and
/// status and enough version texts come.
fn contents(random: &mut Random, round: u64, length: usize) -> Vec<u8> {
    match round % 4 {
        0 => random.bytes(length),
        1 => with_small_numbers(random.bytes(length), round / 4),
        2 => version_text(random, length),
        _ => {
            let text = version_text(random, length);
            spoiled(random, text)
        }
    }
}

/// The bytes, their first five from 0 to 6: in seven turns the flag behind the type, and the status behind an id, take
/// each of these values.
fn with_small_numbers(mut bytes: Vec<u8>, turn: u64) -> Vec<u8> {
    for (byte, place) in bytes.iter_mut().take(5).zip(turn..) {
        *byte = (place % 7) as u8;
    }
    bytes
}

/// The bytes with one changed to what is nearly a digit, or is one.
fn spoiled(random: &mut Random, mut bytes: Vec<u8>) -> Vec<u8> {
    if !bytes.is_empty() {
        let place = random.below(bytes.len());
        bytes[place] = random.choice(b"/:0 ");
    }
    bytes
}

/// A version text with random digits, cut off or followed by random bytes.
fn version_text(random: &mut Random, length: usize) -> Vec<u8> {
    let text = format!("SVSC {:03}.{:03}", random.below(1000), random.below(1000));
    let mut bytes = [text.into_bytes(), random.bytes(length)].concat();
    bytes.truncate(length);
    bytes
}

#[test]
fn mutations_of_every_form() -> Result<(), Difference> {
    let mut random = amount::random();
    let mut tally = Tally::default();
    let pool = forms::pool(&mut random);
    for _ in 0..amount::rounds(8) {
        for message in forms::one_of_each(&mut random, &pool) {
            count_mutations(&mut random, &mut tally, &message)?;
        }
    }
    // The longest data, which a byte more makes too long.
    for message in forms::with_data(&pool[..codec::DATA_LIMIT]) {
        count_mutations(&mut random, &mut tally, &message)?;
    }
    println!("{tally}");
    for message in forms::one_of_each(&mut random, &pool) {
        tally.assert_reached(forms::name(&message), DONE, true);
        tally.assert_reached(forms::name(&message), MALFORMED, true);
    }
    Ok(())
}

/// Reads the message and its mutations. Those that keep the first byte are counted under its form.
fn count_mutations(random: &mut Random, tally: &mut Tally, message: &Message) -> Result<(), Difference> {
    let bytes = encode(message).expect("a message whose fields are in range");
    tally.count(forms::name(message), agree::read(&Proved, &bytes)?.number);
    for mutation in mutations(random, &bytes) {
        let read = agree::read(&Proved, &mutation)?;
        if mutation.first() == bytes.first() {
            tally.count(forms::name(message), read.number);
        }
    }
    Ok(())
}

/// The bytes with one fewer, with one more, and with one changed to several values and in each bit. Of long data only
/// the first bytes change.
fn mutations(random: &mut Random, bytes: &[u8]) -> Vec<Vec<u8>> {
    let mut mutations = vec![bytes[..bytes.len() - 1].to_vec(), [bytes, &[random.byte()]].concat()];
    for place in 0..bytes.len().min(60) {
        let flips = (0..8).map(|bit| bytes[place] ^ (1 << bit));
        let values = [0, 1, 2, 5, 6, b'/', b'0', b'9', b':', 127, 128, 255, random.byte()];
        for value in flips.chain(values) {
            let mut mutation = bytes.to_vec();
            mutation[place] = value;
            mutations.push(mutation);
        }
    }
    mutations
}

#[test]
fn data_around_its_limit() -> Result<(), Difference> {
    let mut random = amount::random();
    let mut tally = Tally::default();
    let pool = forms::pool(&mut random);
    for length in forms::DATA_LENGTHS {
        for kind in [11, 12] {
            count_by_type(&mut tally, &[&[kind], random.part(&pool, length)].concat())?;
        }
    }
    println!("{tally}");
    for name in [forms::TYPES[11], forms::TYPES[12]] {
        tally.assert_reached(name, DONE, true);
        tally.assert_reached(name, MALFORMED, true);
    }
    Ok(())
}
