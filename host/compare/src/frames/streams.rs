//! Streams, well-formed and damaged, each cut in several ways and compared, and counts of what was reached.

use std::fmt;

use codec::frames::MESSAGE_LIMIT;
use engine::frames::{DONE, REFUSED, SHORT};

use super::agree::{self, Buffers, Steps};
use super::boundary::Boundary;
use super::cuts::{self, WAYS};
use super::damage::{self, DAMAGES};
use super::kinds;
use crate::difference::Difference;
use crate::random::Random;
use crate::tally::Found;
use crate::{amount, forms};

/// Buffers that are too short, tried before each step in some streams.
const SHORT_ROOMS: [&[usize]; 2] = [&[MESSAGE_LIMIT - 1], &[0, MESSAGE_LIMIT - 1]];

/// The name under which streams are counted that more than one thing happened to.
const SEVERAL: &str = "several of these";

/// What was reached.
#[derive(Default)]
pub struct Reached {
    steps: Steps,
    /// What happened to streams, and how they end.
    ends: Found,
    pub streams: u64,
}

/// Compares so many streams until something differs.
pub fn compare(subject: &impl Boundary, number: u64) -> Result<Reached, Difference> {
    let mut random = amount::random();
    let pool = forms::pool(&mut random);
    let mut buffers = Buffers::new(MESSAGE_LIMIT);
    let mut reached = Reached::default();
    for turn in 0..amount::rounds(number) {
        let (name, _, damage) = DAMAGES[turn as usize % DAMAGES.len()];
        let mut stream = damage::well_formed(&mut random, &pool);
        damage(&mut random, &mut stream);
        let is_once = !random.one_in(6);
        if !is_once {
            let (_, _, damage) = DAMAGES[random.below(DAMAGES.len())];
            damage(&mut random, &mut stream);
        }
        reached.compare(subject, &mut random, &mut buffers, if is_once { name } else { SEVERAL }, &stream)?;
    }
    Ok(reached)
}

impl Reached {
    /// A stream, cut in each of the ways.
    fn compare(
        &mut self,
        subject: &impl Boundary,
        random: &mut Random,
        buffers: &mut Buffers,
        name: &'static str,
        stream: &[u8],
    ) -> Result<(), Difference> {
        self.streams += 1;
        self.ends.add(name, kinds::end(stream));
        for way in WAYS {
            let places = way(random, stream);
            let short = if random.one_in(10) { random.choice(&SHORT_ROOMS) } else { &[] };
            agree::stream(subject, buffers, short, &cuts::chunks(stream, &places), &mut self.steps)?;
        }
        Ok(())
    }

    /// Asserts that everything was reached.
    pub fn assert_all(&self) {
        println!("{self}");
        let [fresh, half, before_type, within] = kinds::STATES;
        self.steps.answers.assert_just(&[
            (fresh, &[DONE, SHORT, REFUSED]),
            (half, &[DONE, SHORT, REFUSED]),
            (before_type, &[DONE, SHORT, REFUSED]),
            (within, &[DONE, SHORT]),
            (kinds::REFUSED, &[REFUSED]),
        ]);
        self.steps.found.assert_reached(&[
            ("empty chunk", &[&kinds::STATES, &[kinds::REFUSED]]),
            ("message", &[&forms::TYPES, &kinds::OTHER_MESSAGES]),
        ]);
        self.ends.assert_reached(&DAMAGES.map(|(name, ends, _)| (name, ends)));
        self.ends.assert_reached(&[(SEVERAL, damage::ANY)]);
    }
}

impl fmt::Display for Reached {
    fn fmt(&self, out: &mut fmt::Formatter) -> fmt::Result {
        write!(out, "{}{}{}", self.ends, self.steps.found, self.steps.answers)?;
        write!(out, "\n{:>38} streams, each cut in {} ways: {} steps", self.streams, WAYS.len(), self.steps.number)
    }
}
