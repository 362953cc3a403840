//! Replays that say or write something else in the end.

use compare::relay::boundary::{Boundary, Call, Lent, Second};
use compare::relay::journals::{self, Journal};
use engine::relay::{Answer, Replayed, ALLOWANCES};

/// Says and writes what the second implementation does, and then spoils something, in the plain replay or in the other.
#[derive(Clone, Copy)]
struct Spoiled {
    plain: bool,
    said: fn(&mut Replayed),
    written: fn(&mut [u8]),
}

const UNSPOILED: Spoiled = Spoiled { plain: false, said: |_| {}, written: |_| {} };

const SPOILED: [Spoiled; 6] = [
    Spoiled { said: |said| said.number ^= 1, ..UNSPOILED },
    Spoiled { said: |said| said.contradicted ^= 1, ..UNSPOILED },
    Spoiled { said: |said| said.place ^= 1, ..UNSPOILED },
    Spoiled { said: |said| said.place ^= 1 << 63, ..UNSPOILED },
    Spoiled { written: |written| written[0] ^= 1, ..UNSPOILED },
    Spoiled { written: |written| *written.last_mut().expect("a table") ^= 1, ..UNSPOILED },
];

impl Spoiled {
    fn spoil(&self, plain: bool, mut said: Replayed, written: &mut [u8]) -> Replayed {
        if self.plain == plain {
            (self.said)(&mut said);
            (self.written)(written);
        }
        said
    }
}

impl Boundary for Spoiled {
    fn call(&self, call: &Call, lent: &mut Lent) -> Answer {
        Second.call(call, lent)
    }

    fn replay(&self, allowances: &mut [u8], journal: &[u8], start: u64, term: u64) -> Replayed {
        let said = Second.replay(allowances, journal, start, term);
        self.spoil(false, said, allowances)
    }

    fn replay_plain(&self, allowances: &mut [u8], journal: &[u8], start: u64, term: u64) -> Replayed {
        let said = Second.replay_plain(allowances, journal, start, term);
        self.spoil(true, said, allowances)
    }
}

/// Of a journal that isn't contradicted, of one that is, and of starts that are refused.
#[test]
fn a_wrong_answer_or_byte_of_a_replay() {
    let starts = [(0, 0, ALLOWANCES), (1, 0, ALLOWANCES), (1 << 40, 0, ALLOWANCES), (0, 1, ALLOWANCES), (0, 0, 1)];
    for (start, term, length) in starts {
        let journal = Journal { start, term, bytes: vec![0; 16] };
        assert!(journals::replay(&UNSPOILED, &journal, length).is_ok());
        for spoiled in SPOILED {
            for plain in [false, true] {
                assert!(journals::replay(&Spoiled { plain, ..spoiled }, &journal, length).is_err());
            }
        }
    }
}
