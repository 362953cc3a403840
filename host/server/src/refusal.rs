//! The engine's refusals in words, and what follows from each.

use std::fmt;

/// The number of the check that refused a call.
#[derive(Clone, Copy, Debug, PartialEq, Eq)]
pub struct Refusal(pub u32);

/// The protocol has no message for a refusal, so the host acts on it.
#[derive(Clone, Copy, Debug, PartialEq, Eq)]
pub enum Consequence {
    /// The message is kept and offered again when the allowance has refilled.
    Wait,
    /// The message is dropped, as the paper drops data without a session.
    Drop,
    /// The connection is closed.
    Close,
}

impl Refusal {
    pub fn consequence(self) -> Consequence {
        match self.0 {
            8 => Consequence::Drop,
            9 => Consequence::Wait,
            _ => Consequence::Close,
        }
    }

    pub fn reason(self) -> &'static str {
        match self.0 {
            // The first five can't come from what a peer sends.
            1 => "a table has the wrong size",
            2 => "the clock's reading is out of range",
            3 => "there is no such connection",
            4 => "the connection is in the wrong state",
            5 => "a buffer is too short",
            6 => "not a message that peers send",
            7 => "not permitted before the version is answered, or a second version answer",
            8 => "there is no session",
            9 => "the partner's allowance is used up",
            _ => "for a reason that has no number here",
        }
    }
}

impl fmt::Display for Consequence {
    fn fmt(&self, to: &mut fmt::Formatter) -> fmt::Result {
        to.write_str(match self {
            Self::Wait => "the message waits",
            Self::Drop => "the message is dropped",
            Self::Close => "the connection is closed",
        })
    }
}

impl fmt::Display for Refusal {
    fn fmt(&self, to: &mut fmt::Formatter) -> fmt::Result {
        ShortRefusal { refusal: *self, shortfall: None }.fmt(to)
    }
}

/// A refusal with what the partner is short of, if that is the reason.
pub struct ShortRefusal {
    pub refusal: Refusal,
    pub shortfall: Option<u64>,
}

impl fmt::Display for ShortRefusal {
    fn fmt(&self, to: &mut fmt::Formatter) -> fmt::Result {
        let Self { refusal, shortfall } = self;
        write!(to, "refused with {}, {}", refusal.0, refusal.reason())?;
        match shortfall {
            Some(1) => write!(to, " (1 unit short)")?,
            Some(units) => write!(to, " ({units} units short)")?,
            None => {}
        }
        write!(to, ": {}", refusal.consequence())
    }
}

#[cfg(test)]
mod tests {
    use super::{Refusal, ShortRefusal};

    #[test]
    fn a_refusal_has_its_shortfall_if_it_has_one() {
        let said = |number, shortfall| ShortRefusal { refusal: Refusal(number), shortfall }.to_string();
        let used_up = "refused with 9, the partner's allowance is used up";
        assert_eq!(said(9, Some(12)), format!("{used_up} (12 units short): the message waits"));
        assert_eq!(said(9, Some(1)), format!("{used_up} (1 unit short): the message waits"));
        assert_eq!(said(8, None), "refused with 8, there is no session: the message is dropped");
        assert_eq!(Refusal(6).to_string(), "refused with 6, not a message that peers send: the connection is closed");
    }
}
