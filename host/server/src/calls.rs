//! What the host knows of a call beforehand: what it costs at most, and how long the buffers are that the engine is lent for
//! it.

use engine::relay::BUFFER;

use crate::message::{DATA_SEND, ESTABLISH_REQUEST, EXTENSION_REQUEST, LEASE_REQUEST};

/// What a charged call costs beside the bytes that it receives and sends.
const FIXED_COST: usize = 32;
/// Lengths of what the relay sends.
const VERSION: usize = 13;
const LEASE_GRANTED: usize = 38;
const LEASE_EXTENDED: usize = 10;
const ESTABLISHED: usize = 54;
const ESTABLISH_NOTIFICATION: usize = 49;

pub const REPLY_LENGTH: usize = BUFFER;

/// What a message costs at most, or an open, which has none: 32, the bytes received and the bytes sent. What is sent for a
/// request is known only when the engine has decided on it, so turns go by what it is if the request is granted; of all
/// else, data above all, this is the cost itself. So nobody spends more than its turns give it. Who sends requests that
/// are refused, and cost less, has fewer turns than it could pay for, which takes nothing from others.
pub fn greatest_cost(message: Option<&[u8]>) -> usize {
    FIXED_COST + message.map_or(VERSION, |message| message.len() + most_sent(message))
}

/// The most bytes that are sent for a message, in reply and to others.
fn most_sent(message: &[u8]) -> usize {
    match message.first() {
        Some(&LEASE_REQUEST) => LEASE_GRANTED,
        Some(&EXTENSION_REQUEST) => LEASE_EXTENDED,
        Some(&ESTABLISH_REQUEST) => ESTABLISHED + ESTABLISH_NOTIFICATION,
        Some(&DATA_SEND) => message.len(),
        _ => 0,
    }
}

/// The length of the relay buffer for a message of this length; a close has none.
pub fn relay_length(message_length: usize) -> usize {
    message_length.max(BUFFER)
}

#[cfg(test)]
mod tests {
    use std::time::Duration;

    use engine::relay::RANDOM;

    use super::{greatest_cost, relay_length, REPLY_LENGTH};
    use crate::relay::Relay;
    use crate::{Clock, LeaseTerm};

    const NOW: u64 = 1_000;

    struct Still;

    impl Clock for Still {
        fn now(&mut self) -> u64 {
            NOW
        }

        fn until_next(&self) -> Duration {
            Duration::MAX
        }
    }

    /// What a partner pays for a message that is done, or for an open. Each connection has random bytes of its own.
    fn paid(relay: &mut Relay, connection: usize, message: Option<&[u8]>) -> usize {
        let before = relay.tables().level(0, NOW);
        let (random, mut reply) = ([connection as u8; RANDOM], [0; REPLY_LENGTH]);
        let done = match message {
            None => relay.open(connection, &mut reply),
            Some(bytes) => {
                let mut room = vec![0; relay_length(bytes.len())];
                relay.message(connection, bytes, &random, &mut reply, &mut room)
            }
        };
        done.expect("it is done");
        (before - relay.tables().level(0, NOW)) as usize
    }

    #[test]
    fn what_is_granted_costs_the_most_and_what_is_refused_less() {
        let mut relay = Relay::fresh(Box::new(Still), LeaseTerm::USUAL).expect("a relay");
        let [extension, with_cookie] = [[&[4][..], &[2; 24]].concat(), [&[2, 1][..], &[9; 24]].concat()];
        // The id and the cookie of connection 2's lease are its random bytes.
        let establish: &[u8] = &[6, 2, 2, 2, 2];
        let granted: [(usize, Option<&[u8]>); 12] = [
            (1, None),
            (2, None),
            (3, None),
            (1, Some(&[1, 1])),
            (2, Some(&[1, 1])),
            (3, Some(&[1, 1])),
            (2, Some(&[2, 0])),
            (2, Some(&extension)),
            (3, Some(&with_cookie)),
            (1, Some(establish)),
            (1, Some(&[11; 1_000])),
            (1, Some(&[13])),
        ];
        for (connection, message) in granted {
            assert_eq!(paid(&mut relay, connection, message), greatest_cost(message), "{connection}: {message:?}");
        }
        for (connection, message, cost) in
            [(2, &[2, 0][..], 36), (3, &with_cookie, 60), (1, &extension, 59), (3, establish, 43)]
        {
            assert_eq!(paid(&mut relay, connection, Some(message)), cost, "{connection}: {message:?}");
            assert!(cost < greatest_cost(Some(message)));
        }
    }

    #[test]
    fn the_greatest_cost_of_each_call() {
        assert_eq!(greatest_cost(None), 45, "an open");
        let messages: [(u8, usize, usize); 9] = [
            (1, 2, 34),
            (2, 2, 72),
            (2, 26, 96),
            (4, 25, 67),
            (6, 5, 140),
            (11, 1, 34),
            (11, 1_025, 2_082),
            (11, 65_534, 131_100),
            (13, 1, 33),
        ];
        for (kind, length, cost) in messages {
            assert_eq!(greatest_cost(Some(&vec![kind; length])), cost, "type {kind}, {length} bytes");
        }
        // It is refused, whatever it would cost.
        assert_eq!(greatest_cost(Some(&[])), 32);
    }
}
