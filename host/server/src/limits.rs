//! How long the relay waits for its peers.

use std::time::Duration;

#[derive(Clone, Copy, Debug, PartialEq, Eq)]
pub struct Limits {
    /// In so long a peer has to take `least_progress` bytes of what waits for it, or all of it.
    pub patience: Duration,
    pub least_progress: usize,
    /// For the allowance of its open, by a connection for which there is a number.
    pub open: Duration,
    /// For the answer to the relay's version.
    pub version: Duration,
    /// For the rest of a frame that has begun.
    pub frame: Duration,
    /// For a number, by a connection that comes while all of its partner's are in use, or for a place among its sockets.
    pub number: Duration,
    /// For what is still to be written when the relay ends; and for its peer's end, by a connection that has ended.
    pub last_words: Duration,
    /// For peers to be heard after the relay itself stood still for so long, before it judges any.
    pub standstill: Duration,
}

impl Default for Limits {
    fn default() -> Self {
        Self {
            patience: Duration::from_secs(30),
            least_progress: 16_384,
            open: Duration::from_secs(60),
            version: Duration::from_secs(10),
            frame: Duration::from_secs(30),
            number: Duration::from_millis(100),
            last_words: Duration::from_secs(2),
            standstill: Duration::from_secs(5),
        }
    }
}

#[cfg(test)]
mod tests {
    use std::time::Duration;

    use super::Limits;

    /// As `crondelith help serve` tells them.
    #[test]
    fn the_usual_limits() {
        let Limits { patience, least_progress, open, version, frame, number, last_words, standstill } =
            Limits::default();
        assert_eq!([patience, open, version, frame], [30, 60, 10, 30].map(Duration::from_secs));
        assert_eq!([last_words, standstill], [2, 5].map(Duration::from_secs));
        assert_eq!((least_progress, number), (16_384, Duration::from_millis(100)));
    }
}
