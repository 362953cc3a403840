//! The fresh start that a journal is replayed from, from the file beside it or from options.

use std::io;
use std::path::Path;

use server::journal::Start;
use server::LeaseTerm;

#[derive(Clone, Copy, Debug, PartialEq, Eq)]
pub struct Beginning {
    pub time: u64,
    pub term: u64,
    /// Calls after the journal's last record have none.
    pub ended: bool,
}

impl Beginning {
    /// That of a journal. What is given takes the place of what the file beside it says.
    pub fn of(journal: &Path, time: Option<u64>, term: Option<u64>) -> io::Result<Self> {
        match (Start::read(journal), time) {
            (Ok(start), _) => Ok(Self {
                time: time.unwrap_or(start.time),
                term: term.unwrap_or(start.term.seconds()),
                ended: start.ended,
            }),
            // Without a file the usual term will do, since the term changes nothing of what is told.
            (Err(error), Some(time)) if term.is_some() || error.kind() == io::ErrorKind::NotFound => {
                Ok(Self { time, term: term.unwrap_or(LeaseTerm::USUAL.seconds()), ended: false })
            }
            (Err(error), _) => Err(error),
        }
    }
}
