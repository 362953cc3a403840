//! The id of a receiver: leased, printed, and had again by the cookie in a file.

use std::fmt::Display;
use std::io::{self, stdout, Write};
use std::path::Path;

use peer::{Access, Backup, CookieFile, Error, Lease, Peer};

use super::failed;
use crate::{note, Failure, Outcome};

const NOT_RENEWED: &str = "\
the relay hasn't renewed the id of before, and this is a new one: tell it to those who send, as the old one doesn't \
lead here now. A relay renews no id whose last connection it takes for open still (after a power cut for a minute \
and a half), nor one of another partner or relay, or that is another's by now, or that it has lost";
const NOT_EXTENDED: &str =
    "the relay hasn't extended the lease; this is a new id, and the old one doesn't lead here now";

/// Leases the id of a receiver, which may have a cookie file, and prints it.
pub struct ReceiverId {
    file: Option<CookieFile>,
}

impl ReceiverId {
    /// Opens the cookie file, if there is to be one.
    pub fn new(cookie_file: Option<&Path>) -> Result<Self, Failure> {
        let file = cookie_file.map(CookieFile::open).transpose().map_err(unusable)?;
        file.iter().for_each(note_access);
        Ok(Self { file })
    }

    /// Leases an id, the one of before if the relay renews it.
    pub fn lease(&mut self, peer: &mut Peer) -> Outcome {
        let asked = self.file.as_ref().and_then(CookieFile::cookie).copied();
        let lease = peer.lease_again(asked.as_ref()).map_err(|error| self.refused(error))?;
        let renewed = lease.renews(asked.as_ref());
        let backup = self.keep_and_print(&lease, renewed)?;
        match asked {
            Some(_) if renewed => note("the relay has renewed the lease: the id is the one of before"),
            Some(_) => self.note_new(NOT_RENEWED, &backup),
            None => {}
        }
        note("waiting for a sender; the id is its first argument");
        Ok(())
    }

    /// Waits for a sender.
    pub fn await_session(&mut self, peer: &mut Peer) -> Outcome {
        let (closer, mut printed) = (peer.closer(), Ok(()));
        let waited = peer.await_session(|lease| {
            printed = self.keep_and_print(lease, false).map(|backup| self.note_new(NOT_EXTENDED, &backup));
            if printed.is_err() {
                // Nobody knows the id, so nobody will come.
                closer.close();
            }
        });
        printed?;
        waited.map_err(failed)
    }

    /// Keeps the cookie before anybody knows the id, so that whoever does can rely on it. Then prints the id alone on a line
    /// of stdout, for a script to read; with a cookie file a word follows, which says whether the id is the one of before.
    /// Gives what became of the cookie of before.
    fn keep_and_print(&mut self, lease: &Lease, renewed: bool) -> Result<Backup, Failure> {
        let id = lease.id;
        let Some(file) = &mut self.file else { return print(id, id).map(|()| Backup::Unneeded) };
        let not_kept = |error| Failure::Failed(format!("the cookie of the id {id} can't be kept: {error}"));
        let backup = file.keep(&lease.cookie).map_err(not_kept)?;
        print(id, format_args!("{id} {}", if renewed { "kept" } else { "new" }))?;
        Ok(backup)
    }

    /// Tells that the id is new, and where the cookie of the old one is.
    fn note_new(&self, why: &str, backup: &Backup) {
        match (&self.file, backup) {
            (_, Backup::Failed(error)) => note(&format!("{why}. The old cookie is lost, as it can't be kept: {error}")),
            (Some(file), Backup::Made) => {
                let old = file.old_path();
                note(&format!(
                    "{why}. The old cookie is in '{}'; to ask with it, move it back before the next run",
                    old.display()
                ));
            }
            _ => note(why),
        }
    }

    fn refused(&self, error: Error) -> Failure {
        let kept = self.file.as_ref().and_then(CookieFile::cookie);
        match error {
            Error::LeaseRefused if kept.is_some() => {
                Failure::Failed(format!("{error}. The cookie file is as it was, for another try"))
            }
            _ => failed(error),
        }
    }
}

fn unusable(error: io::Error) -> Failure {
    match error.kind() {
        io::ErrorKind::InvalidData => Failure::Usage(error.to_string()),
        _ => Failure::Failed(error.to_string()),
    }
}

/// Tells who else could read the cookie, or can.
fn note_access(file: &CookieFile) {
    let path = file.path().display();
    match file.access() {
        Access::Owner => {}
        Access::Tightened(mode) => {
            note(&format!("others could read the cookie file '{path}' (mode {mode:04o}), so its mode is 0600 now"));
        }
        Access::Others(mode) => {
            note(&format!("others can read the cookie file '{path}' (mode {mode:04o}), and have its id with it"));
        }
    }
}

fn print(id: u32, line: impl Display) -> Outcome {
    let mut out = stdout();
    let printed = writeln!(out, "{line}").and_then(|()| out.flush());
    printed.map_err(|error| Failure::Failed(format!("the id {id} can't be printed: {error}")))
}
