//! The files that a relay keeps, at its start: what is in them decides whether it is a fresh one.

use std::io;
use std::path::{Path, PathBuf};
use std::sync::Arc;

use crate::clock::Clock;
use crate::files::folder;
use crate::journal::{JournalFile, Start};
use crate::lease_term::LeaseTerm;
use crate::log::Log;
use crate::refusal::Refusal;
use crate::relay::{Relay, Tables};
use crate::saver::Saver;
use crate::state_file::StateFile;

/// The state file and the journal, taken for this relay, as far as they are asked for.
pub struct Kept {
    state: Option<StateFile>,
    /// What the state file holds.
    tables: Option<Tables>,
    journal: Option<JournalFile>,
}

impl Kept {
    pub fn open(state: Option<&Path>, journal: Option<&Path>, log: &Arc<Log>) -> io::Result<Self> {
        if let (Some(state), Some(journal)) = (state, journal) {
            keep_apart(state, journal)?;
        }
        let (state, tables) = state.map(StateFile::open).transpose()?.unzip();
        let journal = journal.map(|path| JournalFile::take(path, Arc::clone(log))).transpose()?;
        Ok(Self { state, tables: tables.flatten(), journal })
    }

    /// A relay that goes on with the tables that were saved, or else a fresh one; and what saves its tables.
    pub fn begin(
        self,
        clock: Box<dyn Clock>,
        lease_term: Option<LeaseTerm>,
        log: &Arc<Log>,
    ) -> io::Result<(Relay, Option<Saver>)> {
        let Self { state, tables, journal } = self;
        let mut relay = match tables {
            Some(tables) => resume(clock, tables, journal)?,
            None => begin_anew(clock, lease_term.unwrap_or(LeaseTerm::USUAL), journal)?,
        };
        let syncer = relay.journal_syncer();
        let save = |file| Saver::start(file, relay.tables_to_save(), syncer, Arc::clone(log));
        let saver = state.map(save).transpose()?;
        Ok((relay, saver))
    }
}

fn resume(clock: Box<dyn Clock>, mut tables: Tables, journal: Option<JournalFile>) -> io::Result<Relay> {
    let journal = journal.map(|file| file.resume(&mut tables)).transpose()?.flatten();
    Relay::restored(clock, tables, journal).map_err(no_relay)
}

fn begin_anew(clock: Box<dyn Clock>, term: LeaseTerm, journal: Option<JournalFile>) -> io::Result<Relay> {
    let mut relay = Relay::fresh(clock, term).map_err(no_relay)?;
    if let Some(file) = journal {
        relay.keep_journal(file.begin(Start::new(relay.tables().clock(), term))?);
    }
    Ok(relay)
}

fn no_relay(refusal: Refusal) -> io::Error {
    io::Error::other(format!("no relay: {refusal}"))
}

/// Neither may write what the other has, nor the state what an old journal is kept as.
fn keep_apart(state: &Path, journal: &Path) -> io::Result<()> {
    let journal_names = JournalFile::names(journal).map(|name| absolute(&name));
    let is_shared = |name: &PathBuf| journal_names.contains(name) || JournalFile::may_become(&absolute(journal), name);
    match StateFile::names(state).iter().find(|name| is_shared(&absolute(name))) {
        Some(name) => {
            Err(io::Error::other(format!("'{}' is a file of both the state and the journal", name.display())))
        }
        None => Ok(()),
    }
}

/// A path that tells a file, whatever way it is named; where its folder isn't there it stays as it is.
fn absolute(path: &Path) -> PathBuf {
    let in_folder = |folder: PathBuf| folder.join(path.file_name().unwrap_or_default());
    let known = path.canonicalize().or_else(|_| folder(path).canonicalize().map(in_folder));
    known.unwrap_or_else(|_| path.to_owned())
}

#[cfg(test)]
mod tests {
    use std::path::Path;

    use super::keep_apart;

    /// Whether a state and a journal may have these names in a folder, whatever way they are named.
    fn are_apart(state: &str, journal: &str) -> bool {
        let folder = tempfile::tempdir().expect("a folder");
        let in_folder = folder.path().join(state);
        let around = folder.path().join("..").join(folder.path().file_name().expect("a name")).join(journal);
        let here = std::env::current_dir().expect("a folder").join(journal);
        let apart = [
            (&*in_folder, &*folder.path().join(journal)),
            (&*in_folder, &*around),
            (Path::new(state), Path::new(journal)),
            (Path::new(state), &*Path::new(".").join(journal)),
            (&*Path::new(".").join(state), Path::new(journal)),
            (Path::new(state), &*here),
        ]
        .map(|(state, journal)| keep_apart(state, journal).is_ok());
        assert!(apart.iter().all(|is| *is == apart[0]), "{state} and {journal}: {apart:?}");
        apart[0]
    }

    #[test]
    fn a_file_is_known_whatever_way_it_is_named() {
        assert!(!are_apart("j", "j"));
        assert!(are_apart("s", "j"));
    }

    /// A fresh relay would move a journal there, and save its state in its place.
    #[test]
    fn a_state_is_not_where_old_journals_are_kept() {
        for state in ["j.1", "j.1.start", "j.20", "j.18446744073709551615"] {
            assert!(!are_apart(state, "j"), "{state}");
        }
        for state in ["j.1x", "j.x.start", "j1", "k.1", "j.1.state", "j."] {
            assert!(are_apart(state, "j"), "{state}");
        }
    }
}
