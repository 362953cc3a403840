//! A journal's files at the start of a relay: a fresh one begins a journal, and keeps what was there; one that goes on with a
//! saved state goes on with its journal.

use std::ffi::OsStr;
use std::fmt::Display;
use std::fs::{self, File, OpenOptions};
use std::io::{self, ErrorKind};
use std::os::unix::ffi::OsStrExt;
use std::path::{Path, PathBuf};
use std::sync::Arc;

use super::found::Found;
use super::writer::{Disk, Target, Writer};
use super::{Journal, Start};
use crate::files::{beside, folder, lock};
use crate::log::{Event, Log, Place};
use crate::relay::Tables;

/// Of the file that is locked. There is nothing in it.
const LOCK_MODE: u32 = 0o600;

/// What can be done about a state that has no journal to go on with.
const REMEDY: &str = "start without a journal, or move the state file away for a fresh relay, which begins one";

/// A journal's file, taken for this relay.
pub struct JournalFile {
    path: PathBuf,
    lock: File,
    log: Arc<Log>,
}

impl JournalFile {
    pub fn take(path: &Path, log: Arc<Log>) -> io::Result<Self> {
        let taken = exists(path).and_then(|_| lock(&beside(path, ".lock"), LOCK_MODE));
        Ok(Self { path: path.to_owned(), lock: taken.map_err(|error| named(path, error))?, log })
    }

    /// The names that it uses.
    pub fn names(path: &Path) -> [PathBuf; 4] {
        let start = Start::path_for(path);
        [path.to_owned(), beside(path, ".lock"), beside(&start, ".new"), start]
    }

    /// Whether a name is one that an old journal, or its start, may get. Both paths are absolute.
    pub fn may_become(journal: &Path, name: &Path) -> bool {
        number_of(name.as_os_str(), journal.as_os_str()).is_some()
    }

    /// Begins a journal. One that is there is kept under a numbered name.
    pub fn begin(self, start: Start) -> io::Result<Journal> {
        let named = |error| named(&self.path, error);
        let kept = keep_old(&self.path).map_err(named)?;
        let file = start.write(&self.path).and_then(|()| create(&self.path)).map_err(named)?;
        let kept = kept.map(|old| format!("; what was there is kept as '{}'", old.display())).unwrap_or_default();
        self.tell("journal begun", format_args!("begins{kept}"));
        self.write_to(file)
    }

    /// Goes on with the journal that the state with these tables was saved beside, and takes its allowances: they are of the
    /// latest calls. None if that journal has ended.
    pub fn resume(self, tables: &mut Tables) -> io::Result<Option<Journal>> {
        let named = |error| named(&self.path, error);
        let found = Found::read(&self.path, tables).map_err(|refusal| named(io::Error::other(refusal)))?;
        let follows = found.follows(tables);
        if follows {
            *tables = found.replayed.clone();
        } else if !found.start.ended {
            Start::note_end(&self.path).map_err(named)?;
            self.tell("journal ended", "lacks calls that the state has, so it has ended");
        }
        if !follows || found.start.ended {
            self.tell("no journal", format_args!("has ended, so none is written; {REMEDY}"));
            return Ok(None);
        }
        let file = self.cut(&found).map_err(named)?;
        self.tell("journal resumed", format_args!("goes on after {} records", found.records()));
        self.write_to(file).map(Some)
    }

    /// The file, without what isn't whole at its end.
    fn cut(&self, found: &Found) -> io::Result<File> {
        let mut file = OpenOptions::new().append(true).open(&self.path)?;
        if found.torn() > 0 {
            file.set_len(found.whole as u64)?;
            file.sync()?;
            self.tell("journal cut", format_args!("has lost its last {} bytes, which were torn", found.torn()));
        }
        Ok(file)
    }

    fn write_to(self, disk: File) -> io::Result<Journal> {
        let Self { path, lock, log } = self;
        Writer::start(Target { path, disk, log, _lock: lock }).map(Journal::new)
    }

    fn tell(&self, kind: &'static str, text: impl Display) {
        let event = Event { kind, place: Place::Relay };
        self.log.record(event, None, format_args!("the journal '{}' {text}", self.path.display()));
    }
}

fn named(path: &Path, error: io::Error) -> io::Error {
    io::Error::new(error.kind(), format!("the journal '{}': {error}", path.display()))
}

/// Whether the file is there. What is must be a plain file: names beside a link's would be others than beside what it leads to.
pub fn exists(path: &Path) -> io::Result<bool> {
    match path.symlink_metadata() {
        Err(error) if error.kind() == ErrorKind::NotFound => Ok(false),
        Err(error) => Err(error),
        Ok(found) if found.is_file() => Ok(true),
        Ok(_) => Err(io::Error::other("it isn't a plain file")),
    }
}

/// Gives a journal that is there, and its start, the next number. The start has its new name first: wherever a relay is
/// killed, no journal is without one.
fn keep_old(path: &Path) -> io::Result<Option<PathBuf>> {
    let place = Start::path_for(path);
    // Whatever else it may be isn't replaced.
    let has_start = exists(&place).map_err(|error| Start::named(path, error))?;
    let start = has_start.then(|| Start::read(path)).transpose()?;
    if !exists(path)? {
        return Ok(None);
    }
    let none =
        || io::Error::other(format!("it has no '{}', so it may be something else: move it away", place.display()));
    let start = start.ok_or_else(none)?;
    let old = beside(path, &format!(".{}", next_number(path)?));
    start.write(&old)?;
    fs::rename(path, &old)?;
    // Before the start is replaced, which is the old one's.
    sync_folder(path)?;
    Ok(Some(old))
}

/// One more than any that a journal of this name, or its start, has.
fn next_number(path: &Path) -> io::Result<u64> {
    let name = path.file_name().unwrap_or_default();
    let number = |entry: io::Result<fs::DirEntry>| number_of(&entry.ok()?.file_name(), name);
    let greatest = fs::read_dir(folder(path))?.filter_map(number).max().unwrap_or(0);
    greatest.checked_add(1).ok_or_else(|| io::Error::other("no number is left for the one that is there"))
}

/// The number in the name of an old journal, or of its start.
fn number_of(name: &OsStr, journal: &OsStr) -> Option<u64> {
    let rest = name.as_bytes().strip_prefix(journal.as_bytes())?.strip_prefix(b".")?;
    let digits = rest.strip_suffix(b".start").unwrap_or(rest);
    std::str::from_utf8(digits).ok()?.parse().ok()
}

fn create(path: &Path) -> io::Result<File> {
    let file = OpenOptions::new().append(true).create_new(true).open(path)?;
    sync_folder(path)?;
    Ok(file)
}

fn sync_folder(path: &Path) -> io::Result<()> {
    File::open(folder(path))?.sync_all()
}

/// Why a relay with a saved state doesn't start, and what can be done.
pub fn refusal(why: impl Display) -> String {
    format!("{why}; {REMEDY}")
}
