//! The tables in a file, from one run of the relay to the next.

use std::fs::{self, File};
use std::io;
use std::path::{Path, PathBuf};

use crate::clock::CLOCK_LIMIT;
use crate::files::{beside, lock, replace, SyncFn};
use crate::relay::Tables;

/// The tables hold keys and cookies, which are nobody else's business.
const MODE: u32 = 0o600;

/// A file that holds whole tables at every moment: they are written to a new file, which then takes its name.
pub struct StateFile {
    path: PathBuf,
    /// Held as long as the relay runs, so that no other uses the file.
    _lock: File,
}

impl StateFile {
    /// Takes the file for this relay, and gives the tables that it holds, if it exists.
    pub fn open(path: &Path) -> io::Result<(Self, Option<Tables>)> {
        let named = |error| named(path, error);
        let path = resolve(path).map_err(named)?;
        let lock = lock(&beside(&path, ".lock"), MODE).map_err(named)?;
        let tables = match read(&path) {
            Err(error) if error.kind() == io::ErrorKind::NotFound => None,
            other => Some(other.map_err(named)?),
        };
        Ok((Self { path, _lock: lock }, tables))
    }

    pub fn save(&self, tables: &Tables) -> io::Result<()> {
        self.save_and(tables, &File::sync_all)
    }

    /// Saves the tables, with this as the way to bring a file or a folder to the disk.
    fn save_and(&self, tables: &Tables, sync: SyncFn) -> io::Result<()> {
        replace(&self.path, tables.as_bytes(), MODE, sync)
    }

    /// The names that it uses.
    pub fn names(path: &Path) -> [PathBuf; 3] {
        [path.to_owned(), beside(path, ".lock"), beside(path, ".new")]
    }

    pub fn path(&self) -> &Path {
        &self.path
    }
}

impl Tables {
    /// The tables that a state file holds. It isn't taken: a relay may use it meanwhile. The error of a file that holds none
    /// is of the kind InvalidData.
    pub fn load(path: &Path) -> io::Result<Self> {
        resolve(path).and_then(|path| read(&path)).map_err(|error| named(path, error))
    }
}

fn named(path: &Path, error: io::Error) -> io::Error {
    io::Error::new(error.kind(), format!("the state file '{}': {error}", path.display()))
}

fn no_state(why: impl Into<String>) -> io::Error {
    io::Error::new(io::ErrorKind::InvalidData, why.into())
}

/// Where the file is, or will be: a link stays one. What is there must be a plain file of the tables' size.
fn resolve(path: &Path) -> io::Result<PathBuf> {
    match path.symlink_metadata() {
        Err(error) if error.kind() == io::ErrorKind::NotFound => return Ok(path.to_owned()),
        other => other?,
    };
    let path = path.canonicalize()?;
    let found = path.metadata()?;
    if !found.is_file() {
        return Err(no_state("it isn't a plain file"));
    }
    if found.len() != Tables::SIZE as u64 {
        let (length, size) = (found.len(), Tables::SIZE);
        return Err(no_state(format!("it has {length} bytes and not {size}, so it isn't a state file")));
    }
    Ok(path)
}

/// The file's tables.
fn read(path: &Path) -> io::Result<Tables> {
    let tables = Tables::from_bytes(&fs::read(path)?).ok_or_else(|| no_state("it changes its size"))?;
    if tables.clock() >= CLOCK_LIMIT {
        return Err(no_state(format!("its clock is at {}, out of range", tables.clock())));
    }
    Ok(tables)
}

#[cfg(test)]
mod tests {
    use std::cell::RefCell;
    use std::fs;
    use std::io;
    use std::path::Path;

    use super::StateFile;
    use crate::relay::Tables;

    fn tables(byte: u8) -> Tables {
        let mut bytes = vec![byte; Tables::SIZE];
        bytes[Tables::SIZE - 8..].fill(0);
        Tables::from_bytes(&bytes).expect("tables")
    }

    #[test]
    fn the_file_is_on_the_disk_before_it_has_its_name_and_the_folder_after() {
        let folder = tempfile::tempdir().expect("a folder");
        let path = folder.path().join("state");
        let (file, _) = StateFile::open(&path).expect("a state file");
        file.save(&tables(1)).expect("saved");
        let synced = RefCell::new(Vec::new());
        let sync = |file: &fs::File| {
            let named = fs::read(&path)? == tables(2).as_bytes();
            synced.borrow_mut().push((file.metadata()?.is_dir(), named));
            Ok(())
        };
        file.save_and(&tables(2), &sync).expect("saved");
        assert_eq!(*synced.borrow(), [(false, false), (true, true)]);
    }

    #[test]
    fn a_file_in_use_can_be_read_and_what_is_none_has_its_kind_of_error() {
        let folder = tempfile::tempdir().expect("a folder");
        let path = folder.path().join("state");
        let error = |path: &Path| Tables::load(path).err().expect("an error");
        assert_eq!(error(&path).kind(), io::ErrorKind::NotFound);
        assert!(error(&path).to_string().starts_with(&format!("the state file '{}': ", path.display())));
        let (file, _) = StateFile::open(&path).expect("a state file");
        file.save(&tables(1)).expect("saved");
        assert!(Tables::load(&path).expect("tables") == tables(1));
        assert_eq!(error(folder.path()).kind(), io::ErrorKind::InvalidData);
        let late = [1; Tables::SIZE];
        for bytes in [&late[1..], &late] {
            fs::write(&path, bytes).expect("a file");
            assert_eq!(error(&path).kind(), io::ErrorKind::InvalidData);
        }
    }

    #[test]
    fn what_cannot_be_saved_leaves_what_was_there() {
        let folder = tempfile::tempdir().expect("a folder");
        let path = folder.path().join("state");
        let (file, _) = StateFile::open(&path).expect("a state file");
        file.save(&tables(1)).expect("saved");
        file.save_and(&tables(2), &|_: &fs::File| Err(io::ErrorKind::StorageFull.into())).expect_err("a full disk");
        assert!(fs::read(&path).expect("a file") == tables(1).as_bytes(), "other tables");
        assert!(!folder.path().join("state.new").exists());
    }
}
