//! Files that are whole at every moment, and names beside a file's.

use std::ffi::OsString;
use std::fs::{self, File, OpenOptions};
use std::io::{self, Write};
use std::os::unix::fs::OpenOptionsExt;
use std::path::{Path, PathBuf};

/// A path with something more at its end.
pub fn beside(path: &Path, ending: &str) -> PathBuf {
    let mut name = OsString::from(path);
    name.push(ending);
    name.into()
}

pub fn folder(path: &Path) -> &Path {
    path.parent().filter(|folder| !folder.as_os_str().is_empty()).unwrap_or(Path::new("."))
}

/// Brings a file or a folder to the disk.
pub type SyncFn<'a> = &'a dyn Fn(&File) -> io::Result<()>;

/// Replaces a file: a new one is written and brought to the disk, and then takes its name.
pub fn replace(path: &Path, bytes: &[u8], mode: u32, sync: SyncFn) -> io::Result<()> {
    let new = beside(path, ".new");
    // A killed relay may have left one.
    let _ = fs::remove_file(&new);
    let written = write(&new, bytes, mode).and_then(|file| sync(&file));
    let replaced = written.and_then(|()| fs::rename(&new, path));
    if replaced.is_err() {
        let _ = fs::remove_file(&new);
    }
    replaced?;
    sync(&File::open(folder(path))?)
}

fn write(path: &Path, bytes: &[u8], mode: u32) -> io::Result<File> {
    let mut file = OpenOptions::new().write(true).create_new(true).mode(mode).open(path)?;
    file.write_all(bytes)?;
    Ok(file)
}

/// Takes a file for this relay, as long as what is given lives.
pub fn lock(path: &Path, mode: u32) -> io::Result<File> {
    let file = OpenOptions::new().write(true).create(true).truncate(false).mode(mode).open(path)?;
    match file.try_lock() {
        Ok(()) => Ok(file),
        Err(fs::TryLockError::WouldBlock) => Err(io::Error::other("another relay uses it")),
        Err(fs::TryLockError::Error(error)) => Err(error),
    }
}
