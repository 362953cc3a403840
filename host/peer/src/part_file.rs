//! A file that appears under its name only once it is complete.

use std::ffi::{OsStr, OsString};
use std::fs::{self, File, Metadata, OpenOptions, Permissions};
use std::io::{self, Seek, Write};
use std::os::unix::ffi::{OsStrExt, OsStringExt};
use std::os::unix::fs::{MetadataExt, OpenOptionsExt, PermissionsExt};
use std::path::{Path, PathBuf};

use crate::disk::{Disk, SystemDisk};
use crate::{Error, Fingerprint};

/// The longest name of a file, in bytes.
const NAME_LIMIT: usize = 255;
/// The mode of a file that is nobody else's business.
pub(crate) const PRIVATE: u32 = 0o600;
/// That of others, of which the umask takes something away.
const USUAL: u32 = 0o666;

/// A file that is written beside its later place, under a name of its own that ends in ".part". Unless it is kept,
/// dropping it removes it.
pub struct PartFile {
    file: File,
    folder: File,
    part: PathBuf,
    whole: PathBuf,
    replace: bool,
    kept: bool,
}

impl PartFile {
    /// Whether a file can take this name. An existing one is in the way unless it may be replaced.
    pub fn check(whole: &Path, replace: bool) -> Result<(), Error> {
        name_of(whole)?;
        match fs::symlink_metadata(whole) {
            Ok(found) if !found.is_file() => Err(Error::NotPlain(whole.to_owned())),
            Ok(_) if !replace => Err(Error::Exists(whole.to_owned())),
            // A name that is too long, say: the part's is shorter, so it would show only at the end.
            Err(error) if error.kind() != io::ErrorKind::NotFound => Err(Error::Write(error)),
            _ => Ok(()),
        }
    }

    pub fn create(whole: &Path, replace: bool) -> Result<Self, Error> {
        Self::create_as(USUAL, whole, replace)
    }

    /// One that replaces what has the name, and that only its owner can read and write, whatever the umask is.
    pub fn create_private(whole: &Path) -> Result<Self, Error> {
        let part = Self::create_as(PRIVATE, whole, true)?;
        part.file.set_permissions(Permissions::from_mode(PRIVATE)).map_err(Error::Write)?;
        Ok(part)
    }

    fn create_as(mode: u32, whole: &Path, replace: bool) -> Result<Self, Error> {
        let name = part_name(name_of(whole)?).map_err(Error::Write)?;
        let folder = folder_of(whole);
        let part = folder.join(name);
        // Opened now, so that a folder that can't be synced shows before the file comes.
        let folder = File::open(folder).map_err(Error::Write)?;
        let file = create_part(&part, mode).map_err(Error::Write)?;
        Ok(Self { file, folder, part, whole: whole.to_owned(), replace, kept: false })
    }

    /// Gives the file its name if it is the one that was sent. It is read back for that once its bytes are on the disk,
    /// and its name is too when this returns. Gives what was kept.
    pub fn keep(&mut self, sent: &Fingerprint) -> Result<Fingerprint, Error> {
        self.keep_on(&SystemDisk, sent, || false)
    }

    /// Likewise, by another disk's operations, and unless it is interrupted before the file has its name.
    pub fn keep_on(
        &mut self,
        disk: &impl Disk,
        sent: &Fingerprint,
        interrupted: impl FnOnce() -> bool,
    ) -> Result<Fingerprint, Error> {
        disk.sync(&self.file).map_err(Error::Write)?;
        let written = self.read_back().map_err(Error::ReadBack)?;
        written.check(sent)?;
        if interrupted() {
            return Err(Error::Interrupted);
        }
        self.check_own(&self.part)?;
        self.name(disk).map_err(|error| match error.kind() {
            io::ErrorKind::AlreadyExists => Error::Exists(self.whole.clone()),
            _ => Error::Write(error),
        })?;
        // Another file may have taken the part's name just before.
        self.check_own(&self.whole)?;
        self.kept = true;
        disk.sync(&self.folder).map_err(Error::Write)?;
        Ok(written)
    }

    fn read_back(&mut self) -> io::Result<Fingerprint> {
        self.file.rewind()?;
        Fingerprint::read(&self.file)
    }

    /// Fails unless the path names the file whose bytes were checked.
    fn check_own(&self, path: &Path) -> Result<(), Error> {
        self.is_own(path).then_some(()).ok_or_else(|| Error::Replaced(path.to_owned()))
    }

    fn is_own(&self, path: &Path) -> bool {
        let own = self.file.metadata();
        own.is_ok_and(|own| fs::symlink_metadata(path).is_ok_and(|found| identity(&found) == identity(&own)))
    }

    /// Nothing lies between the test whether the name is free and taking it, but for a name that may be replaced.
    fn name(&self, disk: &impl Disk) -> io::Result<()> {
        if self.replace {
            return disk.rename(&self.part, &self.whole);
        }
        match disk.link(&self.part, &self.whole) {
            Ok(()) => {
                // If its first name stays, the file is complete all the same.
                let _ = disk.remove(&self.part);
                Ok(())
            }
            Err(error) if lacks_links(&error) => self.name_without_link(disk),
            Err(error) => Err(error),
        }
    }

    /// For a file system without hard links: an empty file reserves the name, and only that one is replaced.
    fn name_without_link(&self, disk: &impl Disk) -> io::Result<()> {
        disk.create_new(&self.whole)?;
        disk.rename(&self.part, &self.whole).inspect_err(|_| {
            // Nobody is left to tell if this fails.
            let _ = disk.remove(&self.whole);
        })
    }
}

/// A new file, and not what has the name already or what a link of that name points to.
fn create_part(path: &Path, mode: u32) -> io::Result<File> {
    OpenOptions::new().read(true).write(true).create_new(true).mode(mode).open(path)
}

impl Write for PartFile {
    fn write(&mut self, bytes: &[u8]) -> io::Result<usize> {
        self.file.write(bytes)
    }

    fn flush(&mut self) -> io::Result<()> {
        self.file.flush()
    }
}

impl Drop for PartFile {
    fn drop(&mut self) {
        // What else has taken the name isn't this one's to remove.
        if !self.kept && self.is_own(&self.part) {
            // Nobody is left to tell if this fails.
            let _ = fs::remove_file(&self.part);
        }
    }
}

/// Whether a link failed because the file system, or this file, can't have another.
fn lacks_links(error: &io::Error) -> bool {
    use io::ErrorKind::{PermissionDenied, TooManyLinks, Unsupported};
    matches!(error.kind(), PermissionDenied | TooManyLinks | Unsupported)
}

/// What tells a file from all others: its device and inode.
fn identity(metadata: &Metadata) -> (u64, u64) {
    (metadata.dev(), metadata.ino())
}

/// The name in the path. A path that ends in a slash or a dot is a folder's.
pub(crate) fn name_of(whole: &Path) -> Result<&OsStr, Error> {
    let name = whole.file_name().filter(|name| whole.as_os_str().as_bytes().ends_with(name.as_bytes()));
    name.ok_or_else(|| match whole.as_os_str().is_empty() {
        true => Error::NotPlain(whole.to_owned()),
        false => Error::Folder(whole.to_owned()),
    })
}

pub(crate) fn folder_of(whole: &Path) -> &Path {
    whole.parent().filter(|folder| !folder.as_os_str().is_empty()).unwrap_or(Path::new("."))
}

/// A name that no other file has: as much of the file's as fits, random digits and ".part".
fn part_name(name: &OsStr) -> io::Result<OsString> {
    let mut random = [0; 8];
    getrandom::getrandom(&mut random)?;
    let suffix = format!(".{:016x}.part", u64::from_be_bytes(random));
    let mut part = start_of(name.as_bytes(), NAME_LIMIT - suffix.len()).to_owned();
    part.extend(suffix.into_bytes());
    Ok(OsString::from_vec(part))
}

/// At most so many bytes. No character of UTF-8 is cut, which some file systems would refuse.
fn start_of(name: &[u8], limit: usize) -> &[u8] {
    let starts_character = |place: &usize| name.get(*place).is_none_or(|byte| byte & 0xc0 != 0x80);
    let end = (0..=limit.min(name.len())).rev().find(starts_character).unwrap_or(0);
    &name[..end]
}

#[cfg(test)]
mod tests {
    use std::fs;
    use std::io::ErrorKind;
    use std::os::unix::fs::symlink;

    use super::{create_part, USUAL};

    #[test]
    fn a_part_is_a_new_file_and_follows_no_link() {
        let folder = tempfile::tempdir().expect("a folder");
        let [there, link, target] = ["there", "link", "target"].map(|name| folder.path().join(name));
        fs::write(&there, "kept").expect("a file");
        symlink(&target, &link).expect("a link");
        for taken in [&there, &link] {
            assert_eq!(create_part(taken, USUAL).expect_err("the name is taken").kind(), ErrorKind::AlreadyExists);
        }
        assert!(fs::read(&there).expect("the file") == b"kept" && !target.exists());
        create_part(&target, USUAL).expect("a free name");
    }
}
