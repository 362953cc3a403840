//! What keeping a file asks of the disk.

use std::fs::{self, File};
use std::io;
use std::path::Path;

/// The operations by themselves, so that a test can note their order.
pub trait Disk {
    /// Returns once a file's bytes, or a folder's names, survive a crash.
    fn sync(&self, file: &File) -> io::Result<()>;

    /// A second name. Fails if it exists.
    fn link(&self, from: &Path, to: &Path) -> io::Result<()>;

    /// An empty file. Fails if the name exists.
    fn create_new(&self, path: &Path) -> io::Result<()>;

    /// Another name, which is replaced if it exists.
    fn rename(&self, from: &Path, to: &Path) -> io::Result<()>;

    fn remove(&self, path: &Path) -> io::Result<()>;
}

/// The operating system's.
pub struct SystemDisk;

impl Disk for SystemDisk {
    fn sync(&self, file: &File) -> io::Result<()> {
        file.sync_all()
    }

    fn link(&self, from: &Path, to: &Path) -> io::Result<()> {
        fs::hard_link(from, to)
    }

    fn create_new(&self, path: &Path) -> io::Result<()> {
        File::create_new(path).map(drop)
    }

    fn rename(&self, from: &Path, to: &Path) -> io::Result<()> {
        fs::rename(from, to)
    }

    fn remove(&self, path: &Path) -> io::Result<()> {
        fs::remove_file(path)
    }
}

#[cfg(test)]
mod tests {
    use std::fs::File;

    use super::{Disk, SystemDisk};

    /// What can't be synced tells whether the system was asked to.
    #[test]
    fn the_system_is_asked_to_sync() {
        let device = File::open("/dev/null").expect("a device");
        assert!(SystemDisk.sync(&device).is_err());
        assert!(SystemDisk.sync(&tempfile::tempfile().expect("a file")).is_ok());
    }
}
