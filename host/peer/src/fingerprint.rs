//! What a file holds, in short: its length and its SHA-256 digest.

use std::io::{self, Read, Write};

use sha2::{Digest, Sha256};

use crate::{Error, COUNT_LENGTH};

/// Bytes of a SHA-256 digest.
pub const DIGEST_LENGTH: usize = 32;
const FINGERPRINT_LENGTH: usize = COUNT_LENGTH + DIGEST_LENGTH;

#[derive(Clone, Copy, Debug, PartialEq, Eq)]
pub struct Fingerprint {
    pub length: u64,
    pub digest: [u8; DIGEST_LENGTH],
}

impl Fingerprint {
    /// That of all the bytes to the reader's end.
    pub fn read(mut reader: impl Read) -> io::Result<Self> {
        let mut writer = HashingWriter::new(io::sink());
        io::copy(&mut reader, &mut writer)?;
        Ok(writer.hasher.finish())
    }

    /// Fails unless the file is the one that was sent.
    pub(crate) fn check(&self, sent: &Self) -> Result<(), Error> {
        (self == sent).then_some(()).ok_or(Error::Changed)
    }

    pub(crate) fn to_bytes(self) -> [u8; FINGERPRINT_LENGTH] {
        let mut bytes = [0; FINGERPRINT_LENGTH];
        let (length, digest) = bytes.split_at_mut(COUNT_LENGTH);
        length.copy_from_slice(&self.length.to_be_bytes());
        digest.copy_from_slice(&self.digest);
        bytes
    }

    /// None for another number of bytes.
    pub(crate) fn from_bytes(bytes: &[u8]) -> Option<Self> {
        let (length, digest) = bytes.split_first_chunk::<COUNT_LENGTH>()?;
        Some(Self { length: u64::from_be_bytes(*length), digest: digest.try_into().ok()? })
    }
}

/// Takes the fingerprint of bytes piece by piece.
#[derive(Default)]
pub(crate) struct Hasher {
    length: u64,
    hash: Sha256,
}

impl Hasher {
    pub fn update(&mut self, bytes: &[u8]) {
        self.length += bytes.len() as u64;
        self.hash.update(bytes);
    }

    pub fn finish(self) -> Fingerprint {
        Fingerprint { length: self.length, digest: self.hash.finalize().into() }
    }
}

/// Hands bytes on to a writer and hashes those that it took.
pub(crate) struct HashingWriter<W> {
    to: W,
    pub hasher: Hasher,
}

impl<W: Write> HashingWriter<W> {
    pub fn new(to: W) -> Self {
        Self { to, hasher: Hasher::default() }
    }
}

impl<W: Write> Write for HashingWriter<W> {
    fn write(&mut self, bytes: &[u8]) -> io::Result<usize> {
        let count = self.to.write(bytes)?;
        self.hasher.update(&bytes[..count]);
        Ok(count)
    }

    fn flush(&mut self) -> io::Result<()> {
        self.to.flush()
    }
}
