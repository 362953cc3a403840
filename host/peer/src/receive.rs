//! Receiving a file over a session.

use std::io::Write;

use codec::Message;

use crate::fingerprint::HashingWriter;
use crate::patience::Stall;
use crate::{Error, Fingerprint, Patience, Peer, Progress, COUNT_LENGTH};

/// After so many bytes the sender is told again how many have come.
const COUNT_STEP: u64 = 32_768;

/// Waits for a session, writes the file that comes, confirms it and waits for the session's end. Gives the file's
/// length. A writer can't be read back, so the file is taken to be what was written.
pub fn receive_file(peer: &mut Peer, writer: impl Write, progress: impl FnMut(Progress)) -> Result<u64, Error> {
    peer.await_session(|_| ())?;
    let mut writer = HashingWriter::new(writer);
    let sent = receive_contents(peer, &mut writer, Patience::default(), progress)?;
    let written = writer.hasher.finish();
    written.check(&sent).inspect_err(|_| peer.closer().close())?;
    confirm(peer, &written)?;
    Ok(written.length)
}

/// Writes and flushes the file that comes in an established session. Gives what was sent, as the sender says; whether
/// that was written isn't checked yet, nor is it confirmed. `progress` is told the bytes received and their total.
pub fn receive_contents(
    peer: &mut Peer,
    mut writer: impl Write,
    patience: Patience,
    mut progress: impl FnMut(Progress),
) -> Result<Fingerprint, Error> {
    let mut receipt = Receipt::default();
    let outcome = receipt.take_all(peer, &mut writer, Stall::new(patience), &mut progress);
    outcome.map_err(|cause| {
        peer.closer().close();
        Error::Receiving { come: receipt.come, length: receipt.length, cause: cause.into() }
    })
}

/// Tells the sender which file is kept, and waits for the session's end.
pub fn confirm(peer: &mut Peer, kept: &Fingerprint) -> Result<(), Error> {
    let deadline = peer.answer_deadline();
    peer.send(&Message::DataSend { data: &kept.to_bytes() })?;
    loop {
        // A Keepalive isn't answered: a write might wait, and the relay waits longer for an answer than this does.
        match peer.incoming.receive(Some(deadline)) {
            // However the session ends now, the file is there.
            Ok(Some(Message::SessionEndNotification) | None) => return Ok(()),
            Err(Error::Closed | Error::ClosedMidway | Error::Connection(_)) => return Ok(()),
            Ok(Some(Message::DataReceive { data })) if !data.is_empty() => return Err(Error::TooMuch),
            Ok(Some(_)) => {}
            Err(error) => return Err(error),
        }
    }
}

/// What has come of a file.
#[derive(Default)]
struct Receipt {
    length: Option<u64>,
    come: u64,
    /// What the sender was told last.
    counted: u64,
}

impl Receipt {
    fn take_all(
        &mut self,
        peer: &mut Peer,
        writer: &mut impl Write,
        mut stall: Stall,
        progress: &mut impl FnMut(Progress),
    ) -> Result<Fingerprint, Error> {
        loop {
            match peer.receive_until(stall.deadline())? {
                Some(Message::DataReceive { data }) => {
                    // Empty data moves nothing.
                    if !data.is_empty() {
                        stall.end();
                    }
                    if let Some(sent) = self.take(data, writer)? {
                        writer.flush().map_err(Error::Write)?;
                        return Ok(sent);
                    }
                    progress(Progress::Moved { done: self.come, total: self.length.unwrap_or_default() });
                    self.count(peer)?;
                }
                Some(Message::SessionEndNotification) => return Err(Error::SessionEnded),
                Some(_) => {}
                None => stall.check(progress)?,
            }
        }
    }

    /// Takes a message's data: the length, then the file, then the digest. Gives what was sent when all has come.
    fn take(&mut self, data: &[u8], writer: &mut impl Write) -> Result<Option<Fingerprint>, Error> {
        let Some(length) = self.length else {
            let length = <[u8; COUNT_LENGTH]>::try_from(data).map_err(|_| Error::NoLength)?;
            self.length = Some(u64::from_be_bytes(length));
            return Ok(None);
        };
        if self.come == length {
            let digest = data.try_into().map_err(|_| Error::NoDigest)?;
            return Ok(Some(Fingerprint { length, digest }));
        }
        let come = self.come.saturating_add(data.len() as u64);
        if come > length {
            return Err(Error::TooMuch);
        }
        writer.write_all(data).map_err(Error::Write)?;
        self.come = come;
        Ok(None)
    }

    /// Tells the sender how much has come, now and then. The whole length is only told when the file is safe.
    fn count(&mut self, peer: &mut Peer) -> Result<(), Error> {
        if self.come >= self.counted + COUNT_STEP && self.length != Some(self.come) {
            self.counted = self.come;
            peer.send(&Message::DataSend { data: &self.come.to_be_bytes() })?;
        }
        Ok(())
    }
}
