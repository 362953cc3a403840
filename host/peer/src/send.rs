//! Sending a file over a session.

use std::io::Read;
use std::sync::atomic::{AtomicU64, Ordering};
use std::sync::mpsc::{self, Receiver, Sender};
use std::sync::OnceLock;
use std::thread;
use std::time::Duration;

use codec::{Message, DATA_LIMIT};

use crate::connection::{Closer, Incoming, Outgoing};
use crate::fingerprint::Hasher;
use crate::patience::Stall;
use crate::{Error, Fingerprint, Patience, Peer, Progress};

/// The bytes of a file that a message carries, unless another size is asked for.
pub const MESSAGE_SIZE: usize = 16_384;
/// Bytes of the file that may be on their way, sent and not counted by the receiver yet. A relay hands on a quarter of it
/// in a second once the allowance is used up, so a larger one would only fill buffers and make progress a guess.
const WINDOW: u64 = 131_072;
/// How long to wait, after a failed write, for what the relay said before.
const REASON_WAIT: Duration = Duration::from_secs(1);

/// Establishes a session with the holder of the id, sends `length` bytes and ends the session. `progress` is told the
/// bytes that have arrived and their total.
pub fn send_file(
    peer: &mut Peer,
    id: u32,
    reader: impl Read + Send,
    length: u64,
    progress: impl FnMut(Progress),
) -> Result<(), Error> {
    peer.establish(id)?;
    send_contents(peer, reader, length, MESSAGE_SIZE, Patience::default(), progress)
}

/// Likewise in a session that is established already, with another message size (1 to 65,533).
pub fn send_contents(
    peer: &mut Peer,
    reader: impl Read + Send,
    length: u64,
    message_size: usize,
    patience: Patience,
    progress: impl FnMut(Progress),
) -> Result<(), Error> {
    let transfer = Transfer::new(length, peer.closer());
    transfer.run(peer, Source::new(reader, length, message_size), Stall::new(patience), progress)?;
    // The file is there. If the relay is gone by now, the session is over as well.
    let _ = peer.end_session();
    Ok(())
}

/// What the thread that sends and the one that watches what comes have in common.
struct Transfer {
    length: u64,
    closer: Closer,
    /// Bytes of the file that were given to the connection.
    sent: AtomicU64,
    /// What was sent, once it is all of it.
    fingerprint: OnceLock<Fingerprint>,
    /// Why the transfer failed: the first reason, of which others follow.
    cause: OnceLock<Error>,
}

impl Transfer {
    fn new(length: u64, closer: Closer) -> Self {
        Self { length, closer, sent: AtomicU64::new(0), fingerprint: OnceLock::new(), cause: OnceLock::new() }
    }

    /// Sends in another thread, so that what comes, or doesn't, is noticed even while a write waits.
    fn run(
        self,
        peer: &mut Peer,
        source: Source<impl Read + Send>,
        stall: Stall,
        progress: impl FnMut(Progress),
    ) -> Result<(), Error> {
        let Peer { incoming, outgoing, .. } = peer;
        let (to_sending, events) = mpsc::channel();
        let mut sending = Sending { transfer: &self, outgoing, events, arrived: None };
        let watch = Watch { transfer: &self, to_sending, stall, progress, arrived: None };
        let confirmed = thread::scope(|scope| {
            let spawned = thread::Builder::new().spawn_scoped(scope, move || sending.run(source));
            if let Err(error) = spawned {
                self.fail(Error::Thread(error));
            }
            watch.run(incoming)
        });
        confirmed.map_err(|arrived| {
            let (length, cause) = (self.length, self.cause.into_inner().unwrap_or(Error::Closed).into());
            Error::Sending { arrived, length, cause }
        })
    }

    /// Closes the connection, with which either thread ends.
    fn fail(&self, error: Error) {
        let _ = self.cause.set(error);
        self.closer.close();
    }
}

/// What the watching thread tells the sending one.
enum Event {
    Keepalive,
    /// The bytes that the receiver has.
    Counted(u64),
}

/// The watching thread's side.
struct Watch<'a, P> {
    transfer: &'a Transfer,
    to_sending: Sender<Event>,
    stall: Stall,
    progress: P,
    /// The receiver's last count. None, before the first, is below every count.
    arrived: Option<u64>,
}

impl<P: FnMut(Progress)> Watch<'_, P> {
    /// Watches until the receiver has confirmed the file. Gives the bytes that have arrived if it doesn't. The sending
    /// thread is told by the end of its events, when the reason is known.
    fn run(mut self, incoming: &mut Incoming) -> Result<(), u64> {
        self.watch(incoming).map_err(|error| {
            self.transfer.fail(error);
            self.arrived.unwrap_or_default()
        })
    }

    fn watch(&mut self, incoming: &mut Incoming) -> Result<(), Error> {
        self.moved(0);
        loop {
            match incoming.receive(self.stall.deadline())? {
                Some(Message::Keepalive) => self.tell(Event::Keepalive),
                Some(Message::DataReceive { data }) => match Fingerprint::from_bytes(data) {
                    Some(kept) => return self.confirm(&kept),
                    None => self.count(data)?,
                },
                Some(Message::SessionEndNotification) => return Err(Error::SessionEnded),
                Some(_) => {}
                None => self.stall.check(&mut self.progress)?,
            }
        }
    }

    /// A count grows, and can't be above what was sent.
    fn count(&mut self, data: &[u8]) -> Result<(), Error> {
        let count = u64::from_be_bytes(data.try_into().map_err(|_| Error::WrongCount)?);
        if self.arrived >= Some(count) || count > self.transfer.sent.load(Ordering::Acquire) {
            return Err(Error::WrongCount);
        }
        self.arrived = Some(count);
        self.stall.end();
        self.tell(Event::Counted(count));
        self.moved(count);
        Ok(())
    }

    /// Only the whole file can be confirmed.
    fn confirm(&mut self, kept: &Fingerprint) -> Result<(), Error> {
        let sent = self.transfer.fingerprint.get().filter(|sent| sent.length == kept.length);
        kept.check(sent.ok_or(Error::WrongCount)?)?;
        self.moved(kept.length);
        Ok(())
    }

    fn moved(&mut self, done: u64) {
        (self.progress)(Progress::Moved { done, total: self.transfer.length });
    }

    fn tell(&self, event: Event) {
        // If the sending thread has failed, the connection's end comes next.
        let _ = self.to_sending.send(event);
    }
}

/// The sending thread's side.
struct Sending<'a> {
    transfer: &'a Transfer,
    outgoing: &'a Outgoing,
    events: Receiver<Event>,
    /// The receiver's last count, as for the watching thread.
    arrived: Option<u64>,
}

impl Sending<'_> {
    fn run(&mut self, source: Source<impl Read>) {
        if let Err(error) = self.send_all(source) {
            self.transfer.fail(error);
        }
    }

    /// Sends the file and its digest.
    fn send_all(&mut self, mut source: Source<impl Read>) -> Result<(), Error> {
        let (mut sent, mut hasher) = (0_u64, Hasher::default());
        source.load()?;
        self.send_data(&self.transfer.length.to_be_bytes())?;
        while !source.chunk.is_empty() {
            self.await_count(sent.checked_sub(WINDOW))?;
            sent += source.chunk.len() as u64;
            // Before the bytes are sent, since they may be counted at once.
            self.transfer.sent.store(sent, Ordering::Release);
            self.send_data(&source.chunk)?;
            hasher.update(&source.chunk);
            source.load()?;
        }
        let fingerprint = self.transfer.fingerprint.get_or_init(|| hasher.finish());
        self.send_data(&fingerprint.digest)?;
        self.take_all()
    }

    /// Takes what has come, and waits until the receiver has counted so many bytes.
    fn await_count(&mut self, count: Option<u64>) -> Result<(), Error> {
        loop {
            let event = match self.events.try_recv() {
                Ok(event) => event,
                Err(_) if self.arrived >= count => return Ok(()),
                // At the end of the events the watching thread has a better reason.
                Err(_) => self.events.recv().map_err(|_| Error::Closed)?,
            };
            self.take(event)?;
        }
    }

    /// Takes what comes until the watching thread ends.
    fn take_all(&mut self) -> Result<(), Error> {
        while let Ok(event) = self.events.recv() {
            self.take(event)?;
        }
        Ok(())
    }

    fn take(&mut self, event: Event) -> Result<(), Error> {
        match event {
            Event::Keepalive => self.send(&Message::Keepalive)?,
            Event::Counted(count) => self.arrived = Some(count),
        }
        Ok(())
    }

    fn send_data(&mut self, data: &[u8]) -> Result<(), Error> {
        self.send(&Message::DataSend { data })
    }

    /// It may wait for the partner's allowance, as long as the watching thread lets it.
    fn send(&mut self, message: &Message) -> Result<(), Error> {
        self.outgoing.send(message, None).inspect_err(|_| self.await_reason())
    }

    /// What the relay said before a write failed tells more than the write's error, so the watching thread may end
    /// first.
    fn await_reason(&self) {
        while self.events.recv_timeout(REASON_WAIT).is_ok() {}
    }
}

/// A file to send, in chunks.
struct Source<R> {
    reader: R,
    left: u64,
    message_size: u64,
    /// Empty at the end.
    chunk: Vec<u8>,
}

impl<R: Read> Source<R> {
    fn new(reader: R, length: u64, message_size: usize) -> Self {
        let message_size = message_size.clamp(1, DATA_LIMIT) as u64;
        Self { reader, left: length, message_size, chunk: Vec::new() }
    }

    /// Loads the next chunk. That the file ends where announced is known before its last chunk can be sent, so that the
    /// receiver never keeps a file that has changed its length.
    fn load(&mut self) -> Result<(), Error> {
        let size = self.left.min(self.message_size);
        self.chunk = self.read(size)?;
        self.left -= size;
        if (self.chunk.len() as u64) < size {
            return Err(Error::Shorter);
        }
        if self.left == 0 && !self.read(1)?.is_empty() {
            return Err(Error::Longer);
        }
        Ok(())
    }

    /// As many bytes, or fewer at the end of the file.
    fn read(&mut self, size: u64) -> Result<Vec<u8>, Error> {
        let mut bytes = Vec::new();
        let read = self.reader.by_ref().take(size).read_to_end(&mut bytes);
        // A reader may have an error of this kind itself.
        read.map_err(|error| error.downcast().unwrap_or_else(Error::Read))?;
        Ok(bytes)
    }
}
