//! Leasing an id, and keeping the lease from when a session is awaited.

use std::time::{Duration, Instant};

use codec::{Message, COOKIE_LENGTH};

use crate::connection::{Held, NEXT_TRY};
use crate::routine::Routine;
use crate::{Error, Peer};

/// So long after it has asked for a lease, or for more time, a peer asks for more time. A lease lasts for 600 seconds or more
/// from when the relay grants it, which is after it was asked for: so this is in time whatever the term is, and leaves as
/// long again for the partner's allowance and a busy machine. The expiration that the relay tells is of no use here: it is by
/// the relay's clock, and a peer knows neither that nor the term. Asking costs 67 units.
pub const EXTENSION_WAIT: Duration = Duration::from_secs(300);

/// What the relay gives with an id. Who has it can extend the lease, and have the id again later.
pub type Cookie = [u8; COOKIE_LENGTH];

/// An id as the relay leased it.
#[derive(Clone, Copy, Debug, PartialEq, Eq)]
pub struct Lease {
    pub id: u32,
    pub cookie: Cookie,
    /// By the relay's clock, which may be far from this machine's.
    pub expiration: u64,
}

impl Lease {
    fn granted(id: u32, cookie: &[u8], expiration: u64) -> Option<Self> {
        Some(Self { id, cookie: cookie.try_into().ok()?, expiration })
    }

    /// Whether it is the one that had this cookie: a new lease has a cookie of its own.
    pub fn renews(&self, cookie: Option<&Cookie>) -> bool {
        cookie == Some(&self.cookie)
    }
}

/// What matters to a peer that waits for a session.
enum Event {
    Session,
    NotExtended,
    Leased(Lease),
    LeaseRefused,
    Other,
}

impl Peer {
    /// Leases an id.
    pub fn lease(&mut self) -> Result<u32, Error> {
        self.lease_again(None).map(|lease| lease.id)
    }

    /// Likewise, with the cookie of an earlier lease if there was one. The relay renews that lease if it can.
    pub fn lease_again(&mut self, cookie: Option<&Cookie>) -> Result<Lease, Error> {
        let asked = self.request_lease(cookie)?;
        let lease = self.answer(|message| match message {
            Message::LeaseGranted { id, cookie, expiration } => Lease::granted(id, cookie, expiration).map(Ok),
            Message::LeaseRefused => Some(Err(Error::LeaseRefused)),
            _ => None,
        })??;
        self.hold(&lease, asked);
        Ok(lease)
    }

    /// Gives when it was asked for: a lease begins after that.
    fn request_lease(&mut self, cookie: Option<&Cookie>) -> Result<Instant, Error> {
        let asked = Instant::now();
        match cookie {
            Some(cookie) => self.send(&Message::LeaseRequestWithCookie { cookie }),
            None => self.send(&Message::LeaseRequest),
        }?;
        Ok(asked)
    }

    fn hold(&mut self, lease: &Lease, asked: Instant) {
        self.cookie = Some(lease.cookie);
        self.outgoing.hold(Some(Held { cookie: lease.cookie, asked }));
    }

    /// Waits until another peer has established a session with this one. From now on a thread of its own extends the lease,
    /// in the session too and whatever the peer is busy with; so this isn't for those who use [`Self::stream`]. If the relay
    /// refuses that before there is a session, it is asked to renew the lease; if it leases another id then, `new_lease` is
    /// told. In a session a refusal is passed over: a peer that awaits another session has its next extension refused first.
    pub fn await_session(&mut self, mut new_lease: impl FnMut(&Lease)) -> Result<(), Error> {
        self.extend_leases()?;
        // When it was asked for a lease that it hasn't answered yet.
        let mut asked = None;
        loop {
            match self.event()? {
                Event::Session => return Ok(()),
                Event::NotExtended if asked.is_none() => {
                    // Else it could be asked for the old one once more, and refuse that after it has given the new one.
                    self.outgoing.hold(None);
                    let cookie = self.cookie;
                    asked = Some(self.request_lease(cookie.as_ref())?);
                }
                Event::Leased(lease) => {
                    let renewed = lease.renews(self.cookie.as_ref());
                    self.hold(&lease, asked.take().unwrap_or_else(Instant::now));
                    if !renewed {
                        new_lease(&lease);
                    }
                }
                Event::LeaseRefused => return Err(Error::LeaseRefused),
                Event::NotExtended | Event::Other => {}
            }
        }
    }

    fn extend_leases(&mut self) -> Result<(), Error> {
        if self.extending.is_none() {
            let wait = self.extension_wait;
            let extending = Routine::start("lease", &self.outgoing, NEXT_TRY, move |writer| writer.extend(wait));
            self.extending = Some(extending.map_err(Error::Thread)?);
        }
        Ok(())
    }

    fn event(&mut self) -> Result<Event, Error> {
        Ok(match self.receive()? {
            Message::EstablishNotification { .. } => Event::Session,
            Message::ExtensionRefused => Event::NotExtended,
            Message::LeaseGranted { id, cookie, expiration } => {
                Lease::granted(id, cookie, expiration).map_or(Event::Other, Event::Leased)
            }
            Message::LeaseRefused => Event::LeaseRefused,
            _ => Event::Other,
        })
    }
}

#[cfg(test)]
mod tests {
    use std::io::Write;
    use std::net::{TcpListener, TcpStream};
    use std::thread;
    use std::time::{Duration, Instant};

    use codec::Message;

    use super::EXTENSION_WAIT;
    use crate::connection::Held;
    use crate::Peer;

    const COOKIE: [u8; 24] = [7; 24];

    /// A peer, and the relay's stream, from which the version's answer has been read.
    fn connect() -> (Peer, TcpStream, frames::Reader) {
        let listener = TcpListener::bind("127.0.0.1:0").expect("a port");
        let address = listener.local_addr().expect("its address");
        let relay = thread::spawn(move || {
            let (mut stream, _) = listener.accept().expect("a connection");
            stream.set_read_timeout(Some(Duration::from_secs(10))).expect("a read limit");
            let version = codec::encode(&Message::ProtocolVersion { major: 1, minor: 0 }).expect("a message");
            let mut frame = Vec::new();
            frames::append(&version, &mut frame).expect("a frame");
            stream.write_all(&frame).expect("a peer");
            let mut reader = frames::Reader::default();
            reader.next(&mut stream).expect("an answer");
            (stream, reader)
        });
        let peer = Peer::connect(address).expect("a peer");
        let (stream, reader) = relay.join().expect("the relay");
        (peer, stream, reader)
    }

    #[test]
    fn an_extension_that_is_due_comes_soon_after_the_writer_was_busy() {
        let (mut peer, mut relay, mut reader) = connect();
        peer.outgoing.hold(Some(Held { cookie: COOKIE, asked: Instant::now() - EXTENSION_WAIT }));
        let writer = peer.outgoing.writer().upgrade().expect("a writer");
        let busy = writer.lock().expect("nobody else has it");
        peer.extend_leases().expect("a thread");
        // Long enough for it to find the writer busy.
        thread::sleep(Duration::from_millis(100));
        drop(busy);
        let first = reader.next(&mut relay).expect("a frame");
        assert_eq!(first.and_then(codec::decode), Some(Message::ExtensionRequest { cookie: &COOKIE }));
    }
}
