//! Connections: from the listener to a place among those that are opened.

use std::fmt::Display;
use std::time::Duration;

use mio::Interest;

use super::EventLoop;
use crate::connection::{Connection, Phase};
use crate::log::{Event, Place};
use crate::port::Candidate;
use crate::sockets::SocketId;
use crate::CONNECTIONS_EACH;

/// A peer that acknowledges nothing for so long has vanished. The engine finds it sooner, but asks nobody who is sent
/// something every half minute. It is long, since a peer that reads slowly may do so too.
const ACKNOWLEDGED_IN: Duration = Duration::from_secs(300);
/// How long nothing is accepted after accepting has failed, for want of file descriptors say.
const REST: Duration = Duration::from_millis(100);

impl EventLoop {
    /// Accepts connections, as many as there is room for or may wait for it.
    pub(super) fn accept(&mut self) {
        self.freed = false;
        for partner in 0..self.partners.len() {
            self.admit(partner);
            while self.accept_one(partner) {
                self.admit(partner);
            }
        }
    }

    fn accept_one(&mut self, partner: usize) -> bool {
        let deadline = self.now + self.limits.number;
        let port = &mut self.partners[partner].port;
        if port.rests_until.is_some() {
            return false;
        }
        match port.accept(deadline, ACKNOWLEDGED_IN) {
            Ok(goes_on) => goes_on,
            Err(error) => {
                port.rests_until = Some(self.now + REST);
                self.wake_by(self.now + REST);
                self.log_partner(partner, "not accepted", format_args!("a connection failed: {error}"));
                false
            }
        }
    }

    /// Takes in those who wait, the first of them first, while there is room.
    fn admit(&mut self, partner: usize) {
        while let Some(deadline) = self.partners[partner].port.candidates.front().map(|first| first.deadline) {
            let Some(socket) = self.room_for_one(partner) else { return self.wake_by(deadline) };
            if let Some(candidate) = self.partners[partner].port.candidates.pop_front() {
                self.begin(socket, candidate);
            }
        }
    }

    /// A place for one more socket of a partner, if there is a number for it too when its turn to be opened comes.
    fn room_for_one(&self, partner: usize) -> Option<SocketId> {
        (self.numbers_in_use(partner) < CONNECTIONS_EACH).then(|| self.sockets.vacancy(partner))?
    }

    /// How many of a partner's numbers are taken, or will be by those who wait to be opened.
    fn numbers_in_use(&self, partner: usize) -> usize {
        self.relay.connections_of(partner).connections as usize + self.sockets.count(partner, Phase::Opening)
    }

    /// A connection begins: it is opened in its turn.
    fn begin(&mut self, socket: SocketId, Candidate { mut stream, address, .. }: Candidate) {
        let interest = Interest::READABLE | Interest::WRITABLE;
        if let Err(error) = self.poll.registry().register(&mut stream, socket.token(), interest) {
            self.log_partner(socket.partner(), "not accepted", format_args!("a connection failed: {error}"));
            return;
        }
        self.sockets.insert(socket, Connection::new(stream, address, self.now + self.limits.open));
        self.partner_of(socket).turns.join(socket);
    }

    /// Turns those away who have waited for room long enough.
    pub(super) fn turn_away(&mut self) {
        for partner in 0..self.partners.len() {
            // There may be room since this turn has begun.
            self.admit(partner);
            let now = self.now;
            let port = &mut self.partners[partner].port;
            port.rests_until = port.rests_until.filter(|time| *time > now);
            while let Some(Candidate { address, .. }) = self.partners[partner].port.next_overdue(now) {
                let event = Event { kind: "turned away", place: Place::Partner(partner) };
                self.log.record(event, Some(address), self.no_room(partner));
            }
        }
    }

    /// Why there is no room for one more.
    fn no_room(&self, partner: usize) -> impl Display {
        if self.numbers_in_use(partner) < CONNECTIONS_EACH {
            let ended = self.sockets.count(partner, Phase::Closing);
            format!("a connection is refused, {ended} of this partner have ended and are still there")
        } else {
            format!("a connection is refused, all {CONNECTIONS_EACH} of this partner are in use")
        }
    }

    fn log_partner(&self, partner: usize, kind: &'static str, text: impl Display) {
        self.log.record(Event { kind, place: Place::Partner(partner) }, None, text);
    }
}
