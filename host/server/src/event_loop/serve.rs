//! Messages offered to the engine, each partner's in its turns.

use std::time::Duration;

use engine::relay::{Answer, RANDOM};

use super::EventLoop;
use crate::calls::{greatest_cost, relay_length};
use crate::connection::{Connection, End, Hold, Phase};
use crate::log::Said;
use crate::message::{DATA_SEND, ESTABLISH_REQUEST, LEASE_REQUEST};
use crate::refusal::{Consequence, Refusal, ShortRefusal};
use crate::sockets::SocketId;

/// What a partner's messages may cost in a turn if no other has any: so much that the turn's own cost hardly counts. It is
/// about as much as two sends of the largest size, which is the most that a connection's input holds.
const TURN: usize = 262_144;
/// What they may cost together if several partners have any: so little that a neighbour doesn't wait long for the next.
const SHARED_TURN: usize = 32_768;
/// The messages that random bytes matter to.
const NEEDS_RANDOM: [u8; 2] = [LEASE_REQUEST, ESTABLISH_REQUEST];
/// Lent to the others.
const NOT_RANDOM: [u8; RANDOM] = [0; RANDOM];
/// A dropped message costs its sender no allowance, nor do bytes that are read for nobody. So the next are taken after a
/// pause of a millisecond for each KiB begun of them: a flood of them mustn't keep the relay busy.
const PAUSE: Duration = Duration::from_millis(1);
const PAUSE_BYTES: usize = 1_024;

impl EventLoop {
    /// Serves each partner up to its share of a turn.
    pub(super) fn serve(&mut self) {
        let count = self.partners.len();
        let busy = self.partners.iter().filter(|partner| partner.turns.next().is_some()).count();
        if busy == 0 {
            return;
        }
        let share = if busy == 1 { TURN } else { SHARED_TURN / busy };
        for place in 0..count {
            self.serve_partner((self.first_partner + place) % count, share);
            self.write_filled();
        }
        self.first_partner = (self.first_partner + 1) % count;
    }

    fn serve_partner(&mut self, partner: usize, share: usize) {
        let mut spent = 0;
        while spent < share {
            let Some(socket) = self.partners[partner].turns.next() else { return };
            spent += self.serve_connection(socket, share - spent);
        }
    }

    /// Offers what the connection has whose turn it is, as far as it can afford it. Gives what that cost.
    fn serve_connection(&mut self, socket: SocketId, share: usize) -> usize {
        let credit = self.partner_of(socket).turns.credit(socket);
        let mut spent = 0;
        while spent < share {
            let cost = greatest_cost(self.next_message(socket));
            if spent + cost > credit {
                self.partner_of(socket).turns.pass_on(socket);
                break;
            }
            self.offer_next(socket);
            if self.partner_of(socket).turns.waiting {
                break;
            }
            spent += cost;
            if !self.has_more(socket) {
                self.go_on(socket);
                break;
            }
        }
        self.partner_of(socket).turns.spend(socket, spent);
        spent
    }

    /// What a connection offers next: an open is no message.
    fn next_message(&self, socket: SocketId) -> Option<&[u8]> {
        self.sockets.get(socket).and_then(|connection| connection.input.message())
    }

    /// Whether the next message of a connection can be offered in the same turn.
    fn has_more(&self, socket: SocketId) -> bool {
        let Some(connection) = self.sockets.get(socket) else { return false };
        connection.is_taken_from() && connection.input.message().is_some() && !connection.has_session_end()
    }

    fn offer_next(&mut self, socket: SocketId) {
        match self.sockets.get(socket) {
            Some(connection) if connection.phase == Phase::Opening => self.open(socket),
            _ => self.offer(socket),
        }
    }

    /// Opens a connection under the lowest number of its partner that the engine has closed. One that is refused has no
    /// number: when it is tried again, another may be the lowest.
    fn open(&mut self, socket: SocketId) {
        let number = self.next_number(socket);
        match self.relay.open(number, &mut self.reply) {
            Ok(answer) => {
                self.sockets.give_number(socket, number);
                let due = self.now + self.limits.version;
                let Some(connection) = self.sockets.get_mut(socket) else { return };
                (connection.phase, connection.due, connection.waits) = (Phase::Greeted, Some(due), false);
                self.log_connection(socket, "connected", "connected");
                self.wake_by(due);
                self.count_done(socket, 0);
                self.deliver_reply(socket, answer);
            }
            Err(refusal) => self.refused(socket, &NOT_RANDOM, refusal),
        }
    }

    /// The number that its connection is opened under. Not met: there is none, and an open of NOBODY is refused.
    fn next_number(&self, socket: SocketId) -> usize {
        self.relay.connections_of(socket.partner()).lowest as usize
    }

    /// Offers the first message of a connection to the engine and acts on the answer.
    pub(super) fn offer(&mut self, socket: SocketId) {
        let Some(connection) = self.sockets.get_mut(socket) else { return };
        let (Some(number), Some(message)) = (connection.number, connection.input.message()) else { return };
        let (length, kind) = (message.len(), message.first().copied());
        let random = match kind.filter(|kind| NEEDS_RANDOM.contains(kind)) {
            Some(_) => match self.random.take() {
                Ok(random) => random,
                Err(error) => return self.end(socket, End::Failed(error)),
            },
            None => &NOT_RANDOM,
        };
        let room = &mut self.scratch[..relay_length(length)];
        let answer = match self.relay.message(number, message, random, &mut self.reply, room) {
            Ok(answer) => answer,
            Err(refusal) => {
                let random = *random;
                return self.refused(socket, &random, refusal);
            }
        };
        connection.take();
        self.count_done(socket, length);
        self.deliver_reply(socket, answer);
        self.deliver_relay(answer);
        if kind != Some(DATA_SEND) {
            self.follow(socket, answer);
        }
        self.keep_bound(socket, answer);
    }

    fn count_done(&mut self, socket: SocketId, length: usize) {
        let statistics = &mut self.partner_of(socket).statistics;
        statistics.done += 1;
        statistics.bytes += length as u64;
    }

    /// What else follows from an accepted message that isn't data.
    fn follow(&mut self, socket: SocketId, answer: Answer) {
        let Some(connection) = self.sockets.get_mut(socket) else { return };
        if connection.phase == Phase::Greeted {
            (connection.phase, connection.due) = (Phase::Open, None);
        }
        if answer.disconnect != 0 {
            self.end(socket, End::OtherVersion);
        }
    }

    /// Takes nothing more from a connection whose message has left an output full.
    fn keep_bound(&mut self, socket: SocketId, answer: Answer) {
        if let Some(full) = self.full_output(socket, answer) {
            self.hold(socket, Hold::Output(full));
        }
    }

    /// What a connection offered, with these random bytes, is refused. It has still to be taken.
    fn refused(&mut self, socket: SocketId, random: &[u8; RANDOM], refusal: Refusal) {
        match refusal.consequence() {
            Consequence::Wait => self.wait_for_allowance(socket, random, refusal),
            Consequence::Drop => {
                self.partner_of(socket).statistics.dropped += 1;
                self.log_connection(socket, "dropped", refusal);
                let length = self.next_message(socket).map_or(0, <[u8]>::len);
                self.sockets.get_mut(socket).into_iter().for_each(Connection::take);
                self.pause(socket, length);
            }
            Consequence::Close => self.end(socket, End::Refused(refusal)),
        }
    }

    /// A level changes only with the second, so it is tried again with each: three pay for any call. Until then the
    /// connection keeps its partner's turn.
    fn wait_for_allowance(&mut self, socket: SocketId, random: &[u8; RANDOM], refusal: Refusal) {
        let retry = self.now + self.relay.clock().until_next();
        let retry = *self.retry.get_or_insert(retry);
        self.wake_by(retry);
        self.partner_of(socket).turns.waiting = true;
        let Some(connection) = self.sockets.get_mut(socket) else { return };
        if !std::mem::replace(&mut connection.waits, true) {
            // The line of an open has no number that could tell what it is about.
            let subject = if connection.number.is_none() { "its open is " } else { "" };
            self.partner_of(socket).statistics.waited += 1;
            self.log_connection_with(socket, "waits", || {
                let shortfall = self.shortfall(socket, random);
                let number = shortfall.map(|units| ("shortfall", units));
                Said { text: format!("{subject}{}", ShortRefusal { refusal, shortfall }), number }
            });
        }
    }

    /// What the partner is short of for what a connection has just offered with these random bytes.
    fn shortfall(&self, socket: SocketId, random: &[u8; RANDOM]) -> Option<u64> {
        let connection = self.sockets.get(socket)?;
        let reason = match connection.number {
            None => self.relay.explain_open(self.next_number(socket)),
            Some(number) => self.relay.explain_message(number, connection.input.message()?, random),
        };
        reason.shortfall()
    }

    /// Takes nothing from a connection for as long as so many bytes, which cost nobody anything, are worth.
    pub(super) fn pause(&mut self, socket: SocketId, length: usize) {
        let pause = PAUSE * length.div_ceil(PAUSE_BYTES).max(1) as u32;
        self.hold(socket, Hold::Pause(self.now + pause));
    }

    /// Takes nothing from a connection for a while.
    fn hold(&mut self, socket: SocketId, hold: Hold) {
        self.partner_of(socket).turns.leave(socket);
        let Some(connection) = self.sockets.get_mut(socket) else { return };
        connection.hold = Some(hold);
        if let Hold::Pause(until) = hold {
            self.wake_by(until);
        }
    }
}
