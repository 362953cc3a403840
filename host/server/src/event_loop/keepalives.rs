//! Whether the peers are still there: with each new second of the clock the engine is asked about every connection that
//! it has opened. It says whom to send a Keepalive, and closes the connections whose peers haven't answered theirs.

use std::io::ErrorKind::WouldBlock;

use engine::relay::Answer;

use super::EventLoop;
use crate::calls::relay_length;
use crate::connection::{Connection, End};
use crate::sockets::SocketId;

impl EventLoop {
    pub(super) fn check_peers(&mut self) {
        if self.now < self.next_check {
            return;
        }
        let stood_still = self.now.duration_since(self.next_check) >= self.limits.standstill;
        self.next_check = self.now + self.relay.clock().until_next();
        if stood_still {
            // A Keepalive has perhaps just been written whose time is that of before.
            self.next_check += self.limits.standstill;
        } else {
            self.for_each_socket(Self::check_peer);
        }
    }

    fn check_peer(&mut self, socket: SocketId) {
        let Some(number) = self.silent_number(socket) else { return };
        let room = &mut self.scratch[..relay_length(0)];
        match self.relay.keepalive(number, &mut self.reply, room) {
            Ok(answer) => self.follow_check(socket, answer),
            Err(refusal) => self.end(socket, End::Refused(refusal)),
        }
    }

    /// The number of a connection whose peer can be judged by its silence. While something waits with the relay
    /// it can't: its answer may be among what has come from it, and waits for allowance or for a full output; and behind
    /// what isn't written to it a Keepalive couldn't be read in time. What waits has an end of its own: the partner's
    /// turns, a slow reader's deadline, that of a frame.
    fn silent_number(&self, socket: SocketId) -> Option<usize> {
        let connection = self.sockets.get(socket)?;
        let number = connection.number?;
        (self.outputs[socket.place()].is_empty() && connection.is_heard_out()).then_some(number)
    }

    /// Does what the engine says. Of the checks only one that closes its connection counts as a call done.
    fn follow_check(&mut self, socket: SocketId, answer: Answer) {
        self.deliver_reply(socket, answer);
        self.deliver_relay(answer);
        if answer.disconnect != 0 {
            self.partner_of(socket).statistics.done += 1;
            self.end(socket, End::Unanswered);
        }
    }
}

impl Connection {
    /// Whether all that has come from the peer is taken. The clock's reading is of the turn's beginning, and the stream is
    /// looked at after it: if the relay was stopped in between, an answer may have come that the poll hasn't told of.
    fn is_heard_out(&self) -> bool {
        let has_nothing_to_read = || self.stream.peek(&mut [0]).is_err_and(|error| error.kind() == WouldBlock);
        self.input.is_empty() && has_nothing_to_read()
    }
}
