//! The end of a connection.

use std::io::{self, Read};
use std::net::Shutdown;

use super::EventLoop;
use crate::calls::relay_length;
use crate::connection::{End, Phase};
use crate::sockets::SocketId;

impl EventLoop {
    /// Ends a connection in the engine, which has its number for another from then on. Its socket is there until what waits
    /// for its peer is written or given up; what the peer has sent and wasn't served is dropped.
    pub(super) fn end(&mut self, socket: SocketId, why: End) {
        let Some(connection) = self.sockets.get_mut(socket) else { return };
        let phase = std::mem::replace(&mut connection.phase, Phase::Closing);
        (connection.hold, connection.due) = (None, None);
        connection.input.discard(&mut self.spare_inputs);
        if phase != Phase::Closing {
            self.log_connection(socket, why.kind(), &why);
            self.partner_of(socket).turns.leave(socket);
            self.close(socket, &why);
        }
        // Nothing is added to its output any more.
        self.release_senders(socket);
        if !why.has_last_words() {
            self.free(socket);
        } else if self.output_of(socket).is_empty() {
            self.say_goodbye(socket);
        } else {
            self.filled.push(socket);
        }
    }

    /// All is written. The stream is closed only when the peer has closed its side, or after a moment: bytes of the peer
    /// that nobody reads would make the kernel throw away what it hasn't sent yet.
    pub(super) fn say_goodbye(&mut self, socket: SocketId) {
        let due = self.now + self.limits.last_words;
        let Some(connection) = self.sockets.get_mut(socket) else { return };
        if connection.ended || connection.stream.shutdown(Shutdown::Write).is_err() {
            return self.free(socket);
        }
        connection.due = Some(due);
        // What it has sent and nobody has read.
        connection.readable = true;
        self.wake_by(due);
        self.ready.push(socket);
    }

    /// Reads what a peer still sends, for nobody, and so with pauses.
    pub(super) fn discard(&mut self, socket: SocketId) {
        let Some(connection) = self.sockets.get_mut(socket) else { return };
        match connection.stream.read(&mut self.scratch) {
            Ok(0) => self.free(socket),
            Ok(count) => self.pause(socket, count),
            Err(error) if error.kind() == io::ErrorKind::WouldBlock => connection.readable = false,
            Err(error) if error.kind() == io::ErrorKind::Interrupted => self.ready.push(socket),
            Err(_) => self.free(socket),
        }
    }

    /// Closes a connection in the engine, if it is open there, and takes its number from the socket.
    fn close(&mut self, socket: SocketId, why: &End) {
        let number = self.sockets.get(socket).and_then(|connection| connection.number);
        if let Some(number) = number.filter(|_| !why.is_closed_by_engine()) {
            self.close_number(socket, number, matches!(why, End::Stopped));
        }
        self.sockets.take_number(socket);
        self.freed = true;
    }

    /// The session of a connection that is closed, if it has one, ends. When the relay itself ends the other side isn't told
    /// so: it sees the end of its own connection, and so the reason.
    fn close_number(&mut self, socket: SocketId, number: usize, quietly: bool) {
        let room = &mut self.scratch[..relay_length(0)];
        match self.relay.close(number, room) {
            Ok(answer) => {
                self.partner_of(socket).statistics.done += 1;
                if !quietly {
                    self.deliver_relay(answer);
                }
            }
            Err(refusal) => self.log_connection(socket, "not closed", refusal),
        }
    }

    /// Frees the place of a socket that has ended.
    pub(super) fn free(&mut self, socket: SocketId) {
        let Some(mut connection) = self.sockets.remove(socket) else { return };
        // Closing the stream takes it out of the poll as well.
        let _ = self.poll.registry().deregister(&mut connection.stream);
        self.outputs[socket.place()].clear(&mut self.spare_outputs);
        self.freed = true;
    }
}
