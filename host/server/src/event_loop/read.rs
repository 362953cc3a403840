//! What comes from a peer.

use mio::event::Event;

use super::EventLoop;
use crate::connection::{Connection, End, Phase};
use crate::input::ReadOutcome;
use crate::sockets::SocketId;

impl EventLoop {
    pub(super) fn handle_socket_event(&mut self, socket: SocketId, event: &Event) {
        let Some(connection) = self.sockets.get_mut(socket) else { return };
        // A peer that has reset takes and sends nothing any more, so what it has sent needn't be served to its end.
        if event.is_error() || event.is_read_closed() && event.is_write_closed() {
            let error = connection.stream.take_error().ok().flatten();
            return self.end(socket, End::Failed(error.unwrap_or(std::io::ErrorKind::ConnectionReset.into())));
        }
        connection.readable |= event.is_readable() || event.is_read_closed();
        connection.read_closed |= event.is_read_closed();
        if connection.has_left_unopened() {
            return self.end(socket, End::Left);
        }
        if connection.readable && connection.is_read() {
            self.ready.push(socket);
        }
        if event.is_writable() {
            self.write(socket);
        }
    }

    /// Reads once from each connection that can be read.
    pub(super) fn read(&mut self) {
        let mut ready = std::mem::take(&mut self.ready);
        for socket in ready.drain(..) {
            self.read_connection(socket);
        }
        ready.append(&mut self.ready);
        self.ready = ready;
    }

    fn read_connection(&mut self, socket: SocketId) {
        let Some(connection) = self.sockets.get_mut(socket) else { return };
        let has_message = connection.input.message().is_some();
        if !connection.readable || has_message || !connection.is_read() {
            return;
        }
        if connection.phase == Phase::Closing {
            return self.discard(socket);
        }
        match connection.input.read_from(&mut connection.stream, &mut self.spare_inputs) {
            Ok(ReadOutcome::Part) => {}
            // The end of the stream is told once: it must be read to it.
            Ok(ReadOutcome::All) => connection.readable = connection.read_closed,
            Ok(ReadOutcome::Nothing) => connection.readable = false,
            Ok(ReadOutcome::End) => (connection.readable, connection.ended) = (false, true),
            Err(error) => return self.end(socket, End::Failed(error)),
        }
        self.go_on(socket);
    }

    /// Goes on with a connection: a whole message waits for its turn, the rest of a frame is read.
    pub(super) fn go_on(&mut self, socket: SocketId) {
        while self.sockets.get(socket).is_some_and(Connection::has_session_end) {
            self.offer(socket);
        }
        let Some(connection) = self.sockets.get_mut(socket) else { return };
        if !connection.is_taken_from() {
            return;
        }
        if connection.input.message().is_some() {
            if connection.phase == Phase::Open {
                connection.due = None;
            }
            return self.partner_of(socket).turns.join(socket);
        }
        match connection.input.refusal() {
            Some(refusal) => self.end(socket, End::Unreadable(refusal.into())),
            None if !connection.ended => self.expect_bytes(socket),
            None if connection.input.is_empty() => self.end(socket, End::Left),
            None => self.end(socket, End::Unreadable(frames::Error::Cut)),
        }
    }

    /// There is no whole message: it has nothing to offer until more has come.
    fn expect_bytes(&mut self, socket: SocketId) {
        self.partner_of(socket).turns.leave(socket);
        let deadline = self.now + self.limits.frame;
        let Some(connection) = self.sockets.get_mut(socket) else { return };
        connection.input.release(&mut self.spare_inputs);
        if connection.readable {
            self.ready.push(socket);
        }
        if connection.phase == Phase::Open {
            let begun = !connection.input.is_empty();
            connection.due = connection.due.or(Some(deadline)).filter(|_| begun);
            if let Some(due) = connection.due {
                self.wake_by(due);
            }
        }
    }
}
