//! What goes to a peer.

use super::EventLoop;
use crate::connection::{End, Hold, Phase, Progress};
use crate::sockets::{places_of, SocketId};

impl EventLoop {
    /// Writes every output that something was added to.
    pub(super) fn write_filled(&mut self) {
        while let Some(socket) = self.filled.pop() {
            self.write(socket);
        }
    }

    /// Writes as much of a connection's output as its stream takes.
    pub(super) fn write(&mut self, socket: SocketId) {
        let Some(connection) = self.sockets.get_mut(socket) else { return };
        let output = &mut self.outputs[socket.place()];
        if output.is_empty() {
            return;
        }
        match output.write_to(&mut connection.stream, &mut self.spare_outputs) {
            Ok(count) => self.written(socket, count),
            Err(error) => self.end(socket, End::Failed(error)),
        }
    }

    fn written(&mut self, socket: SocketId, count: usize) {
        let Some(connection) = self.sockets.get_mut(socket) else { return };
        let output = &self.outputs[socket.place()];
        if output.is_empty() {
            connection.progress = None;
            if connection.phase == Phase::Closing {
                return self.say_goodbye(socket);
            }
        } else if output.is_excessive() {
            return self.end(socket, End::GivenUp);
        } else {
            // What the kernel took before it was full is no progress of the peer's.
            match &mut connection.progress {
                Some(progress) => progress.add(count, self.limits.least_progress, self.now),
                None => connection.progress = Some(Progress { since: self.now, written: 0 }),
            }
            self.wake_by(self.now + self.limits.patience);
        }
        if !self.output_of(socket).is_full() {
            self.release_senders(socket);
        }
    }

    /// Goes on with those who were held because of this one's output.
    pub(super) fn release_senders(&mut self, socket: SocketId) {
        for place in places_of(socket.partner()) {
            let Some(sender) = self.sockets.at(place) else { continue };
            let Some(connection) = self.sockets.get_mut(sender) else { continue };
            if connection.hold == Some(Hold::Output(socket)) {
                connection.hold = None;
                self.go_on(sender);
            }
        }
    }
}
