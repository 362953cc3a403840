//! What an accepted call sends, put into the outputs that it is for.

use engine::relay::{Answer, NOBODY};

use super::EventLoop;
use crate::sockets::SocketId;

impl EventLoop {
    /// What is replied stands in the reply buffer.
    pub(super) fn deliver_reply(&mut self, caller: SocketId, answer: Answer) {
        if answer.reply > 0 {
            let reply = &self.reply[..answer.reply as usize];
            self.outputs[caller.place()].append(reply, &mut self.spare_outputs);
            self.note_filled(caller);
        }
    }

    /// What is relayed stands in the scratch buffer.
    pub(super) fn deliver_relay(&mut self, answer: Answer) {
        let Some(destination) = self.destination(answer) else { return };
        let relayed = &self.scratch[..answer.relay as usize];
        self.outputs[destination.place()].append(relayed, &mut self.spare_outputs);
        self.note_filled(destination);
    }

    /// The socket that something is relayed to: the one that has the destination's number now.
    fn destination(&self, answer: Answer) -> Option<SocketId> {
        let is_relayed = answer.relay > 0 && answer.destination != NOBODY;
        is_relayed.then(|| self.sockets.numbered(answer.destination as usize))?
    }

    /// Something was added to this one's output. Most often it was the last one too.
    fn note_filled(&mut self, socket: SocketId) {
        if self.filled.last() != Some(&socket) {
            self.filled.push(socket);
        }
    }

    /// The one whose output an accepted call has left full, after as much as possible of it is written.
    pub(super) fn full_output(&mut self, caller: SocketId, answer: Answer) -> Option<SocketId> {
        let replied = (answer.reply > 0).then_some(caller);
        let mut filled = [self.destination(answer), replied].into_iter().flatten();
        filled.find(|socket| self.stays_full(*socket))
    }

    fn stays_full(&mut self, socket: SocketId) -> bool {
        if self.output_of(socket).is_full() {
            self.write(socket);
        }
        self.output_of(socket).is_full()
    }
}
