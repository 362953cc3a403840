//! The end of the relay.

use super::EventLoop;
use crate::connection::End;
use crate::log::{Event, Place};
use crate::server::Command;
use crate::sockets::Sockets;
use crate::statistics::Statistics;

impl EventLoop {
    /// Does what it is told from outside.
    pub(super) fn handle_commands(&mut self) {
        while let Ok(command) = self.commands.try_recv() {
            match command {
                // Who asked may have gone.
                Command::Statistics(to) => drop(to.send(self.statistics())),
                Command::Stop => self.stop(),
            }
        }
    }

    /// Takes nothing more and ends every connection. What is still to be written has a moment.
    fn stop(&mut self) {
        // Asking twice doesn't prolong it.
        let deadline = *self.stops.get_or_insert(self.now + self.limits.last_words);
        self.wake_by(deadline);
        for partner in &mut self.partners {
            partner.port.shut();
        }
        self.for_each_socket(|own, socket| own.end(socket, End::Stopped));
    }

    pub(super) fn is_over(&self) -> bool {
        let Some(deadline) = self.stops else { return false };
        self.now >= deadline || self.sockets.iter().next().is_none()
    }

    /// Saves the state, ends the journal, and writes to the log what each partner got.
    pub(super) fn finish(&mut self) {
        self.sockets = Sockets::new();
        if let Some(saver) = self.saver.take() {
            saver.finish(self.relay.tables_to_save());
        }
        self.relay.finish_journal();
        for (partner, got) in self.statistics().iter().enumerate() {
            if *got != Statistics::default() {
                self.log.record(Event { kind: "summary", place: Place::Partner(partner) }, None, got);
            }
        }
    }
}
