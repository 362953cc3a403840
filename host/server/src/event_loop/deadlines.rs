//! What happens because time has passed.

use std::time::{Duration, Instant};

use super::EventLoop;
use crate::connection::{Connection, End, Hold, Phase};
use crate::log::{Event, Place};
use crate::sockets::SocketId;

/// How often the journal is written, the state saved and the clock compared with the machine's.
const TICK: Duration = Duration::from_millis(500);
/// Seconds by which the machine's time may differ from the relay's without a line in the log.
const DRIFT: u64 = 2;

impl EventLoop {
    /// Acts on the deadlines that have passed, and finds the next.
    pub(super) fn expire(&mut self) {
        if self.now < self.earliest {
            return;
        }
        self.retry_waiting();
        self.turn_away();
        self.for_each_socket(Self::expire_connection);
        self.check_peers();
        if self.tick <= self.now {
            self.tick = self.now + TICK;
            self.relay.hand_over_records();
            self.save_state();
            self.compare_clocks();
        }
        self.earliest = self.next_deadline();
    }

    fn next_deadline(&self) -> Instant {
        let ports = self.partners.iter().filter_map(|partner| partner.port.deadline());
        let patience = self.limits.patience;
        let connections = self.sockets.iter().flat_map(|connection| connection.deadlines(patience));
        let others = self.retry.into_iter().chain(self.stops).chain([self.next_check]);
        ports.chain(connections).chain(others).fold(self.tick, Instant::min)
    }

    /// A new second has come for those who wait for allowance.
    fn retry_waiting(&mut self) {
        if self.retry.is_some_and(|retry| retry <= self.now) {
            self.retry = None;
            self.partners.iter_mut().for_each(|partner| partner.turns.waiting = false);
        }
    }

    fn expire_connection(&mut self, socket: SocketId) {
        let now = self.now;
        let Some(connection) = self.sockets.get(socket) else { return };
        if connection.due.is_some_and(|due| due <= now) {
            self.expire_due(socket);
        }
        self.expire_progress(socket);
        let Some(connection) = self.sockets.get_mut(socket) else { return };
        if matches!(connection.hold, Some(Hold::Pause(until)) if until <= now) {
            connection.hold = None;
            // What is read for nobody is never a message.
            if connection.phase == Phase::Closing {
                self.ready.push(socket);
            }
            self.go_on(socket);
        }
    }

    /// The peer hasn't sent what was expected of it, or hasn't closed its side.
    fn expire_due(&mut self, socket: SocketId) {
        let Some(connection) = self.sockets.get_mut(socket) else { return };
        let phase = connection.phase;
        if phase == Phase::Closing {
            self.free(socket);
        } else if connection.input.message().is_some() {
            // A message that has come in time may wait for its turn.
            connection.due = Some(self.now + self.limits.frame);
        } else {
            self.end(socket, End::Silent(phase));
        }
    }

    /// Gives up a peer that has taken next to nothing of what waits for it.
    fn expire_progress(&mut self, socket: SocketId) {
        if self.is_stalled(socket) {
            // The kernel tells late that there is room again.
            self.write(socket);
        }
        if self.is_stalled(socket) {
            self.end(socket, End::GivenUp);
        }
    }

    fn is_stalled(&self, socket: SocketId) -> bool {
        let progress = self.sockets.get(socket).and_then(|connection| connection.progress);
        progress.is_some_and(|progress| progress.since + self.limits.patience <= self.now)
    }

    fn save_state(&mut self) {
        if let Some(saver) = &mut self.saver {
            saver.save(self.relay.tables_to_save());
        }
    }

    fn compare_clocks(&mut self) {
        let drift = self.relay.clock().drift();
        if drift.abs_diff(self.logged_drift) > DRIFT {
            let event = Event { kind: "clock", place: Place::Relay };
            let text = format_args!("the machine's time is {drift} s from the relay's, which goes on as before");
            self.log.record(event, None, text);
            self.logged_drift = drift;
        }
    }
}

impl Connection {
    /// When something is due of it.
    fn deadlines(&self, patience: Duration) -> impl Iterator<Item = Instant> {
        let pause = match self.hold {
            Some(Hold::Pause(until)) => Some(until),
            _ => None,
        };
        let progress = self.progress.map(|progress| progress.since + patience);
        [self.due, pause, progress].into_iter().flatten()
    }
}
