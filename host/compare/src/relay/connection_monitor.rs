//! Dead connections, checked on a run from its history alone: the calls with their answers, and nothing from the tables.

use engine::relay::Answer;
use model::{ANSWER_TIMEOUT, CONNECTIONS, KEEPALIVE_TIMEOUT};

use super::boundary::{Call, Kind};
use super::monitor::Fault;

/// What history says of a connection.
#[derive(Clone, Copy, Default)]
struct History {
    /// When it was last sent something, since it was opened.
    sent: u64,
    /// When it was asked, unless it has sent a message since.
    asked: Option<u64>,
}

impl History {
    /// Bytes of the reply, and whether the connection ends, if a keepalive call is made now.
    fn due(&self, now: u64) -> (u32, u32) {
        match self.asked {
            Some(asked) => (0, u32::from(now - asked >= ANSWER_TIMEOUT)),
            None => (u32::from(now - self.sent >= KEEPALIVE_TIMEOUT), 0),
        }
    }
}

/// Follows a run call by call.
pub struct ConnectionMonitor([History; CONNECTIONS]);

impl Default for ConnectionMonitor {
    fn default() -> Self {
        Self([History::default(); CONNECTIONS])
    }
}

impl ConnectionMonitor {
    /// Checks the next call of the run against those before it. One refused, or with no such connection, changes nothing.
    pub fn record(&mut self, call: &Call, answer: &Answer) -> Result<(), Fault> {
        let (0, Some(caller)) = (answer.number, call.caller()) else {
            return Ok(());
        };
        let history = &mut self.0[caller];
        match call.kind {
            Kind::Open { .. } => *history = History::default(),
            Kind::Message { .. } => history.asked = None,
            Kind::Keepalive { .. } => {
                let due = history.due(call.now);
                if (answer.reply, answer.disconnect) != due {
                    return Err(Fault(format!("{call:?}: {answer:?}, but due is {due:?}")));
                }
                history.asked = history.asked.or((due == (1, 0)).then_some(call.now));
            }
            Kind::Fresh { .. } | Kind::Close { .. } => {}
        }
        self.note_sent(call.now, caller, answer);
        Ok(())
    }

    fn note_sent(&mut self, now: u64, caller: usize, answer: &Answer) {
        if answer.reply > 0 {
            self.0[caller].sent = now;
        }
        if answer.relay > 0 {
            self.0[answer.destination as usize].sent = now;
        }
    }
}
