//! A relay whose ways to find dead connections can be replaced one by one.

use compare::relay::boundary::{Boundary, Call, Kind, Lent, Second};
use compare::relay::noticed::edit;
use compare::relay::records;
use engine::relay::{Answer, NOBODY};
use model::{Connection, Due, Relay, State};

/// A call of a connection on tables of the right sizes: the relay before it, and what is answered.
pub struct Made {
    pub before: Relay,
    pub call: Call,
    pub caller: usize,
    pub answer: Answer,
    /// What a keepalive call that is accepted does.
    pub due: Option<Due>,
    /// The first bytes of the buffers afterwards, zero where they are shorter.
    pub reply: [u8; 6],
    pub relay: [u8; 6],
}

impl Made {
    fn new(before: &Lent, call: &Call, answer: Answer) -> Option<Self> {
        let (before, caller) = (Relay::decode(&before.tables())?, call.caller()?);
        Some(Self { before, call: call.clone(), caller, answer, due: None, reply: [0; 6], relay: [0; 6] })
    }

    pub fn accepted(&self) -> bool {
        self.answer.number == 0
    }

    pub fn now(&self) -> u64 {
        self.call.now
    }

    /// The caller's record before the call.
    pub fn record(&self) -> &Connection {
        &self.before.connections[self.caller]
    }

    pub fn is_awaiting(&self) -> bool {
        self.record().state() == State::Awaiting
    }

    pub fn in_session(&self) -> bool {
        self.before.in_session_with(self.caller).is_some()
    }

    /// Seconds since a time, none since a later one.
    pub fn since(&self, time: u64) -> u64 {
        self.now().saturating_sub(time)
    }

    pub fn since_asked(&self) -> u64 {
        self.since(self.record().asked)
    }

    pub fn since_sent(&self) -> u64 {
        self.since(self.record().sent)
    }

    pub fn is_unanswered(&self) -> bool {
        self.record().unanswered == 1
    }

    pub fn is_message(&self) -> bool {
        matches!(self.call.kind, Kind::Message { .. })
    }

    /// Whether it is an accepted message of this type.
    pub fn is_done(&self, message_type: u8) -> bool {
        self.accepted() && self.call.message().first() == Some(&message_type)
    }

    /// The caller, if it is sent a reply.
    pub fn replied_to(&self) -> Option<usize> {
        (self.answer.reply > 0).then_some(self.caller)
    }

    /// Whom something is relayed to.
    pub fn relayed_to(&self) -> Option<usize> {
        (self.answer.relay > 0).then_some(self.answer.destination as usize)
    }

    pub fn receivers(&self) -> Vec<usize> {
        self.replied_to().into_iter().chain(self.relayed_to()).collect()
    }
}

pub type Judge = fn(&Made) -> Due;
pub type Stamp = fn(&Made) -> Vec<usize>;
pub type Clear = fn(&Made) -> bool;
pub type Spoil = fn(&Made, &mut Answer, &Lent, &mut Lent);

/// A way to find dead connections; for all else it is the second implementation.
#[derive(Clone, Copy)]
pub struct Finding {
    /// What a keepalive call does.
    pub judge: Judge,
    /// The connections for which the call's time is noted as that of the last message sent.
    pub stamp: Stamp,
    /// Whether the caller's keepalive is answered by the call.
    pub clear: Clear,
    /// What else happens, refused or not; given what was lent, as it was before and as it is.
    pub spoil: Spoil,
}

/// As the papers say.
pub const RIGHT: Finding = Finding {
    judge: |made| due(made.is_unanswered(), made.since_asked(), made.since_sent()),
    stamp: Made::receivers,
    clear: Made::is_message,
    spoil: |_, _, _, _| {},
};

/// What is due after so many seconds since the connection was asked and since it was sent something.
pub fn due(unanswered: bool, since_asked: u64, since_sent: u64) -> Due {
    match unanswered {
        true if since_asked >= 60 => Due::Close,
        false if since_sent >= 30 => Due::Ask,
        _ => Due::Nothing,
    }
}

impl Finding {
    /// Writes what each record says of keepalives. Those that the call made fresh say nothing.
    fn note(&self, made: &Made, after: &mut Relay) {
        for (record, before) in after.connections.iter_mut().zip(&made.before.connections) {
            if record.state() != State::Closed {
                let kept = before.state() != State::Closed;
                (record.unanswered, record.sent) = if kept { (before.unanswered, before.sent) } else { (0, 0) };
            }
        }
        let caller = &mut after.connections[made.caller];
        if (self.clear)(made) {
            caller.unanswered = 0;
        }
        if made.due == Some(Due::Ask) {
            (caller.unanswered, caller.asked) = (1, made.now());
        }
        for receiver in (self.stamp)(made) {
            after.connections[receiver].sent = made.now();
        }
    }
}

/// Does what is due, on what was lent as it was before.
fn do_due(due: Due, made: &Made, lent: &mut Lent) -> Answer {
    let record = records::of(&made.call, 0, 0);
    let nothing = Answer::from(([0, 0, 0, NOBODY, 0], lent.map, record));
    if due == Due::Close {
        let connection = made.caller as u64;
        let kind = Kind::Close { connection, relay: lent.relay.lend().len() };
        return Answer { disconnect: 1, record, ..Second.call(&Call { now: made.now(), kind }, lent) };
    }
    edit(lent, |relay| relay.set_clock(made.now()));
    if due == Due::Nothing {
        return nothing;
    }
    lent.reply.lend_mut()[0] = 13;
    Answer { reply: 1, ..nothing }
}

impl Boundary for Finding {
    fn call(&self, call: &Call, lent: &mut Lent) -> Answer {
        let before = lent.clone();
        let mut answer = Second.call(call, lent);
        let Some(mut made) = Made::new(&before, call, answer) else {
            return answer;
        };
        if made.accepted() {
            if let Kind::Keepalive { .. } = call.kind {
                let due = (self.judge)(&made);
                *lent = before.clone();
                answer = do_due(due, &made, lent);
                (made.answer, made.due) = (answer, Some(due));
            }
            (made.reply, made.relay) = (start(lent.reply.lend()), start(lent.relay.lend()));
            edit(lent, |after| self.note(&made, after));
        }
        (self.spoil)(&made, &mut answer, &before, lent);
        answer
    }
}

fn start(bytes: &[u8]) -> [u8; 6] {
    let mut start = [0; 6];
    let length = bytes.len().min(start.len());
    start[..length].copy_from_slice(&bytes[..length]);
    start
}
