//! The loop: one thread that owns the engine's tables, the sockets and their buffers, so that there is nothing to lock.
//!
//! A turn of it waits until something has happened, accepts connections, reads once from each connection that has sent
//! something, offers whole messages to the engine, each partner's in its turns and up to its share of a turn, and writes
//! what the engine has put into the outputs, once for each.

mod accept;
mod deadlines;
mod deliver;
mod end;
mod keepalives;
mod read;
mod serve;
mod stop;
#[cfg(test)]
mod tests;
mod write;

use std::fmt::Display;
use std::io;
use std::sync::mpsc::Receiver;
use std::sync::Arc;
use std::time::{Duration, Instant};

use engine::RelayBuffer;
use frames::MESSAGE_LIMIT;
use mio::event::Event;
use mio::{Events, Interest, Poll, Token};

use crate::buffer_pool::BufferPool;
use crate::calls::REPLY_LENGTH;
use crate::limits::Limits;
use crate::log::{self, Log, Place, Said};
use crate::output;
use crate::output::Output;
use crate::port::{Listeners, Port};
use crate::random::Random;
use crate::relay::Relay;
use crate::saver::Saver;
use crate::server::Command;
use crate::sockets::{SocketId, Sockets, PLACES};
use crate::statistics::Statistics;
use crate::turns::Turns;

/// Events that are taken at a time.
const EVENTS: usize = 256;
/// Connections' sockets have their ids as tokens, which never come so far; listeners have the numbers from here on.
const FIRST_LISTENER: usize = 1 << (usize::BITS - 1);
pub const WAKER: Token = Token(usize::MAX);

pub struct EventLoop {
    poll: Poll,
    relay: Relay,
    random: Random,
    log: Arc<Log>,
    limits: Limits,
    saver: Option<Saver>,
    commands: Receiver<Command>,
    sockets: Sockets,
    /// By the sockets' places, and apart from them: a message of one is written into the output of another.
    outputs: Vec<Output>,
    spare_inputs: BufferPool,
    spare_outputs: BufferPool,
    /// Lent for what is replied.
    reply: [u8; REPLY_LENGTH],
    /// Lent for what is relayed, and for what is read for nobody.
    scratch: RelayBuffer,
    partners: Vec<Partner>,
    /// The one that is served first in the next turn.
    first_partner: usize,
    /// Those that can be read.
    ready: Vec<SocketId>,
    /// Those whose output something was added to.
    filled: Vec<SocketId>,
    /// A number or a place is free that somebody may wait for.
    freed: bool,
    /// When this turn began.
    now: Instant,
    /// No deadline is earlier.
    earliest: Instant,
    /// When those who wait for allowance try again.
    retry: Option<Instant>,
    /// When the journal, the state and the clock are looked at.
    tick: Instant,
    /// When the engine is asked which peers are still there.
    next_check: Instant,
    /// The drift of the clock that the log has.
    logged_drift: u64,
    /// The relay ends, at this time even if something is still to be written.
    stops: Option<Instant>,
}

/// What belongs to a partner.
struct Partner {
    port: Port,
    turns: Turns,
    statistics: Statistics,
}

/// What the loop works with.
pub struct Parts {
    pub poll: Poll,
    pub listeners: Listeners,
    pub relay: Relay,
    pub log: Arc<Log>,
    pub limits: Limits,
    pub saver: Option<Saver>,
    pub commands: Receiver<Command>,
}

impl EventLoop {
    pub fn new(parts: Parts) -> io::Result<Self> {
        let Parts { poll, listeners, relay, log, limits, saver, commands } = parts;
        let now = Instant::now();
        let partner = |port| Partner { port, turns: Turns::default(), statistics: Statistics::default() };
        let mut new = Self {
            poll,
            relay,
            random: Random::new(),
            log,
            limits,
            saver,
            commands,
            sockets: Sockets::new(),
            outputs: (0..PLACES).map(|_| Output::default()).collect(),
            spare_inputs: BufferPool::new(frames::CAPACITY),
            spare_outputs: BufferPool::new(output::CAPACITY),
            reply: [0; REPLY_LENGTH],
            scratch: RelayBuffer::new(MESSAGE_LIMIT),
            partners: listeners.into_ports().into_iter().map(partner).collect(),
            first_partner: 0,
            ready: Vec::new(),
            filled: Vec::new(),
            freed: false,
            now,
            earliest: now,
            retry: None,
            tick: now,
            next_check: now,
            logged_drift: 0,
            stops: None,
        };
        new.register_listeners()?;
        Ok(new)
    }

    fn register_listeners(&mut self) -> io::Result<()> {
        let listeners = self.partners.iter_mut().flat_map(|partner| &mut partner.port.listeners);
        for (place, listener) in listeners.enumerate() {
            self.poll.registry().register(listener, Token(FIRST_LISTENER + place), Interest::READABLE)?;
        }
        Ok(())
    }

    /// Runs until it is stopped. Gives what each partner got.
    pub fn run(mut self) -> io::Result<Vec<Statistics>> {
        let mut events = Events::with_capacity(EVENTS);
        let mut outcome = Ok(());
        while outcome.is_ok() && !self.is_over() {
            outcome = self.turn(&mut events);
        }
        // Whatever happened, the state is saved.
        self.finish();
        outcome.map(|()| self.statistics())
    }

    fn turn(&mut self, events: &mut Events) -> io::Result<()> {
        match self.poll.poll(events, Some(self.time_left())) {
            // What has come meanwhile isn't known yet, so no deadline is judged.
            Err(error) if error.kind() == io::ErrorKind::Interrupted => return Ok(()),
            other => other?,
        }
        self.now = Instant::now();
        self.relay.clock().refresh();
        events.iter().for_each(|event| self.handle_event(event));
        self.handle_commands();
        self.accept();
        self.read();
        self.expire();
        self.serve();
        self.write_filled();
        Ok(())
    }

    /// How long to wait for something to happen: not at all while there is something to do.
    fn time_left(&self) -> Duration {
        let is_busy =
            self.freed || !self.ready.is_empty() || self.partners.iter().any(|partner| partner.turns.next().is_some());
        if is_busy {
            return Duration::ZERO;
        }
        // The poll counts whole milliseconds and leaves out the rest: it would come back too early, over and over.
        self.earliest.saturating_duration_since(Instant::now()) + Duration::from_micros(999)
    }

    fn handle_event(&mut self, event: &Event) {
        match event.token() {
            WAKER => {}
            Token(listener) if listener >= FIRST_LISTENER => {
                let mut flags = self.partners.iter_mut().flat_map(|partner| &mut partner.port.ready);
                if let Some(ready) = flags.nth(listener - FIRST_LISTENER) {
                    *ready = true;
                }
            }
            token => self.handle_socket_event(SocketId::of(token), event),
        }
    }

    fn statistics(&self) -> Vec<Statistics> {
        self.partners.iter().map(|partner| partner.statistics).collect()
    }

    fn partner_of(&mut self, socket: SocketId) -> &mut Partner {
        &mut self.partners[socket.partner()]
    }

    fn output_of(&mut self, socket: SocketId) -> &mut Output {
        &mut self.outputs[socket.place()]
    }

    /// Does something with each socket.
    fn for_each_socket(&mut self, act: impl Fn(&mut Self, SocketId)) {
        for place in 0..PLACES {
            if let Some(socket) = self.sockets.at(place) {
                act(self, socket);
            }
        }
    }

    /// Wakes the loop by then.
    fn wake_by(&mut self, deadline: Instant) {
        self.earliest = self.earliest.min(deadline);
    }

    fn log_connection(&self, socket: SocketId, kind: &'static str, text: impl Display) {
        self.log_connection_with(socket, kind, || Said { text, number: None });
    }

    /// A line about a connection names its number; before it is opened it has none, and its partner and its peer tell it.
    fn log_connection_with<T: Display>(&self, socket: SocketId, kind: &'static str, say: impl FnOnce() -> Said<T>) {
        let connection = self.sockets.get(socket);
        let number = connection.and_then(|connection| connection.number);
        let place = number.map_or(Place::Partner(socket.partner()), Place::Connection);
        self.log.record_with(log::Event { kind, place }, connection.map(|connection| connection.address), say);
    }
}
