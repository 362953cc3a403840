//! The sockets that there are. A connection's number is the engine's: it is had when the engine has opened the connection,
//! and by another as soon as the engine has closed it, while the socket that had it is still written to. So a socket is
//! known by an id that no other ever has, and the engine's numbers lead to the sockets that have them now.

use mio::Token;

use crate::connection::{Connection, Phase};
use crate::{CONNECTIONS_EACH, PARTNERS};

/// Sockets of a partner: those that have a number or will have one, and as many that have ended and are still written to.
pub const SOCKETS_EACH: usize = 2 * CONNECTIONS_EACH;
/// Places of all partners' sockets.
pub const PLACES: usize = PARTNERS * SOCKETS_EACH;

/// A socket: its generation, which no other has, and its place, which others have had and will have.
#[derive(Clone, Copy, Debug, PartialEq, Eq)]
pub struct SocketId(usize);

impl SocketId {
    fn new(generation: usize, place: usize) -> Self {
        Self(generation * PLACES + place)
    }

    pub fn of(token: Token) -> Self {
        Self(token.0)
    }

    pub fn token(self) -> Token {
        Token(self.0)
    }

    pub fn place(self) -> usize {
        self.0 % PLACES
    }

    pub fn partner(self) -> usize {
        self.place() / SOCKETS_EACH
    }
}

pub struct Sockets {
    places: Vec<Option<(SocketId, Connection)>>,
    /// Of each connection that the engine has open.
    by_number: Vec<Option<SocketId>>,
    /// Of the next socket.
    generation: usize,
}

impl Sockets {
    pub fn new() -> Self {
        let places = (0..PLACES).map(|_| None).collect();
        Self { places, by_number: vec![None; PARTNERS * CONNECTIONS_EACH], generation: 0 }
    }

    pub fn get(&self, id: SocketId) -> Option<&Connection> {
        self.places[id.place()].as_ref().filter(|(own, _)| *own == id).map(|(_, connection)| connection)
    }

    pub fn get_mut(&mut self, id: SocketId) -> Option<&mut Connection> {
        self.places[id.place()].as_mut().filter(|(own, _)| *own == id).map(|(_, connection)| connection)
    }

    /// The socket that has a place now.
    pub fn at(&self, place: usize) -> Option<SocketId> {
        self.places[place].as_ref().map(|(id, _)| *id)
    }

    /// The socket that has a connection's number now.
    pub fn numbered(&self, number: usize) -> Option<SocketId> {
        self.by_number.get(number).copied().flatten()
    }

    /// An id for a new socket of a partner, if the partner has a place left.
    pub fn vacancy(&self, partner: usize) -> Option<SocketId> {
        let place = places_of(partner).find(|place| self.places[*place].is_none())?;
        Some(SocketId::new(self.generation, place))
    }

    /// Puts a connection where there was a vacancy.
    pub fn insert(&mut self, id: SocketId, connection: Connection) {
        self.generation += 1;
        self.places[id.place()] = Some((id, connection));
    }

    /// The engine has opened its connection.
    pub fn give_number(&mut self, id: SocketId, number: usize) {
        if let Some(connection) = self.get_mut(id) {
            connection.number = Some(number);
            self.by_number[number] = Some(id);
        }
    }

    /// The engine has closed its connection, if it had opened it.
    pub fn take_number(&mut self, id: SocketId) {
        if let Some(number) = self.get_mut(id).and_then(|connection| connection.number.take()) {
            self.by_number[number] = None;
        }
    }

    pub fn remove(&mut self, id: SocketId) -> Option<Connection> {
        self.take_number(id);
        self.places[id.place()].take_if(|(own, _)| *own == id).map(|(_, connection)| connection)
    }

    /// All that there are.
    pub fn iter(&self) -> impl Iterator<Item = &Connection> {
        self.places.iter().flatten().map(|(_, connection)| connection)
    }

    /// How many of a partner are in a phase.
    pub fn count(&self, partner: usize, phase: Phase) -> usize {
        self.places[places_of(partner)].iter().flatten().filter(|(_, connection)| connection.phase == phase).count()
    }
}

/// Those of a partner's sockets.
pub fn places_of(partner: usize) -> std::ops::Range<usize> {
    partner * SOCKETS_EACH..(partner + 1) * SOCKETS_EACH
}
