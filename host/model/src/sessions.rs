//! Sessions: who is in one, making one and ending one.

use crate::records::Session;
use crate::relay::{partner_of, Relay};
use crate::requests::RandomBytes;
use crate::NOBODY;

impl Relay {
    /// The other connection of the session that this one is in: "Two connections are in session exactly if they
    /// differ, both are open, are of one partner, and each names the other."
    pub fn in_session_with(&self, connection: usize) -> Option<usize> {
        let other = usize::from(self.connections[connection].peer);
        let paired = connection != other
            && self.is_open(connection)
            && self.is_open(other)
            && partner_of(connection) == partner_of(other)
            && usize::from(self.connections[other].peer) == connection;
        paired.then_some(other)
    }

    /// Makes a session with the holder of a lease and gives the holder, or the status that refuses it.
    pub(crate) fn establish(&mut self, caller: usize, id: u32, random: RandomBytes, now: u64) -> Result<usize, u8> {
        let holder = self.holder_to_join(caller, id, now)?;
        self.connections[caller].set_session(holder as u8, random.session_of_caller());
        self.connections[holder].set_session(caller as u8, random.session_of_holder());
        Ok(holder)
    }

    /// "4 if the caller has a session; 1 if no live row of its partner has the id; 2 if the lowest such row has no
    /// holder that counts; 5 if that holder is the caller; 3 if it has a session; else 0"
    pub fn holder_to_join(&self, caller: usize, id: u32, now: u64) -> Result<usize, u8> {
        if self.in_session_with(caller).is_some() {
            return Err(4);
        }
        let (row, _) = self.live_rows(partner_of(caller), now).find(|(_, lease)| lease.id == id).ok_or(1)?;
        let holder = self.holder_of(row).ok_or(2)?;
        if holder == caller {
            return Err(5);
        }
        if self.in_session_with(holder).is_some() {
            return Err(3);
        }
        Ok(holder)
    }

    /// "both records lose the session (byte 1 = 255, 16-63 zero)". Gives the other connection.
    pub(crate) fn end_session(&mut self, connection: usize) -> Option<usize> {
        let other = self.in_session_with(connection)?;
        for end in [connection, other] {
            self.connections[end].set_session(NOBODY, Session::default());
        }
        Some(other)
    }
}
