//! Turns among the connections of a partner that have something to offer: deficit round robin, so that they share what
//! their partner has by what messages cost, and not one message each. Who is refused for allowance keeps the turn while it
//! waits: else small messages of the partner's other connections could take every refill before a large one.

use std::collections::VecDeque;

use crate::sockets::SocketId;

/// What a connection may spend more when the turn has passed it: some 4 KiB of data, which costs twice that.
const QUANTUM: usize = 8_192;

#[derive(Default)]
pub struct Turns {
    /// Those that have something to offer. The first has the turn.
    queue: VecDeque<Turn>,
    /// The first has been refused for allowance and waits for the next second.
    pub waiting: bool,
}

struct Turn {
    socket: SocketId,
    /// What it may still spend.
    credit: usize,
}

impl Turns {
    /// Whose turn it is, if anybody can do anything.
    pub fn next(&self) -> Option<SocketId> {
        self.queue.front().filter(|_| !self.waiting).map(|turn| turn.socket)
    }

    pub fn join(&mut self, socket: SocketId) {
        if self.find(socket).is_none() {
            self.queue.push_back(Turn { socket, credit: 0 });
        }
    }

    /// It has nothing to offer any more, and saves nothing up.
    pub fn leave(&mut self, socket: SocketId) {
        if self.is_first(socket) {
            self.waiting = false;
        }
        self.queue.retain(|turn| turn.socket != socket);
    }

    /// What a connection may spend in this turn of its own.
    pub fn credit(&mut self, socket: SocketId) -> usize {
        self.find(socket).map_or(0, |turn| turn.credit)
    }

    /// Passes the turn on from a connection that can't afford its next message yet.
    pub fn pass_on(&mut self, socket: SocketId) {
        if self.is_first(socket) {
            self.queue[0].credit += QUANTUM;
            self.queue.rotate_left(1);
        }
    }

    /// It has spent what it could afford.
    pub fn spend(&mut self, socket: SocketId, cost: usize) {
        if let Some(turn) = self.find(socket) {
            turn.credit = turn.credit.saturating_sub(cost);
        }
    }

    fn is_first(&self, socket: SocketId) -> bool {
        self.queue.front().is_some_and(|turn| turn.socket == socket)
    }

    /// Most often it is the first.
    fn find(&mut self, socket: SocketId) -> Option<&mut Turn> {
        self.queue.iter_mut().find(|turn| turn.socket == socket)
    }
}

#[cfg(test)]
mod tests {
    use mio::Token;

    use super::Turns;
    use crate::sockets::SocketId;

    fn socket(place: usize) -> SocketId {
        SocketId::of(Token(place))
    }

    /// Passes the turn on until somebody can afford what it offers. Gives its place.
    fn next_that_affords(turns: &mut Turns, cost: impl Fn(usize) -> usize) -> usize {
        loop {
            let next = turns.next().expect("somebody");
            if turns.credit(next) >= cost(next.place()) {
                return next.place();
            }
            turns.pass_on(next);
        }
    }

    /// Who spends what in so many rounds, if each offers messages of its cost without end.
    fn spent(costs: &[usize], messages: usize) -> Vec<usize> {
        let mut turns = Turns::default();
        (0..costs.len()).for_each(|place| turns.join(socket(place)));
        let mut spent = vec![0; costs.len()];
        for _ in 0..messages {
            let next = next_that_affords(&mut turns, |place| costs[place]);
            turns.spend(socket(next), costs[next]);
            spent[next] += costs[next];
        }
        spent
    }

    #[test]
    fn costs_are_shared_and_not_messages() {
        let spent = spent(&[131_100, 33, 2_082], 30_000);
        let (least, most) = (spent.iter().min().expect("three"), spent.iter().max().expect("three"));
        assert!(*least > 500_000 && most - least <= 2 * 131_100, "{spent:?}");
    }

    #[test]
    fn who_waits_keeps_the_turn_and_gives_it_up_by_leaving() {
        let mut turns = Turns::default();
        let [one, other] = [8, 9].map(socket);
        turns.join(one);
        turns.join(other);
        turns.join(one);
        assert_eq!(turns.next(), Some(one));
        turns.waiting = true;
        assert_eq!(turns.next(), None);
        turns.leave(other);
        assert_eq!(turns.next(), None, "the first still waits");
        turns.join(other);
        turns.leave(one);
        assert_eq!(turns.next(), Some(other));
    }

    #[test]
    fn who_joins_twice_has_one_turn() {
        let mut turns = Turns::default();
        [0, 1, 0].into_iter().for_each(|place| turns.join(socket(place)));
        for expected in [0, 1, 0, 1] {
            let next = turns.next().expect("somebody");
            assert_eq!(next.place(), expected);
            turns.pass_on(next);
        }
    }

    #[test]
    fn nothing_is_saved_up_by_who_has_nothing_to_offer() {
        let mut turns = Turns::default();
        turns.join(socket(0));
        next_that_affords(&mut turns, |_| 10_000);
        assert!(turns.credit(socket(0)) >= 10_000);
        turns.leave(socket(0));
        turns.join(socket(0));
        assert_eq!(turns.credit(socket(0)), 0);
    }
}
