//! A partner's port: its listeners, and connections that wait for a number.

use std::collections::{BTreeSet, VecDeque};
use std::io;
use std::net::{IpAddr, Ipv4Addr, SocketAddr};
use std::time::{Duration, Instant};

use mio::net::{TcpListener, TcpStream};
use socket2::{Domain, Protocol, SockRef, Socket, Type};

use crate::sockets::SOCKETS_EACH;
use crate::{descriptors, PARTNERS};

/// The kernel's buffers of a connection, each; it books twice as much. Larger ones would let a peer send in advance what
/// its partner then pays for long after the peer has gone, and hide how fast a peer reads.
const KERNEL_BUFFER: usize = 131_072;
/// Connections that the kernel keeps for a listener.
const BACKLOG: i32 = 128;
/// Connections of a partner that may wait for a number.
pub const WAITING_LIMIT: usize = 8;

/// The sockets that listen for each partner: one or more.
pub struct Listeners(Vec<Vec<std::net::TcpListener>>);

/// Listens on each of the addresses, for partner p on port `base_port + p`.
pub fn bind(addresses: &[IpAddr], base_port: u16) -> io::Result<Listeners> {
    // An address may have been given twice.
    let addresses: BTreeSet<_> = addresses.iter().collect();
    bind_at(|partner| {
        let port = base_port.saturating_add(partner as u16);
        addresses.iter().map(|address| SocketAddr::new(**address, port)).collect()
    })
}

/// Listens on this machine's loopback address, on ports that are free.
pub fn bind_free() -> io::Result<Listeners> {
    bind_at(|_| vec![(Ipv4Addr::LOCALHOST, 0).into()])
}

/// Listens on each partner's addresses, if there are descriptors for all that will connect.
fn bind_at(places: impl Fn(usize) -> Vec<SocketAddr>) -> io::Result<Listeners> {
    let places: Vec<_> = (0..PARTNERS).map(places).collect();
    descriptors::ensure(places.iter().flatten().count() + PARTNERS * (SOCKETS_EACH + WAITING_LIMIT))?;
    let of_partner =
        |(partner, places): (usize, &Vec<SocketAddr>)| places.iter().map(|place| named(partner, *place)).collect();
    places.iter().enumerate().map(of_partner).collect::<io::Result<_>>().map(Listeners)
}

/// Listens; an error names the partner.
fn named(partner: usize, place: SocketAddr) -> io::Result<std::net::TcpListener> {
    listen(place).map_err(|error| io::Error::new(error.kind(), format!("{place} of partner {partner}: {error}")))
}

fn listen(place: SocketAddr) -> io::Result<std::net::TcpListener> {
    let socket = Socket::new(Domain::for_address(place), Type::STREAM, Some(Protocol::TCP))?;
    socket.set_reuse_address(true)?;
    if place.is_ipv6() {
        // So that 0.0.0.0 and :: can be listened on both.
        socket.set_only_v6(true)?;
    }
    // Connections inherit these, which must be set before the handshake agrees on a window.
    socket.set_recv_buffer_size(KERNEL_BUFFER)?;
    socket.set_send_buffer_size(KERNEL_BUFFER)?;
    socket.set_nonblocking(true)?;
    socket.bind(&place.into())?;
    socket.listen(BACKLOG)?;
    Ok(socket.into())
}

/// How a connection's socket behaves. A peer that acknowledges nothing for the time limit has vanished.
fn set_up(stream: &TcpStream, time_limit: Duration) -> io::Result<()> {
    stream.set_nodelay(true)?;
    SockRef::from(stream).set_tcp_user_timeout(Some(time_limit))
}

/// A connection that is to get a number.
pub struct Candidate {
    pub stream: TcpStream,
    pub address: SocketAddr,
    /// Until when it waits for one.
    pub deadline: Instant,
}

pub struct Port {
    pub listeners: Vec<TcpListener>,
    /// Which of the listeners may have connections.
    pub ready: Vec<bool>,
    /// The listener that was asked last: they take turns.
    last: usize,
    pub candidates: VecDeque<Candidate>,
    /// Nothing is accepted until then, since accepting has failed.
    pub rests_until: Option<Instant>,
}

impl Listeners {
    /// The first address of each partner.
    pub fn addresses(&self) -> io::Result<Vec<SocketAddr>> {
        self.0.iter().filter_map(|listeners| listeners.first()).map(|listener| listener.local_addr()).collect()
    }

    pub fn into_ports(self) -> Vec<Port> {
        self.0.into_iter().map(Port::new).collect()
    }
}

impl Port {
    fn new(listeners: Vec<std::net::TcpListener>) -> Self {
        let listeners: Vec<_> = listeners.into_iter().map(TcpListener::from_std).collect();
        let ready = vec![true; listeners.len()];
        Self { listeners, ready, last: 0, candidates: VecDeque::new(), rests_until: None }
    }

    /// Takes a connection, if one is there and room for it. It waits for a number until the deadline.
    pub fn accept(&mut self, deadline: Instant, time_limit: Duration) -> io::Result<bool> {
        if self.candidates.len() >= WAITING_LIMIT {
            return Ok(false);
        }
        let count = self.listeners.len();
        let Some(place) = (1..=count).map(|step| (self.last + step) % count).find(|place| self.ready[*place]) else {
            return Ok(false);
        };
        self.last = place;
        match self.listeners[place].accept() {
            // It can't be set up if its peer has gone already.
            Ok((stream, address)) => {
                if set_up(&stream, time_limit).is_ok() {
                    self.candidates.push_back(Candidate { stream, address, deadline });
                }
            }
            Err(error) if error.kind() == io::ErrorKind::WouldBlock => self.ready[place] = false,
            Err(error) if is_of_the_peer(&error) => {}
            Err(error) => return Err(error),
        }
        Ok(true)
    }

    /// Takes out the first of those who wait for a number, if its time is over.
    pub fn next_overdue(&mut self, now: Instant) -> Option<Candidate> {
        self.candidates.front().is_some_and(|first| first.deadline <= now).then(|| self.candidates.pop_front())?
    }

    /// Takes nothing any more, and nobody waits for a number.
    pub fn shut(&mut self) {
        self.listeners.clear();
        self.ready.clear();
        self.candidates.clear();
    }

    /// When something is due here next.
    pub fn deadline(&self) -> Option<Instant> {
        self.candidates.front().map(|first| first.deadline).into_iter().chain(self.rests_until).min()
    }
}

/// Whether a connection failed before it was accepted, which is no failure of the listener.
fn is_of_the_peer(error: &io::Error) -> bool {
    matches!(
        error.kind(),
        io::ErrorKind::ConnectionAborted | io::ErrorKind::ConnectionReset | io::ErrorKind::Interrupted
    )
}

#[cfg(test)]
mod tests {
    use std::net::{Ipv4Addr, TcpStream};
    use std::time::{Duration, Instant};

    use socket2::SockRef;

    use super::{bind_free, listen, Port, KERNEL_BUFFER};

    /// Accepts so many connections of a port.
    fn accept(port: &mut Port, count: usize) {
        while port.candidates.len() < count {
            port.ready.fill(true);
            port.accept(Instant::now(), Duration::from_secs(60)).expect("a connection");
        }
    }

    #[test]
    fn no_address_of_a_partner_starves_another() {
        let loopback = || listen((Ipv4Addr::LOCALHOST, 0).into()).expect("a free port");
        let listeners = [loopback(), loopback()];
        let places = listeners.each_ref().map(|listener| listener.local_addr().expect("an address"));
        let mut port = Port::new(listeners.into());
        let _peers =
            [places[0], places[0], places[0], places[1]].map(|place| TcpStream::connect(place).expect("it listens"));
        accept(&mut port, 2);
        let taken: Vec<_> =
            port.candidates.iter().map(|candidate| candidate.stream.local_addr().expect("one")).collect();
        assert!(places.iter().all(|place| taken.contains(place)), "{taken:?}");
    }

    /// A peer that vanishes while it is sent something can't be had on one machine: the user timeout is what ends it.
    #[test]
    fn connections_have_a_time_limit_and_small_buffers() {
        let listeners = bind_free().expect("free ports");
        let _peer = TcpStream::connect(listeners.addresses().expect("addresses")[0]).expect("it listens");
        let mut port = listeners.into_ports().remove(0);
        accept(&mut port, 1);
        let socket = SockRef::from(&port.candidates[0].stream);
        assert!(socket.nodelay().expect("an option"));
        assert_eq!(socket.tcp_user_timeout().expect("an option"), Some(Duration::from_secs(60)));
        let sizes = [socket.recv_buffer_size(), socket.send_buffer_size()].map(|size| size.expect("an option"));
        assert_eq!(sizes, [2 * KERNEL_BUFFER; 2], "as the kernel books them");
    }
}
