//! Ports of 127.0.0.1: one for a proxy, and one to which it hands connections on.

use std::net::{Ipv4Addr, SocketAddr, TcpListener, TcpStream};
use std::time::{Duration, Instant};
use std::{fs, io, thread};

use super::link::WAIT;

const POLL: Duration = Duration::from_millis(1);

/// Both ends of a connection that a proxy hands on.
pub fn proxied(address: SocketAddr, listener: &TcpListener) -> io::Result<(TcpStream, TcpStream)> {
    let near = TcpStream::connect_timeout(&address, WAIT)?;
    let (far, _) = poll(|| listener.accept().ok()).ok_or(io::ErrorKind::TimedOut)?;
    Ok((near, far))
}

/// Connections that come are asked for, since accepting has no time limit.
pub fn listen() -> io::Result<TcpListener> {
    let listener = TcpListener::bind((Ipv4Addr::LOCALHOST, 0))?;
    listener.set_nonblocking(true)?;
    Ok(listener)
}

pub fn free_port() -> io::Result<u16> {
    Ok(listen()?.local_addr()?.port())
}

fn poll<T>(mut attempt: impl FnMut() -> Option<T>) -> Option<T> {
    let end = Instant::now() + WAIT;
    loop {
        match attempt() {
            None if Instant::now() < end => thread::sleep(POLL),
            outcome => return outcome,
        }
    }
}

/// Waits until something listens at the port.
pub fn await_listener(port: u16) -> Option<()> {
    poll(|| listens(port).then_some(()))
}

/// Whether something listens at the port. A connection to try it would be handed on.
fn listens(port: u16) -> bool {
    let address = format!("{:08X}:{port:04X}", u32::from_ne_bytes([127, 0, 0, 1]));
    let sockets = fs::read_to_string("/proc/net/tcp").unwrap_or_default();
    let is_it = |line: &str| {
        let mut fields = line.split_whitespace().skip(1);
        fields.next() == Some(&address) && fields.nth(1) == Some("0A")
    };
    sockets.lines().any(is_it)
}
