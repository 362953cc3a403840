//! A relay that runs, and connections through it.

use std::fs::{self, File};
use std::io;
use std::net::{Ipv4Addr, SocketAddr, TcpListener, TcpStream};
use std::path::Path;
use std::thread;
use std::time::{Duration, Instant};

use codec::Message;
use peer::Peer;
use server::CONNECTIONS_EACH;
use tempfile::TempDir;

use super::link::{prepare, Link, WAIT};
use super::listening::{await_listener, free_port, listen, proxied};
use super::process::Process;
use super::programs::Program;
use super::proxies::{Ports, Proxy};

/// A proxy's workers start when it listens already.
const SETTLE: Duration = Duration::from_millis(100);

pub struct Relay {
    pub process: Process,
    route: Route,
}

enum Route {
    /// Our relay's addresses, one for each partner.
    Partners(Vec<SocketAddr>),
    /// A proxy's address, and where it hands connections on to. The folder has its files.
    Proxied { address: SocketAddr, listener: TcpListener, _folder: TempDir },
}

/// A relay, or why there is none.
pub type Started = io::Result<Relay>;

/// Likewise, borrowed.
pub fn started(relay: &Started) -> io::Result<&Relay> {
    relay.as_ref().map_err(|error| io::Error::new(error.kind(), error.to_string()))
}

/// A connection to a relay, and where a proxy hands it on to.
pub struct Connection {
    pub near: TcpStream,
    pub far: Option<TcpStream>,
}

impl Relay {
    pub fn start(program: &Program) -> io::Result<Self> {
        let relay = match program {
            Program::Crondelith(clock) => Self::start_ours(clock),
            Program::Proxy(proxy, path) => Self::start_proxy(proxy, path),
        };
        thread::sleep(SETTLE);
        relay
    }

    fn start_ours(clock: &str) -> io::Result<Self> {
        let (process, addresses) = Process::serve(clock)?;
        Ok(Self { process, route: Route::Partners(addresses) })
    }

    fn start_proxy(proxy: &Proxy, path: &Path) -> io::Result<Self> {
        let folder = TempDir::new()?;
        let log = folder.path().join("log");
        let listener = listen()?;
        let ports = Ports { from: free_port()?, to: listener.local_addr()?.port() };
        let arguments = (proxy.arguments)(&ports, folder.path())?;
        let process = Process::guard(folder.path(), path, &arguments, File::create(&log)?)?;
        let unstarted = || io::Error::other(format!("not started: {}", last_line(&log)));
        await_listener(ports.from).ok_or_else(unstarted)?;
        let address = (Ipv4Addr::LOCALHOST, ports.from).into();
        Ok(Self { process, route: Route::Proxied { address, listener, _folder: folder } })
    }

    /// A session between two connections of a partner, who has four of these; through a proxy, a connection.
    pub fn link(&self, number: usize) -> io::Result<Link> {
        match &self.route {
            Route::Partners(addresses) => {
                let (caller, holder) = session(addresses[number / (CONNECTIONS_EACH / 2)]).map_err(io::Error::other)?;
                let (near, far) = (caller.stream().try_clone()?, holder.stream().try_clone()?);
                Link::new(near, far, |data| Message::DataReceive { data })
            }
            Route::Proxied { address, listener, .. } => {
                let (near, far) = proxied(*address, listener)?;
                Link::new(near, far, |data| Message::DataSend { data })
            }
        }
    }

    /// A connection of a partner, who has eight of these, its version answered.
    pub fn connect(&self, number: usize) -> io::Result<Connection> {
        let (near, far) = match &self.route {
            Route::Partners(addresses) => {
                let peer = Peer::connect(addresses[number / CONNECTIONS_EACH]).map_err(io::Error::other)?;
                (peer.stream().try_clone()?, None)
            }
            Route::Proxied { address, listener, .. } => {
                let (near, far) = proxied(*address, listener)?;
                (near, Some(far))
            }
        };
        prepare(&near)?;
        far.iter().try_for_each(prepare)?;
        Ok(Connection { near, far })
    }
}

/// Two connections of a partner, in session.
pub fn session(address: SocketAddr) -> Result<(Peer, Peer), peer::Error> {
    let (mut caller, mut holder) = (Peer::connect(address)?, Peer::connect(address)?);
    let id = holder.lease()?;
    caller.establish(id)?;
    let deadline = Instant::now() + WAIT;
    while let Some(message) = holder.receive_by(deadline)? {
        if matches!(message, Message::EstablishNotification { .. }) {
            return Ok((caller, holder));
        }
    }
    Err(peer::Error::NoAnswer)
}

fn last_line(log: &Path) -> String {
    let text = fs::read_to_string(log).unwrap_or_default();
    text.lines().last().unwrap_or("nothing listens").to_owned()
}
