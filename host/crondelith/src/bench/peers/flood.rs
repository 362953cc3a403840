//! Connections that send as fast as they can, all of other partners than the first.

use std::io::{self, Read, Write};
use std::net::{Shutdown, TcpStream};
use std::sync::Arc;
use std::thread::{self, JoinHandle};

use server::{CONNECTIONS_EACH, PARTNERS};

use super::relay::{Connection, Relay};

/// What is sent or received with one call.
const BLOCK: usize = 65_536;

/// A flood that ends when it is dropped.
pub struct Flood {
    streams: Vec<TcpStream>,
    threads: Vec<JoinHandle<()>>,
}

impl Flood {
    /// Starts one that repeats the frame. What comes out of a proxy is read and dropped.
    pub fn start(relay: &Relay, frame: &[u8]) -> io::Result<Self> {
        let block: Arc<[u8]> = frame.repeat(BLOCK / frame.len()).into();
        // All first: what opens a connection would wait behind the flood for its partner's allowance.
        let numbers = CONNECTIONS_EACH..PARTNERS * CONNECTIONS_EACH;
        let connections = numbers.map(|number| relay.connect(number)).collect::<io::Result<Vec<_>>>()?;
        let mut flood = Self { streams: Vec::new(), threads: Vec::new() };
        connections.into_iter().try_for_each(|connection| flood.add(connection, &block))?;
        Ok(flood)
    }

    fn add(&mut self, Connection { near, far }: Connection, block: &Arc<[u8]>) -> io::Result<()> {
        // A relay may let it wait; the end of the flood ends that.
        near.set_write_timeout(None)?;
        self.streams.push(near.try_clone()?);
        let block = Arc::clone(block);
        self.threads.push(thread::Builder::new().spawn(move || send(&near, &block))?);
        if let Some(far) = far {
            self.streams.push(far.try_clone()?);
            self.threads.push(thread::Builder::new().spawn(move || drain(&far))?);
        }
        Ok(())
    }

    /// Whether all of it still goes on: a relay that closes its connections isn't flooded.
    pub fn goes_on(&self) -> bool {
        !self.threads.iter().any(JoinHandle::is_finished)
    }
}

impl Drop for Flood {
    fn drop(&mut self) {
        for stream in &self.streams {
            // A relay may have closed it.
            let _ = stream.shutdown(Shutdown::Both);
        }
        for thread in self.threads.drain(..) {
            let _ = thread.join();
        }
    }
}

fn send(mut stream: &TcpStream, block: &[u8]) {
    while stream.write_all(block).is_ok() {}
}

fn drain(mut stream: &TcpStream) {
    let mut buffer = vec![0; BLOCK];
    while stream.read(&mut buffer).is_ok_and(|count| count > 0) {}
}
