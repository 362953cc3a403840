//! A way through a relay: what is written to one end comes out of the other.

use std::io;
use std::net::{Shutdown, TcpStream};
use std::time::Duration;

use super::batch::Form;

/// How long anything may take before a relay has failed.
pub const WAIT: Duration = Duration::from_secs(5);

pub struct Link {
    pub near: TcpStream,
    pub far: TcpStream,
    /// How a message comes out.
    pub form: Form,
}

impl Link {
    pub fn new(near: TcpStream, far: TcpStream, form: Form) -> io::Result<Self> {
        prepare(&near)?;
        prepare(&far)?;
        Ok(Self { near, far, form })
    }

    /// Ends what waits at either end.
    pub fn shut_down(&self) {
        // An end may be gone already.
        let _ = self.near.shutdown(Shutdown::Both);
        let _ = self.far.shutdown(Shutdown::Both);
    }
}

/// Small messages go at once, and nothing waits for ever.
pub fn prepare(stream: &TcpStream) -> io::Result<()> {
    stream.set_nodelay(true)?;
    stream.set_read_timeout(Some(WAIT))?;
    stream.set_write_timeout(Some(WAIT))
}
