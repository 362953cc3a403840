//! What a peer says by itself, whatever its other threads are busy with.

use std::convert::Infallible;
use std::io;
use std::sync::mpsc::{self, Receiver, RecvTimeoutError, Sender};
use std::sync::{Mutex, Weak};
use std::thread;
use std::time::Duration;

use crate::connection::{Outgoing, Writer};

/// A thread that looks now and then whether something is to be said. It ends when this is dropped, and keeps no connection
/// open.
pub(crate) struct Routine {
    _running: Sender<Infallible>,
}

impl Routine {
    /// `look` says what is due, and gives how long to wait before the next time. While another thread writes, it waits for
    /// so long as `busy`.
    pub fn start(
        name: &str,
        outgoing: &Outgoing,
        busy: Duration,
        look: impl Fn(&mut Writer) -> Duration + Send + 'static,
    ) -> io::Result<Self> {
        let (running, ended) = mpsc::channel();
        let writer = outgoing.writer();
        thread::Builder::new().name(name.into()).spawn(move || run(&writer, busy, look, &ended))?;
        Ok(Self { _running: running })
    }
}

fn run(
    writer: &Weak<Mutex<Writer>>,
    busy: Duration,
    look: impl Fn(&mut Writer) -> Duration,
    ended: &Receiver<Infallible>,
) {
    let mut wait = Duration::ZERO;
    while ended.recv_timeout(wait) == Err(RecvTimeoutError::Timeout) {
        let Some(writer) = writer.upgrade() else { return };
        wait = match writer.try_lock() {
            Ok(mut writer) => look(&mut writer),
            Err(_) => busy,
        };
    }
}

#[cfg(test)]
mod tests {
    use std::net::{TcpListener, TcpStream};
    use std::sync::Arc;
    use std::thread;
    use std::time::{Duration, Instant};

    use super::Routine;
    use crate::connection::{split, Writer};

    #[test]
    fn a_routine_ends_when_it_is_dropped() {
        let long = Duration::from_secs(300);
        let listener = TcpListener::bind("127.0.0.1:0").expect("a port");
        let peer = TcpStream::connect(listener.local_addr().expect("its address")).expect("it listens");
        let (_, outgoing) = split(peer);
        let kept = Arc::new(());
        let by_thread = Arc::clone(&kept);
        let look = move |_: &mut Writer| {
            let _ = &by_thread;
            long
        };
        drop(Routine::start("routine", &outgoing, long, look).expect("a thread"));
        let limit = Instant::now() + Duration::from_secs(10);
        while Arc::strong_count(&kept) > 1 {
            assert!(Instant::now() < limit, "it goes on");
            thread::sleep(Duration::from_millis(1));
        }
    }
}
