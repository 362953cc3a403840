//! Says that a peer is there while its other threads can't, since they wait for a disk, say.

use std::io;
use std::time::Duration;

use crate::connection::{Outgoing, NEXT_TRY};
use crate::routine::Routine;

/// After so long without a message a peer says that it is there. A relay asks by a Keepalive every 30 seconds and waits 60
/// for an answer, and who reads it answers at once: so this is only for those who don't.
pub const SILENCE: Duration = Duration::from_secs(40);

/// Sends a Keepalive after each silence. A message that somebody sends meanwhile ends the silence as well.
pub(crate) fn start(outgoing: &Outgoing, silence: Duration) -> io::Result<Routine> {
    // Who has the writer may have found that nothing is due, so it is looked again soon.
    Routine::start("heartbeat", outgoing, silence.min(NEXT_TRY), move |writer| writer.beat(silence))
}

#[cfg(test)]
mod tests {
    use std::net::{TcpListener, TcpStream};
    use std::thread;
    use std::time::Duration;

    use codec::Message;

    use super::start;
    use crate::connection::split;

    #[test]
    fn a_heartbeat_comes_after_the_writer_was_busy() {
        let silence = Duration::from_millis(5);
        let listener = TcpListener::bind("127.0.0.1:0").expect("a port");
        let peer = TcpStream::connect(listener.local_addr().expect("its address")).expect("it listens");
        let (mut relay, _) = listener.accept().expect("a connection");
        relay.set_read_timeout(Some(Duration::from_secs(10))).expect("a read limit");
        let (_, outgoing) = split(peer);
        let writer = outgoing.writer().upgrade().expect("a writer");
        let busy = writer.lock().expect("nobody else has it");
        let _heartbeat = start(&outgoing, silence).expect("a thread");
        // Long enough for it to find the writer busy.
        thread::sleep(20 * silence);
        drop(busy);
        let mut reader = frames::Reader::default();
        let first = reader.next(&mut relay).expect("a frame");
        assert_eq!(first.and_then(codec::decode), Some(Message::Keepalive));
    }
}
