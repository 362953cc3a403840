//! Whom a line of the log is about, and the shortfall of one about a wait.

use std::net::TcpStream;
use std::sync::mpsc::{self, Receiver};

use codec::Message;
use serde_json::Value;
use server::{bind_free, Clock, Log, LogFormat, Server, Settings, SystemClock};

use crate::clocks::Standing;
use crate::support::{Socket, LIMIT};

/// A relay, and its log as it is written.
fn logged(format: LogFormat, clock: impl Clock + 'static) -> (Server, Receiver<String>) {
    let (to_test, lines) = mpsc::channel();
    let log = Log::new(format, move |line| drop(to_test.send(line.to_owned())));
    let settings = Settings::new(clock, log);
    (Server::start(bind_free().expect("free ports"), settings).expect("a relay"), lines)
}

/// The first line with the text.
fn await_line(lines: &Receiver<String>, text: &str) -> String {
    loop {
        let line = lines.recv_timeout(LIMIT).unwrap_or_else(|_| panic!("no line with '{text}'"));
        if line.contains(text) {
            return line;
        }
    }
}

#[test]
fn a_line_about_a_connection_has_its_peer_s_address() {
    let (server, lines) = logged(LogFormat::Text, SystemClock::new());
    let connect = || TcpStream::connect(server.addresses()[3]).expect("the relay listens");
    let mut streams: Vec<_> = (0..9).map(|_| connect()).collect();
    let refused = streams.pop().expect("the ninth").local_addr().expect("an address");
    let first = streams[0].local_addr().expect("an address");
    await_line(&lines, &format!("partner 3, connection 24 at {first}: connected"));
    await_line(&lines, &format!("partner 3 at {refused}: a connection is refused"));
    drop(streams.remove(0));
    await_line(&lines, &format!("partner 3, connection 24 at {first}: closed"));
}

#[test]
fn the_term_of_leases_is_a_number_in_json() {
    let (_server, lines) = logged(LogFormat::Json, Standing::default());
    let line = await_line(&lines, "\"lease term\"");
    let told: Value = serde_json::from_str(&line).expect("an object");
    assert!(told["event"] == "lease term" && told["seconds"] == 600, "{told}");
    assert!(told["text"] == "leases last 600 seconds" && told.get("partner").is_none(), "{told}");
}

/// A connection of partner 2 on which so many keepalives come.
fn sending(server: &Server, keepalives: usize) -> Socket {
    let mut peer = Socket::over(TcpStream::connect(server.addresses()[2]).expect("the relay listens"));
    peer.receive().expect("the version");
    peer.send(Message::VersionAnswer { ok: 1 });
    peer.send_bytes(&[0, 2, 1, 13].repeat(keepalives));
    peer
}

/// Keepalives that the allowance pays for: an open (45), an answer (34) and so many (33 each) leave 12 of 262,144.
const PAID: usize = 7_941;
const SHORT_BY: u64 = 33 - 12;

/// Likewise on which more come than the allowance pays for.
fn short(server: &Server) -> Socket {
    sending(server, PAID + 2)
}

#[test]
fn a_wait_s_shortfall_is_in_the_text() {
    let (server, lines) = logged(LogFormat::Text, Standing::default());
    let peer = short(&server);
    let address = peer.stream.local_addr().expect("an address");
    let line = await_line(&lines, "refused with 9");
    let text = format!(
        " partner 2, connection 16 at {address}: refused with 9, the partner's allowance is used up \
         ({SHORT_BY} units short): the message waits"
    );
    assert!(line.ends_with(&text), "{line}");
}

#[test]
fn a_wait_s_shortfall_is_a_number_in_json_and_other_lines_have_none() {
    let (server, lines) = logged(LogFormat::Json, Standing::default());
    let _peer = short(&server);
    let object = |line: &str| serde_json::from_str::<Value>(line).expect("an object");
    let connected = object(&await_line(&lines, "connected"));
    assert!(connected.get("shortfall").is_none(), "{connected}");
    let waits = object(&await_line(&lines, "\"waits\""));
    assert!(waits["event"] == "waits" && waits["connection"] == 16 && waits["shortfall"] == SHORT_BY, "{waits}");
    assert!(waits["text"].as_str().is_some_and(|text| text.contains("(21 units short)")), "{waits}");
    // A message that is dropped, of another partner, is short of nothing.
    let mut other = Socket::over(TcpStream::connect(server.addresses()[3]).expect("the relay listens"));
    other.receive().expect("the version");
    other.send(Message::VersionAnswer { ok: 1 });
    other.send(Message::DataSend { data: b"for nobody" });
    let dropped = object(&await_line(&lines, "\"dropped\""));
    assert!(dropped["connection"] == 24 && dropped.get("shortfall").is_none(), "{dropped}");
}

#[test]
fn a_line_about_one_that_is_not_opened_has_its_partner_and_its_peer_and_no_number() {
    let (server, lines) = logged(LogFormat::Json, Standing::default());
    let _peer = sending(&server, PAID);
    while server.statistics()[2].done < 2 + PAID as u64 {
        std::thread::yield_now();
    }
    let late = TcpStream::connect(server.addresses()[2]).expect("the relay listens");
    let told: Value = serde_json::from_str(&await_line(&lines, "\"waits\"")).expect("an object");
    assert!(told["partner"] == 2 && told.get("connection").is_none() && told["shortfall"] == 45 - 12, "{told}");
    assert_eq!(told["peer"], late.local_addr().expect("an address").to_string());
    assert!(told["text"].as_str().is_some_and(|text| text.starts_with("its open is refused with 9")), "{told}");
    drop(late);
    let told: Value = serde_json::from_str(&await_line(&lines, "\"left\"")).expect("an object");
    assert!(told["partner"] == 2 && told.get("connection").is_none(), "{told}");
}
