//! A send's data in the relay buffer, and what a writer makes of the same data: of every length up to 200 and around
//! larger ones, message and buffer at every offset from a multiple of 16, with rooms too short, just enough and longer.
//! What is expected is put down here: the buffer begins with 12 and the data and keeps the rest, or, too short, all it
//! held.

use std::collections::BTreeSet;

use codec::{Message, DATA_LIMIT};
use compare::tally::Tally;
use engine::relay::{self, Answer, Tables, BUFFER, NOBODY, RANDOM};
use engine::svsc::{self, Written};
use model::{Entry, BASE_COST};

/// Places are told by what is left when an address is divided by this.
const STEP: usize = 16;
/// Bytes before and behind what is lent.
const GUARD: usize = 64;
/// The type bytes.
const SEND: u8 = 11;
const RECEIVE: u8 = 12;

const CALLER: u64 = 0;
const HOLDER: u64 = 1;
/// The map with these two.
const MAP: u64 = 1 << CALLER | 1 << HOLDER;
const START: u64 = 1_000;
/// Fills any allowance.
const REFILL_SECONDS: u64 = 4;

fn lengths() -> impl Iterator<Item = usize> {
    let around = [256, 1_024, 2_048, 4_096, 16_384].into_iter().flat_map(|middle| middle - 1..=middle + 1);
    (0..=200).chain(around).chain([DATA_LIMIT - 1, DATA_LIMIT])
}

fn offsets() -> impl Iterator<Item = (usize, usize)> {
    (0..STEP).flat_map(|from| (0..STEP).map(move |to| (from, to)))
}

/// Data of this length. Shifted it isn't the same, and no byte is one of the memory's own.
fn data(length: usize) -> Vec<u8> {
    (0..length).map(|place| ((place + place / 127) % 127) as u8).collect()
}

/// Memory of which a part is lent.
struct Memory {
    bytes: Vec<u8>,
    /// What it holds where nothing was written.
    unwritten: Vec<u8>,
    /// The first multiple of the step behind a guard.
    base: usize,
}

impl Memory {
    /// Room for so many bytes at any offset.
    fn new(length: usize) -> Self {
        let whole = GUARD + STEP + STEP + length + GUARD;
        let unwritten: Vec<u8> = (0..whole).map(|place| 128 + (place % 127) as u8).collect();
        let bytes = unwritten.clone();
        let base = GUARD + bytes[GUARD..].as_ptr().align_offset(STEP);
        Self { bytes, unwritten, base }
    }

    fn lend(&mut self, offset: usize, length: usize) -> &mut [u8] {
        &mut self.bytes[self.base + offset..][..length]
    }

    /// Asserts that these bytes are there and all others, within what was lent and outside, as they were.
    fn assert_holds(&self, offset: usize, written: &[u8], what: impl Fn() -> String) {
        let start = self.base + offset;
        let end = start + written.len();
        assert!(self.bytes[..start] == self.unwritten[..start], "{}: a byte before the buffer", what());
        assert!(self.bytes[start..end] == *written, "{}: other bytes at the buffer's start", what());
        assert!(self.bytes[end..] == self.unwritten[end..], "{}: a byte behind what was to be written", what());
    }

    fn clear(&mut self) {
        self.bytes.copy_from_slice(&self.unwritten);
    }
}

/// What the tests reached.
#[derive(Default)]
struct Reached {
    answers: Tally,
    /// Offsets of message and buffer with each room, as their addresses have them.
    offsets: BTreeSet<(&'static str, usize, usize)>,
}

impl Reached {
    fn count(&mut self, room: &'static str, number: u32, from: &[u8], to: &[u8]) {
        self.answers.count(room, number);
        self.offsets.insert((room, from.as_ptr() as usize % STEP, to.as_ptr() as usize % STEP));
    }

    /// Asserts that every room got these answers, if enough and if not.
    fn assert_rooms(&self, enough: u32, short: u32) {
        let answers = rooms(2).map(|(name, room)| (name, [if room < 2 { short } else { enough }]));
        self.assert_all(&answers.each_ref().map(|(name, numbers)| (*name, &numbers[..])));
    }

    /// Asserts that each room got these answers, and at every offset.
    fn assert_all(&self, answers: &[(&str, &[u32])]) {
        println!("{}", self.answers);
        self.answers.assert_just(answers);
        assert_eq!(self.offsets.len(), answers.len() * STEP * STEP, "offsets of message and buffer");
    }
}

/// A relay with a session between two connections.
struct Session {
    now: u64,
    map: u64,
    connections: Vec<u8>,
    leases: Vec<u8>,
    allowances: Vec<u8>,
    reply: [u8; BUFFER],
}

impl Session {
    fn new() -> Self {
        let [connections, leases, allowances] =
            [relay::CONNECTIONS, relay::LEASES, relay::ALLOWANCES].map(|size| vec![0; size]);
        let mut session = Self { now: START, map: 0, connections, leases, allowances, reply: [0; BUFFER] };
        assert_eq!(relay::fresh(session.tables(), 0, START, 0).number, 0);
        for connection in [CALLER, HOLDER] {
            let (now, map) = (session.now, session.map);
            let answer = relay::open(session.tables(), map, now, connection, &mut [0; BUFFER]);
            assert_eq!(answer.number, 0);
            session.map = answer.map;
            session.prepare(connection, Message::VersionAnswer { ok: 1 }, 0);
        }
        session.prepare(HOLDER, Message::LeaseRequest, 38);
        let Some(Message::LeaseGranted { id, .. }) = codec::decode(&session.reply[..38]) else { panic!("no lease") };
        session.prepare(CALLER, Message::EstablishRequest { id }, 54);
        session
    }

    fn prepare(&mut self, connection: u64, message: Message, reply: u32) {
        let message = codec::encode(&message).expect("a message");
        let answer = self.message(connection, &message, &mut [0; BUFFER]);
        assert_eq!((answer.number, answer.reply), (0, reply));
    }

    fn tables(&mut self) -> Tables<'_> {
        Tables { connections: &mut self.connections, leases: &mut self.leases, allowances: &mut self.allowances }
    }

    fn message(&mut self, connection: u64, message: &[u8], buffer: &mut [u8]) -> Answer {
        self.now += REFILL_SECONDS;
        let (now, map, mut reply) = (self.now, self.map, self.reply);
        let answer = relay::message(self.tables(), map, now, connection, message, &[7; RANDOM], &mut reply, buffer);
        self.reply = reply;
        answer
    }

    /// The tables.
    fn bytes(&self) -> Vec<u8> {
        [&self.connections[..], &self.leases, &self.allowances].concat()
    }
}

/// What a send of so many bytes is answered with, given a relay buffer of this length.
fn expected_answer(now: u64, length: usize, room: usize) -> Answer {
    let (number, relay, destination, charge) = if room < BUFFER.max(1 + length) {
        (5, 0, NOBODY, 0)
    } else if length > DATA_LIMIT {
        (6, 0, NOBODY, 0)
    } else {
        (0, 1 + length as u32, HOLDER as u32, BASE_COST as u32 + 2 * (1 + length as u32))
    };
    let entry = Entry { time: now, connection: CALLER as u8, call: 1, kind: SEND, answer: number as u8, charge };
    Answer { number, reply: 0, relay, destination, disconnect: 0, map: MAP, record: entry.bytes() }
}

/// Sends data of this length with each room and at each offset.
fn send(session: &mut Session, length: usize, rooms: &[(&'static str, usize)], reached: &mut Reached) {
    let data = data(length);
    let (sent, received) = ([&[SEND], &data[..]].concat(), [&[RECEIVE], &data[..]].concat());
    let longest = rooms.iter().map(|room| room.1).max().expect("a room");
    let (mut from, mut to) = (Memory::new(sent.len()), Memory::new(longest));
    for (from_offset, to_offset) in offsets() {
        from.clear();
        from.lend(from_offset, sent.len()).copy_from_slice(&sent);
        for &(name, room) in rooms {
            to.clear();
            let (before, reply) = (session.bytes(), session.reply);
            let (message, buffer) = (from.lend(from_offset, sent.len()), to.lend(to_offset, room));
            let answer = session.message(CALLER, message, buffer);
            reached.count(name, answer.number, message, buffer);
            let what = || format!("{length} bytes from offset {from_offset} to {to_offset}, room for {room}");
            assert_eq!(answer, expected_answer(session.now, length, room), "{}", what());
            let written = if answer.number == 0 { &received[..] } else { &[] };
            to.assert_holds(to_offset, written, what);
            from.assert_holds(from_offset, &sent, what);
            assert_eq!(session.reply, reply, "{}: a send has no reply", what());
            assert!(answer.number == 0 || session.bytes() == before, "{}: refused, and a table is another", what());
        }
    }
}

/// The rooms that are tried where so many bytes are just enough: enough in the first three.
fn rooms(enough: usize) -> [(&'static str, usize); 5] {
    [
        ("just enough", enough),
        ("one more", enough + 1),
        ("forty more", enough + 40),
        ("one too few", enough - 1),
        ("none", 0),
    ]
}

#[test]
fn a_relay_buffer_begins_with_12_and_the_data() {
    let (mut session, mut reached) = (Session::new(), Reached::default());
    for length in lengths() {
        send(&mut session, length, &rooms(BUFFER.max(1 + length)), &mut reached);
    }
    reached.assert_rooms(0, 5);
}

/// Of a message of up to 62 bytes, since every relay buffer has to have 64.
#[test]
fn a_buffer_as_long_as_a_short_message_is_too_short() {
    let (mut session, mut reached) = (Session::new(), Reached::default());
    for length in 0..BUFFER - 1 {
        send(&mut session, length, &[("as long as the message", 1 + length)], &mut reached);
    }
    reached.assert_all(&[("as long as the message", &[5])]);
}

#[test]
fn a_message_too_long_is_refused_after_its_room() {
    let (mut session, mut reached) = (Session::new(), Reached::default());
    send(&mut session, DATA_LIMIT + 1, &rooms(DATA_LIMIT + 2), &mut reached);
    reached.assert_rooms(6, 5);
}

/// What the writer answers to so many bytes of data, given a buffer of this length.
fn expected_written(length: usize, room: usize) -> Written {
    if length > DATA_LIMIT {
        Written { number: 6, length: 0 }
    } else if room < 1 + length {
        Written { number: 5, length: 0 }
    } else {
        Written { number: 0, length: 1 + length }
    }
}

/// Writes data of this length with each room and at each offset.
fn write(length: usize, reached: &mut Reached) {
    let data = data(length);
    let received = [&[RECEIVE], &data[..]].concat();
    let (mut from, mut to) = (Memory::new(length), Memory::new(1 + length + 40));
    for (from_offset, to_offset) in offsets() {
        from.clear();
        from.lend(from_offset, length).copy_from_slice(&data);
        for (name, room) in rooms(1 + length) {
            to.clear();
            let (bytes, buffer) = (from.lend(from_offset, length), to.lend(to_offset, room));
            let answer = svsc::write_data_receive(buffer, bytes);
            reached.count(name, answer.number, bytes, buffer);
            let what = || format!("{length} bytes from offset {from_offset} to {to_offset}, room for {room}");
            assert_eq!(answer, expected_written(length, room), "{}", what());
            let written = if answer.number == 0 { &received[..] } else { &[] };
            to.assert_holds(to_offset, written, what);
            from.assert_holds(from_offset, &data, what);
        }
    }
}

#[test]
fn the_writer_writes_12_and_the_data() {
    let mut reached = Reached::default();
    lengths().for_each(|length| write(length, &mut reached));
    reached.assert_rooms(0, 5);
}

#[test]
fn the_writer_refuses_a_byte_too_many_before_its_room() {
    let mut reached = Reached::default();
    write(DATA_LIMIT + 1, &mut reached);
    reached.assert_rooms(6, 6);
}
