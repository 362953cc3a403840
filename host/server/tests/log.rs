//! What the log looks like, how a flood is summed up, and that a log which nobody takes holds up nobody.

use std::cell::Cell;
use std::sync::{mpsc, Arc, Mutex};
use std::thread;
use std::time::Duration;

use server::{Event, Log, LogFormat, Place, Said};

const REFUSED: Event = Event { kind: "refused", place: Place::Connection(17) };
const TURNED_AWAY: Event = Event { kind: "turned away", place: Place::Partner(3) };

/// A log whose lines are kept.
struct Kept {
    log: Log,
    lines: Arc<Mutex<Vec<String>>>,
}

impl Kept {
    fn new(format: LogFormat) -> Self {
        let lines = Arc::new(Mutex::new(Vec::new()));
        let to = Arc::clone(&lines);
        Self { log: Log::new(format, move |line| to.lock().expect("no panic").push(line.to_owned())), lines }
    }

    /// What was written since the last time.
    fn written(&self) -> Vec<String> {
        self.log.flush();
        std::mem::take(&mut *self.lines.lock().expect("no panic"))
    }

    /// Likewise, without the times.
    fn texts(&self) -> Vec<String> {
        self.written().iter().map(|line| line.split_once(' ').expect("a time").1.to_owned()).collect()
    }
}

#[test]
fn a_line_has_a_time_a_place_and_the_peer() {
    let kept = Kept::new(LogFormat::Text);
    kept.log.record(REFUSED, Some("[::1]:4242".parse().expect("an address")), "refused with 8");
    kept.log.record(TURNED_AWAY, None, "turned away");
    kept.log.record(Event { kind: "clock", place: Place::Relay }, None, "late");
    let lines = kept.written();
    let (time, _) = lines[0].split_once(' ').expect("a time");
    assert!(time.len() == 24 && time.starts_with("20") && time.ends_with('Z') && &time[10..11] == "T", "{time}");
    let texts: Vec<_> = lines.iter().map(|line| line.split_once(' ').expect("a time").1).collect();
    let expected =
        ["partner 2, connection 17 at [::1]:4242: refused with 8", "partner 3: turned away", "the relay: late"];
    assert_eq!(texts, expected);
}

#[test]
fn a_json_line_is_an_object_with_what_is_known() {
    let kept = Kept::new(LogFormat::Json);
    kept.log.record(REFUSED, Some("127.0.0.1:4242".parse().expect("an address")), "a \"quoted\" text\nin two lines");
    kept.log.record(TURNED_AWAY, None, "turned away");
    let lines = kept.written();
    let objects: Vec<serde_json::Value> =
        lines.iter().map(|line| serde_json::from_str(line).expect("an object")).collect();
    assert!(lines.iter().all(|line| !line.contains('\n')), "{lines:?}");
    assert_eq!(objects[0]["event"], "refused");
    assert_eq!((&objects[0]["partner"], &objects[0]["connection"]), (&2.into(), &17.into()));
    assert_eq!(objects[0]["peer"], "127.0.0.1:4242");
    assert_eq!(objects[0]["text"], "a \"quoted\" text\nin two lines");
    assert!(objects[0]["time"].as_str().is_some_and(|time| time.ends_with('Z')));
    assert_eq!(objects[1]["partner"], 3);
    assert!(objects[1].get("connection").is_none() && objects[1].get("peer").is_none());
}

#[test]
fn a_number_has_a_field_in_json_only_if_there_is_one() {
    let (json, text) = (Kept::new(LogFormat::Json), Kept::new(LogFormat::Text));
    for kept in [&json, &text] {
        kept.log.record_with(REFUSED, None, || Said { text: "12 units short", number: Some(("shortfall", 12)) });
        kept.log.record_with(REFUSED, None, || Said { text: "not short", number: None });
    }
    let objects: Vec<serde_json::Value> =
        json.written().iter().map(|line| serde_json::from_str(line).expect("an object")).collect();
    assert!(objects[0]["shortfall"] == 12 && objects[0]["text"] == "12 units short", "{}", objects[0]);
    assert!(objects[1].get("shortfall").is_none(), "{}", objects[1]);
    assert_eq!(text.texts(), ["partner 2, connection 17: 12 units short", "partner 2, connection 17: not short"]);
    // A line that sums up has none, whatever the others had.
    (0..20)
        .for_each(|_| json.log.record_with(REFUSED, None, || Said { text: "short", number: Some(("shortfall", 1)) }));
    json.log.sum_up();
    let last = json.written().pop().expect("a line");
    assert!(last.contains("times more") && !last.contains("shortfall"), "{last}");
}

#[test]
fn what_is_only_counted_is_not_worked_out() {
    let kept = Kept::new(LogFormat::Text);
    let worked_out = Cell::new(0);
    let say = || {
        worked_out.set(worked_out.get() + 1);
        Said { text: "short", number: Some(("shortfall", 1)) }
    };
    (0..1_000).for_each(|_| kept.log.record_with(REFUSED, None, say));
    assert_eq!((kept.written().len(), worked_out.get()), (10, 10));
}

#[test]
fn a_flood_is_summed_up_however_its_texts_differ() {
    let kept = Kept::new(LogFormat::Text);
    (0..1_000).for_each(|byte| kept.log.record(REFUSED, None, format_args!("a frame of type {byte}")));
    kept.log.record(TURNED_AWAY, None, "turned away");
    let texts = kept.texts();
    assert_eq!(texts.len(), 11, "{texts:?}");
    assert_eq!(
        (texts[0].as_str(), texts[9].as_str()),
        ("partner 2, connection 17: a frame of type 0", "partner 2, connection 17: a frame of type 9")
    );
    assert_eq!(texts[10], "partner 3: turned away");
    kept.log.sum_up();
    assert_eq!(kept.texts(), ["partner 2, connection 17: 'refused' 990 times more"]);
    // The first goes on and is still only counted; the second is new.
    kept.log.record(REFUSED, None, "again");
    kept.log.record(TURNED_AWAY, None, "again");
    assert_eq!(kept.texts(), ["partner 3: again"]);
    kept.log.sum_up();
    assert_eq!(kept.texts(), ["partner 2, connection 17: 'refused' 1 times more"]);
    kept.log.sum_up();
    assert_eq!(kept.texts(), [""; 0]);
    kept.log.record(REFUSED, None, "once more");
    assert_eq!(kept.texts(), ["partner 2, connection 17: once more"]);
}

#[test]
fn a_log_that_is_not_taken_holds_up_nobody_and_counts_what_is_lost() {
    let (to_test, lines) = mpsc::sync_channel(0);
    let log = Arc::new(Log::new(LogFormat::Text, move |line| to_test.send(line.to_owned()).expect("the test goes on")));
    let writer = thread::spawn({
        let log = Arc::clone(&log);
        move || log.run()
    });
    log.record(TURNED_AWAY, None, "first");
    assert!(lines.recv().expect("a line").ends_with("partner 3: first"));
    log.record(TURNED_AWAY, None, "second");
    // By then the writer waits for somebody to take it.
    thread::sleep(Duration::from_millis(100));
    let event = |number| Event { kind: "connected", place: Place::Connection(number) };
    (0..150).flat_map(|number| [number; 10]).for_each(|number| log.record(event(number), None, "connected"));
    log.end();
    let taken: Vec<String> = lines.iter().take(1 + 1_000 + 1).collect();
    assert!(taken[0].ends_with("partner 3: second"), "{}", taken[0]);
    assert!(taken[1_001].ends_with("500 lines are lost, they came too fast"), "{}", taken[1_001]);
    writer.join().expect("the writer ends");
}

#[test]
fn a_flood_is_summed_up_while_the_log_goes_on() {
    let (to_test, lines) = mpsc::channel();
    let log = Arc::new(Log::new(LogFormat::Text, move |line| drop(to_test.send(line.to_owned()))));
    let writer = thread::spawn({
        let log = Arc::clone(&log);
        move || log.run()
    });
    (0..20).for_each(|_| log.record(REFUSED, None, "again"));
    let line = || lines.recv_timeout(Duration::from_secs(10)).expect("a sum every five seconds");
    while !line().ends_with("'refused' 10 times more") {}
    log.end();
    writer.join().expect("the writer ends");
}
