//! A machine whose time is set while the relay runs.

use std::sync::atomic::{AtomicU64, Ordering};
use std::sync::Arc;
use std::time::{Duration, Instant};

use codec::Message;
use server::{Clock, SystemClock};

use crate::support::Relay;

const HOUR: u64 = 3600;
const START: u64 = 1_000_000_000;

/// A clock on a machine whose time was this number of seconds when the test began.
fn clock_of(machine: &Arc<AtomicU64>) -> SystemClock {
    let (machine, start) = (Arc::clone(machine), Instant::now());
    SystemClock::with_wall(move || Duration::from_secs(machine.load(Ordering::SeqCst)) + start.elapsed())
}

#[test]
fn the_time_may_be_set_back_or_forward_and_nobody_waits_for_it() {
    for set in [START - HOUR, START + HOUR, 1 << 40] {
        let machine = Arc::new(AtomicU64::new(START));
        let relay = Relay::with_clock(clock_of(&machine));
        let mut peer = relay.peer(0);
        machine.store(set, Ordering::SeqCst);
        // More than an allowance pays for: the last of it needs a refill.
        for _ in 0..262_144 / 33 + 100 {
            peer.send(Message::Keepalive);
        }
        let start = Instant::now();
        assert!(peer.lease() < 1 << 26);
        assert!(start.elapsed() < Duration::from_secs(3), "it waited {:?}", start.elapsed());
        let (least, most) = (set.abs_diff(START) - 1, set.abs_diff(START));
        relay.await_any(&[least, most].map(|drift| format!("the machine's time is {drift} s from the")));
        // It is looked at twice a second, and told once.
        std::thread::sleep(Duration::from_millis(1_200));
        let (_, log) = relay.stop();
        assert_eq!(log.iter().filter(|line| line.contains("the machine's time is")).count(), 1, "{log:?}");
    }
}

#[test]
fn the_next_second_is_the_machine_s() {
    let clock = SystemClock::with_wall(|| Duration::from_millis(START * 1_000 + 700));
    let wait = clock.until_next();
    assert!(wait <= Duration::from_millis(300), "{wait:?}");
}

#[test]
fn a_second_of_the_clock_is_a_second() {
    let mut clock = clock_of(&Arc::new(AtomicU64::new(START)));
    assert_eq!((clock.now(), clock.drift()), (START, 0));
    let wait = clock.until_next();
    assert!(wait <= Duration::from_secs(1));
    std::thread::sleep(wait + Duration::from_millis(5));
    clock.refresh();
    assert_eq!(clock.now(), START + 1);
    clock.start_from(START + HOUR);
    assert_eq!(clock.now(), START + HOUR);
    clock.start_from(START);
    assert_eq!(clock.now(), START + HOUR, "it never goes back");
}
