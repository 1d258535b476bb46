//! semtimedop: the daemon's own clock ends waits.

use std::time::{Duration, Instant};

use vairolent::Operation;

use crate::client::{operate, packet, Client, EAGAIN, EINTR, FOREVER};
use crate::daemon::Daemon;
use crate::folder::Folder;
use crate::runs;

const TAKE: Operation = Operation::new(0, -1);
const MILLISECOND: i64 = 1_000_000;

#[test]
fn waits_end_in_order_and_not_early() {
    let folder = Folder::new();
    let daemon = Daemon::start(&folder);
    let client = Client::new(&folder);
    let set = client.make(1);
    let begin = Instant::now();
    let waits = [300, 20, 60].map(|wait| {
        let sleeper = Client::new(&folder);
        sleeper.begin(set, wait * MILLISECOND, TAKE);
        (sleeper, Duration::from_millis(wait as u64))
    });
    // Numbers go by the order in which they came.
    for number in [1, 2, 0] {
        let (sleeper, wait) = &waits[number];
        assert_eq!(sleeper.answer().code, EAGAIN);
        assert!(begin.elapsed() >= *wait, "{:?} for {wait:?}", begin.elapsed());
    }
    assert!(daemon.replay(&folder) >= 7);
    let lines = &runs::all(&folder.record())[0].lines;
    let ends = lines.split_whitespace().filter(|word| word.contains('='));
    assert_eq!(ends.collect::<Vec<&str>>(), ["2=11", "3=11", "1=11"]);
}

/// Each is measured by itself, from before it is sent.
#[test]
fn no_wait_is_too_short() {
    let folder = Folder::new();
    let daemon = Daemon::start(&folder);
    let client = Client::new(&folder);
    let set = client.make(1);
    for nanoseconds in [1, 999_999, 1_000_000, 1_000_001, 2_500_000, 7_000_000].repeat(5) {
        let begin = Instant::now();
        assert_eq!(client.call(&operate(set, nanoseconds, &[TAKE])).code, EAGAIN);
        let time = begin.elapsed();
        assert!(time >= Duration::from_nanos(nanoseconds as u64), "{time:?} for {nanoseconds}");
    }
    assert!(daemon.replay(&folder) >= 61, "each sleeps, and the clock ends it");
}

#[test]
fn a_wait_of_nothing_ends_at_once() {
    let folder = Folder::new();
    let daemon = Daemon::start(&folder);
    let client = Client::new(&folder);
    let set = client.make(1);
    assert_eq!(client.call(&operate(set, 0, &[TAKE])).code, EAGAIN);
    assert_eq!(client.call(&operate(set, 0, &[Operation::new(0, 1)])).code, 0);
    assert_eq!(daemon.replay(&folder), 3, "no time is told, and nobody sleeps");
    assert!(!runs::all(&folder.record())[0].lines.contains("-1@"), "nobody sleeps");
}

#[test]
fn a_wait_of_centuries_sleeps() {
    let folder = Folder::new();
    let daemon = Daemon::start(&folder);
    let client = Client::new(&folder);
    let set = client.make(1);
    for wait in [1 << 62, i64::MAX, (i64::from(u32::MAX) - 1_000) * MILLISECOND] {
        let sleeper = Client::new(&folder);
        sleeper.begin(set, wait, TAKE);
        client.see_asleep(1);
        let shown = client.status();
        let for_long = shown.contains("increase   -") || shown.contains("increase   in 429496");
        assert!(for_long && !sleeper.is_answered(), "{shown}");
        sleeper.cancel();
        assert_eq!(sleeper.answer().code, EINTR);
        client.see_asleep(0);
    }
    assert!(daemon.replay(&folder) >= 7);
}

/// One that is woken before its time has one answer, and a cancel then does nothing.
#[test]
fn a_wait_that_is_cut_short() {
    let folder = Folder::new();
    let daemon = Daemon::start(&folder);
    let (client, sleeper) = (Client::new(&folder), Client::new(&folder));
    let set = client.make(1);
    sleeper.begin(set, 30 * 1_000 * MILLISECOND, TAKE);
    client.see_asleep(1);
    assert_eq!(client.operate(set, &[Operation::new(0, 1)]), 0);
    assert_eq!(sleeper.answer().code, 0);
    sleeper.cancel();
    assert_eq!(sleeper.call(&packet(6, [0; 3], 0, &[])).code, 0, "the next answer is its own");
    assert!(daemon.replay(&folder) >= 3);
}

/// The daemon is held up until a wait is over, and finds that by a packet of another, which it
/// refuses. The one whose wait is over is answered all the same.
#[test]
fn an_end_that_is_found_late() {
    let folder = Folder::new();
    let daemon = Daemon::start(&folder);
    let [client, held, waits, bad] = [(); 4].map(|()| Client::new(&folder));
    let set = client.make(1);
    held.begin(set, FOREVER, TAKE);
    waits.begin(set, 100 * MILLISECOND, TAKE);
    client.see_asleep(2);
    let hush = daemon.hush();
    daemon.standing_still(|| {
        bad.send(&[0]).expect("sent");
        held.send(&packet(6, [0; 3], 0, &[])).expect("sent");
    });
    std::thread::sleep(Duration::from_millis(120));
    drop(hush);
    assert_eq!(held.answer_or_end(), None);
    assert_eq!(waits.answer().code, EAGAIN);
    assert!(daemon.replay(&folder) >= 5);
}
