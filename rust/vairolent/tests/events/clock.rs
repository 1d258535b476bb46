//! Waits that end by the clock: when, in which order, and that nothing else is changed by it.

use vairolent::{Answer, Ending, Error, Host, Operation, Waking, TIME_MAX};

use crate::{sleep, with_set};

const ADD: Operation = Operation::new(0, 1);
const TAKE: Operation = Operation::new(0, -1);

/// Puts a process to sleep with a wait.
fn wait(host: &mut Host, process: u8, set: i32, wait: u32) {
    assert_eq!(
        host.operate_within(process, set, &[TAKE], wait),
        Ok(Answer::Asleep { position: 0 })
    );
}

/// Tells a time, and gives the processes whose wait is over.
fn over(host: &mut Host, time: u64) -> Vec<u8> {
    let wakings = host.clock(time).expect("a good time");
    assert_eq!(wakings.looks(), 0);
    let process = |waking: Waking| {
        assert_eq!(waking.ending, Ending::TimedOut);
        waking.process
    };
    wakings.map(process).collect()
}

#[test]
fn at_start_plus_wait_and_not_before() {
    let (mut host, set) = with_set(1);
    assert_eq!(over(&mut host, 10), []);
    wait(&mut host, 3, set, 5);
    for early in [10, 11, 14] {
        assert_eq!(over(&mut host, early), []);
    }
    assert_eq!(over(&mut host, 15), [3]);
    assert_eq!(over(&mut host, 15), []);
    wait(&mut host, 3, set, 1);
    assert_eq!(over(&mut host, 1_000), [3]);
}

/// Not by set, process or end of wait. Who is not due, or has no wait, sleeps on.
#[test]
fn oldest_first_over_all_sets() {
    let (mut host, first) = with_set(1);
    let second = host.create(3, 1, 0o666).expect("a slot is free");
    wait(&mut host, 6, second, 30);
    wait(&mut host, 2, first, 90);
    sleep(&mut host, first, &[4], &[TAKE]);
    wait(&mut host, 8, first, 10);
    wait(&mut host, 1, second, 20);
    assert_eq!(over(&mut host, 9), []);
    wait(&mut host, 5, first, 1);
    assert_eq!(over(&mut host, 30), [6, 8, 1, 5]);
    assert_eq!(host.query(3, first, 0).map(|semaphore| semaphore.increase_mask), Ok(0b0000_1010));
    assert_eq!(over(&mut host, 90), [2]);
    assert_eq!(over(&mut host, TIME_MAX), []);
    assert_eq!(host.operate(4, first, &[ADD]), Err(Error::ProcessAsleep));
}

#[test]
fn all_eight() {
    let (mut host, set) = with_set(1);
    let sleepers = [8, 1, 7, 2, 6, 3, 5, 4];
    for process in sleepers {
        wait(&mut host, process, set, process.into());
    }
    assert_eq!(over(&mut host, 8), sleepers);
}

/// A wait and its start in all their bits, beyond the last time too.
#[test]
fn the_sum_is_exact() {
    let starts = [0, 5, u32::MAX.into(), 1 << 32, 1 << 62, TIME_MAX - u64::from(u32::MAX)];
    for start in starts {
        for length in [1, 255, 256, 65_536, 65_537, 1 << 31, u32::MAX] {
            let (mut host, set) = with_set(1);
            assert_eq!(over(&mut host, start), []);
            wait(&mut host, 7, set, length);
            assert_eq!(over(&mut host, start + u64::from(length) - 1), []);
            assert_eq!(over(&mut host, start + u64::from(length)), [7]);
        }
    }
    let (mut host, set) = with_set(1);
    assert_eq!(over(&mut host, TIME_MAX - 10), []);
    for (process, length) in [(1, 11), (2, 10), (3, u32::MAX)] {
        wait(&mut host, process, set, length);
    }
    assert_eq!(over(&mut host, TIME_MAX), [2]);
    wait(&mut host, 2, set, 1);
    assert_eq!(over(&mut host, TIME_MAX), []);
}

/// Everything is then as if the calls had never been.
#[test]
fn nothing_else_is_changed() {
    let (mut host, set) = with_set(2);
    assert!(host.operate(8, set, &[Operation::new(0, 2).undo()]).is_ok());
    sleep(&mut host, set, &[6], &[Operation::new(0, 0)]);
    let mut without = host.clone();
    let operations = [Operation::new(0, 3).undo(), Operation::new(1, -1)];
    let answer = host.operate_within(5, set, &operations, 4);
    assert_eq!(answer, Ok(Answer::Asleep { position: 1 }));
    assert_eq!(over(&mut host, 4), [5]);
    assert_eq!(over(&mut without, 4), []);
    assert_eq!(host, without);
}

/// Past its wait, with no time told, a sleeper can be woken; no look begins the wait anew.
#[test]
fn woken_before_its_time_is_told() {
    let (mut host, set) = with_set(1);
    wait(&mut host, 3, set, 5);
    assert_eq!(host.set_value(1, set, 0, 0).map(|wakings| wakings.looks()), Ok(1));
    let mut woken = host.clone();
    let wakings: Vec<Waking> = woken.set_value(1, set, 0, 1).expect("set").collect();
    assert_eq!(wakings, [Waking { process: 3, ending: Ending::Done }]);
    assert_eq!(over(&mut woken, 5), []);
    assert_eq!(over(&mut host, 4), []);
    assert_eq!(host.set_value(1, set, 0, 0).map(|wakings| wakings.looks()), Ok(1));
    assert_eq!(over(&mut host, 5), [3]);
}

/// A look that ends a sleeper with a wait names the operation, as of any other.
#[test]
fn refused_by_a_look_before_its_time_is_told() {
    let (mut host, set) = with_set(2);
    let operations = [TAKE, Operation::new(1, 0).nowait()];
    assert_eq!(host.operate_within(2, set, &operations, 9), Ok(Answer::Asleep { position: 0 }));
    let wakings: Vec<Waking> = host.set_all(1, set, &[1, 1]).expect("set").collect();
    assert_eq!(wakings, [Waking { process: 2, ending: Ending::WouldSleep { position: 1 } }]);
    assert_eq!(over(&mut host, 9), []);
}

/// Its wait ends with the call, and the next call of the process has none.
#[test]
fn ended_otherwise() {
    let (mut host, set) = with_set(1);
    let other = host.create(4, 1, 0o666).expect("a slot is free");
    for (process, set) in [(1, set), (2, other), (3, set)] {
        wait(&mut host, process, set, 5);
    }
    let mut wakings = host.signal(1).expect("interrupted");
    assert_eq!(wakings.next(), Some(Waking { process: 1, ending: Ending::Interrupted }));
    let mut wakings = host.remove(4, other).expect("removed");
    assert_eq!(wakings.next(), Some(Waking { process: 2, ending: Ending::Removed }));
    assert_eq!(host.exit(3).map(|wakings| wakings.len()), Ok(0));
    sleep(&mut host, set, &[1, 2, 3], &[TAKE]);
    assert_eq!(over(&mut host, 1_000), []);
}

/// Where nobody would sleep, a wait of 0 is as any other.
#[test]
fn a_wait_of_0() {
    let (mut host, set) = with_set(2);
    let mut plain = host.clone();
    let operations = [Operation::new(0, 2), TAKE.undo(), Operation::new(1, 0)];
    assert!(matches!(host.operate_within(1, set, &operations, 0), Ok(Answer::Done(_))));
    assert!(matches!(plain.operate(1, set, &operations), Ok(Answer::Done(_))));
    assert_eq!(host, plain);
    let stops = [ADD, Operation::new(1, -1)];
    assert_eq!(host.operate_within(1, set, &stops, 0), Err(Error::WouldSleep { position: 1 }));
    assert_eq!(host, plain);
}

/// The time is a part of the state, and so are a sleeper's start and wait.
#[test]
fn hosts_are_told_apart_by_time_and_wait() {
    let (mut host, set) = with_set(1);
    let fresh = host.clone();
    assert_eq!(over(&mut host, 0), []);
    assert_eq!(host, fresh);
    assert_eq!(over(&mut host, 1), []);
    assert_ne!(host, fresh);
    let mut hosts = vec![host.clone(); 4];
    wait(&mut hosts[0], 1, set, 5);
    wait(&mut hosts[1], 1, set, 6);
    wait(&mut hosts[2], 1, set, u32::MAX);
    sleep(&mut hosts[3], set, &[1], &[TAKE]);
    for (at, one) in hosts.iter().enumerate() {
        assert!(hosts[at + 1..].iter().all(|other| other != one));
    }
    // The start is kept without a wait too.
    let mut earlier = fresh.clone();
    sleep(&mut earlier, set, &[1], &[TAKE]);
    assert_eq!(over(&mut earlier, 1), []);
    assert_ne!(earlier, hosts[3]);
    let mut later = fresh;
    wait(&mut later, 1, set, 5);
    assert_eq!(over(&mut later, 1), []);
    assert_ne!(later, hosts[0]);
}
