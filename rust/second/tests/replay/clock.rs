//! Waits that end by the clock.

use second::event::{
    act_as, clock, exit, operate, query, read_all, remove, set_all, set_value, signal,
    timed_operate, Operation,
};
use second::{Event, Host, Rule, NOWAIT, TIME_MAX, UNDO};

use crate::{check, check_on_a_set, create};

/// An array that sleeps while semaphore 0 is at 0.
const TAKE: [Operation; 1] = [(0, -1, 0)];

#[test]
fn a_wait_ends_at_its_time_and_not_before() {
    check_on_a_set(&[
        (clock(100), "0 0 0"),
        (timed_operate(1, 0, 50, &TAKE), "-1@0 0 0"),
        (clock(149), "0 0 0"),
        (query(8, 0, 0), "0 0 0 1 0"),
        (clock(150), "0 0 0 1=11"),
        (query(8, 0, 0), "0 0 0 0 0"),
        (clock(150), "0 0 0"),
        (timed_operate(1, 0, 50, &TAKE), "-1@0 0 0"),
        (clock(1_000), "0 0 0 1=11"),
    ]);
}

/// Those of other sets too, whichever slot, process or end is lower.
#[test]
fn the_oldest_ends_first() {
    check_on_a_set(&[
        (create(), "0 1 0"),
        (timed_operate(4, 1, 30, &TAKE), "-1@0 0 0"),
        (timed_operate(7, 0, 10, &TAKE), "-1@0 0 0"),
        (operate(5, 0, &TAKE), "-1@0 0 0"),
        (timed_operate(2, 1, 20, &TAKE), "-1@0 0 0"),
        (timed_operate(3, 0, 31, &TAKE), "-1@0 0 0"),
        (clock(30), "0 0 0 4=11 7=11 2=11"),
        (clock(TIME_MAX), "0 0 0 3=11"),
        (set_value(8, 0, 0, 1), "0 0 1 5=0"),
    ]);
}

#[test]
fn eight_end_at_once() {
    let mut run = Vec::new();
    for process in (1..=8).rev() {
        run.push((timed_operate(process, 0, 5, &TAKE), "-1@0 0 0"));
    }
    run.push((clock(5), "0 0 0 8=11 7=11 6=11 5=11 4=11 3=11 2=11 1=11"));
    check_on_a_set(&run);
}

/// What the array would have done before its stop is not there, and the other is not looked at.
#[test]
fn an_expiry_changes_no_value() {
    check_on_a_set(&[
        (timed_operate(1, 0, 5, &[(1, 1, 0), (0, -1, 0)]), "-1@1 0 0"),
        (operate(2, 0, &[(1, -1, 0)]), "-1@0 0 0"),
        (clock(5), "0 0 0 1=11"),
        (read_all(8, 0), "0 0 0 0 0 1 0 0 0 0 0 0 0 0 0 0 0 0 0 0 0 0 0 0 0"),
        (query(8, 0, 1), "0 0 0 1 0"),
    ]);
}

/// Only a time that is told ends a wait: until then a look may, with its own code.
#[test]
fn woken_before_its_time_is_told() {
    let stops = [(1, 0, NOWAIT), (2, 9, 0), (0, -1, 0)];
    check_on_a_set(&[
        (timed_operate(1, 0, 1, &TAKE), "-1@0 0 0"),
        (set_value(8, 0, 0, 1), "0 0 1 1=0"),
        (timed_operate(2, 0, 1, &stops), "-1@2 0 0"),
        (set_all(8, 0, &[0, 1, 0, 0, 0, 0, 0, 0]), "0 0 1 2=11@0"),
        (set_value(8, 0, 1, 0), "0 0 0"),
        (timed_operate(3, 0, 1, &stops), "-1@2 0 0"),
        (operate(8, 0, &[(2, 32_767, 0)]), "0 0 1 3=34@1"),
        (timed_operate(4, 0, 1, &TAKE), "-1@0 0 0"),
        (signal(4), "0 0 0 4=4"),
        (timed_operate(5, 0, 1, &TAKE), "-1@0 0 0"),
        (exit(5), "0 0 0"),
        (timed_operate(6, 0, 1, &TAKE), "-1@0 0 0"),
        (remove(8, 0), "0 0 0 6=43"),
        (clock(10), "0 0 0"),
    ]);
}

/// A call by the same process has a start and a wait of its own.
#[test]
fn a_later_call_starts_anew() {
    check_on_a_set(&[
        (timed_operate(1, 0, 10, &TAKE), "-1@0 0 0"),
        (signal(1), "0 0 0 1=4"),
        (clock(9), "0 0 0"),
        (timed_operate(1, 0, 10, &TAKE), "-1@0 0 0"),
        (clock(18), "0 0 0"),
        (clock(19), "0 0 0 1=11"),
        (operate(1, 0, &TAKE), "-1@0 0 0"),
        (clock(1_000), "0 0 0"),
    ]);
}

#[test]
fn a_look_leaves_the_start() {
    check_on_a_set(&[
        (timed_operate(1, 0, 10, &[(0, -2, 0)]), "-1@0 0 0"),
        (clock(6), "0 0 0"),
        (set_value(8, 0, 0, 1), "0 0 1"),
        (clock(9), "0 0 0"),
        (operate(2, 0, &[(0, -1, 0)]), "0 0 1"),
        (clock(10), "0 0 0 1=11"),
    ]);
}

/// It matters only where the array would sleep, and behind all checks.
#[test]
fn a_wait_of_0() {
    check_on_a_set(&[
        (timed_operate(1, 0, 0, &TAKE), "11@0 0 0"),
        (timed_operate(1, 0, 0, &[(1, 1, UNDO), (0, -1, UNDO)]), "11@1 0 0"),
        (read_all(8, 0), "0 0 0 0 0 0 0 0 0 0 0 0 0 0 0 0 0 0 0 0 0 0 0 0 0"),
        (timed_operate(1, 0, 0, &[(1, 1, 0)]), "0 0 0"),
        (query(8, 0, 1), "0 1 1 0 0"),
        (timed_operate(2, 0, 0, &[(1, 0, 0)]), "11@0 0 0"),
        (timed_operate(2, 0, 0, &[(0, 0, 0), (1, 32_767, 0)]), "34@1 0 0"),
        (timed_operate(2, 0, 0, &[(0, 0, 0), (0, -1, NOWAIT)]), "11@1 0 0"),
        (timed_operate(9, 0, 0, &TAKE), "3 0 0"),
        (timed_operate(2, 0, 0, &[]), "22 0 0"),
        (timed_operate(2, 0, 0, &[(0, -1, 0); 33]), "7 0 0"),
        (timed_operate(2, 4, 0, &TAKE), "22 0 0"),
        (timed_operate(2, 0, 0, &[(0, -1, 0), (8, 0, 0)]), "27 0 0"),
        (operate(2, 0, &TAKE), "-1@0 0 0"),
        (timed_operate(2, 0, 0, &TAKE), "16 0 0"),
        (timed_operate(3, 0, 0, &[(0, 1, 0)]), "0 0 1 2=0"),
    ]);
}

/// The last told stays where a time is refused.
#[test]
fn times_that_are_refused() {
    check_on_a_set(&[
        (clock(0), "0 0 0"),
        (clock(7), "0 0 0"),
        (timed_operate(1, 0, 3, &TAKE), "-1@0 0 0"),
        (clock(6), "22 0 0"),
        (clock(0), "22 0 0"),
        (clock(7), "0 0 0"),
        (clock(TIME_MAX + 1), "22 0 0"),
        (clock(u64::MAX), "22 0 0"),
        (clock(8), "0 0 0"),
        (timed_operate(2, 0, 1, &TAKE), "-1@0 0 0"),
        (clock(9), "0 0 0 2=11"),
        (clock(TIME_MAX), "0 0 0 1=11"),
        (clock(TIME_MAX), "0 0 0"),
        (clock(TIME_MAX + 1), "22 0 0"),
    ]);
}

/// The longest is a wait like others; at the largest time its end is beyond all that can be told.
#[test]
fn the_longest_wait() {
    let longest = u32::MAX;
    check_on_a_set(&[
        (timed_operate(1, 0, longest, &TAKE), "-1@0 0 0"),
        (clock(u64::from(longest) - 1), "0 0 0"),
        (timed_operate(2, 0, longest, &TAKE), "-1@0 0 0"),
        (clock(longest.into()), "0 0 0 1=11"),
        (clock(2 * u64::from(longest) - 2), "0 0 0"),
        (clock(2 * u64::from(longest) - 1), "0 0 0 2=11"),
        (clock(TIME_MAX - u64::from(longest)), "0 0 0"),
        (timed_operate(1, 0, longest, &TAKE), "-1@0 0 0"),
        (clock(TIME_MAX - 1), "0 0 0"),
        (timed_operate(2, 0, 1, &TAKE), "-1@0 0 0"),
        (timed_operate(3, 0, 2, &TAKE), "-1@0 0 0"),
        (clock(TIME_MAX), "0 0 0 1=11 2=11"),
        (timed_operate(4, 0, longest, &TAKE), "-1@0 0 0"),
        (timed_operate(5, 0, 1, &TAKE), "-1@0 0 0"),
        (clock(TIME_MAX), "0 0 0"),
        (set_value(8, 0, 0, 3), "0 0 3 3=0 4=0 5=0"),
    ]);
}

/// It sets last processes, at once and at waking, needs permission and may have 32 operations.
#[test]
fn an_operate_in_every_rule() {
    let ones = [(7, 1, 0); 33];
    check(&[
        (act_as(2, 7, 9), "0 0 0"),
        (act_as(3, 7, 1), "0 0 0"),
        (act_as(4, 5, 9), "0 0 0"),
        (act_as(1, 5, 1), "0 0 0"),
        (second::event::create(2, 8, 0o620), "0 0 0"),
        (timed_operate(2, 0, 5, &[(1, 0, 0)]), "0 0 0"),
        (query(8, 0, 1), "0 0 2 0 0"),
        (timed_operate(3, 0, 5, &[(2, 0, 0), (0, -1, 0)]), "-1@1 0 0"),
        (timed_operate(3, 0, 5, &TAKE), "16 0 0"),
        (timed_operate(2, 0, 5, &[(0, 1, UNDO)]), "0 0 1 3=0"),
        (query(8, 0, 2), "0 0 3 0 0"),
        (timed_operate(1, 0, 5, &[(2, 0, 0)]), "13 0 0"),
        (timed_operate(1, 0, 5, &ones[..32]), "13 0 0"),
        (timed_operate(4, 0, 5, &[(2, 0, 0)]), "13 0 0"),
        (timed_operate(4, 0, 5, &ones[..32]), "0 0 0"),
        (timed_operate(4, 0, 5, &ones), "7 0 0"),
        (timed_operate(4, 0, 5, &[(7, -33, NOWAIT)]), "11@0 0 0"),
        (timed_operate(4, 0, 5, &[(7, 32_767, 0)]), "34@0 0 0"),
    ]);
}

/// An event is handed bytes of any length, with a wait or without.
#[test]
fn bytes_that_are_no_whole_operations() {
    let mut host = Host::new(Rule::Quick);
    host.handle(&Event::Create { process: 8, count: 1, mode: 0o666 });
    for (length, code) in [(0, 22), (5, 22), (6, 0), (7, 22), (199, 22), (198, 7)] {
        for wait in [None, Some(0), Some(1)] {
            let operations = &vec![0; length];
            let event = Event::Operate { process: 1, identifier: 0, wait, operations };
            assert_eq!(host.handle(&event).code(), code, "{length} bytes");
        }
    }
}
