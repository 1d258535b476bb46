//! Every ending of a sleeper, from every event that wakes.

use vairolent::{Answer, Ending, Error, Host, Operation, Wakings, OPERATIONS, VALUE_MAX};

use crate::{sleep, with_set};

const ADD: Operation = Operation::new(0, 1);
const TAKE: Operation = Operation::new(0, -1);

fn listed(wakings: Wakings) -> Vec<(u8, Ending)> {
    wakings.map(|waking| (waking.process, waking.ending)).collect()
}

/// An operate that is done.
fn done(host: &mut Host, process: u8, set: i32, operations: &[Operation]) -> Wakings {
    match host.operate(process, set, operations) {
        Ok(Answer::Done(wakings)) => wakings,
        other => panic!("not done: {other:?}"),
    }
}

#[test]
fn done_by_an_operate() {
    let (mut host, set) = with_set(1);
    sleep(&mut host, set, &[4, 2, 8], &[TAKE]);
    let wakings = done(&mut host, 1, set, &[Operation::new(0, 2)]);
    // Both who are finished change the value, so that the last one is judged.
    assert_eq!(wakings.looks(), 3);
    assert_eq!(listed(wakings), [(4, Ending::Done), (2, Ending::Done)]);
    assert_eq!(done(&mut host, 1, set, &[ADD, TAKE]).looks(), 0);
}

#[test]
fn done_by_a_set_value_for_all_seven() {
    let (mut host, set) = with_set(1);
    let sleepers = [8, 1, 7, 2, 6, 3, 5];
    sleep(&mut host, set, &sleepers, &[TAKE]);
    let wakings = host.set_value(4, set, 0, 7).expect("set");
    assert_eq!((wakings.len(), wakings.looks()), (7, 7));
    assert_eq!(listed(wakings), sleepers.map(|process| (process, Ending::Done)));
    assert_eq!(host.query(4, set, 0).map(|semaphore| semaphore.last), Ok(5));
}

#[test]
fn done_by_a_set_all_of_eight_values() {
    let (mut host, set) = with_set(8);
    let other = host.create(1, 1, 0o666).expect("a slot is free");
    for process in 3..=8 {
        let number = u16::from(process) - 1;
        sleep(&mut host, set, &[process], &[Operation::new(number, -1), TAKE]);
    }
    sleep(&mut host, other, &[2], &[TAKE]);
    let wakings = host.set_all(1, set, &[6, 0, 1, 1, 1, 1, 1, 1]).expect("set");
    assert_eq!((wakings.len(), wakings.looks()), (6, 6));
    assert_eq!(listed(wakings), [3, 4, 5, 6, 7, 8].map(|process| (process, Ending::Done)));
    let seen = host.query_set(1, set).expect("seen");
    assert!(seen.semaphores().iter().all(|semaphore| semaphore.value == 0));
    // The sleeper of the other set was not judged.
    assert_eq!(host.query_set(1, other).map(|seen| seen.judged()), Ok(1));
}

/// Nobody is judged on one new value and one old one, with which the call would be refused.
#[test]
fn done_by_values_that_come_together() {
    for (first, second) in [(0, 1), (1, 0)] {
        let (mut host, set) = with_set(2);
        let mut values = [0, 0];
        values[usize::from(second)] = 5;
        assert_eq!(host.set_all(1, set, &values).map(listed), Ok(vec![]));
        let operations = [Operation::new(first, -1), Operation::new(second, 0).nowait()];
        sleep(&mut host, set, &[6], &operations);
        values.swap(0, 1);
        assert_eq!(host.set_all(1, set, &values).map(listed), Ok(vec![(6, Ending::Done)]));
    }
}

/// The adjustments are cleared before anybody is judged: without its own, a call leaves the range.
#[test]
fn refused_by_the_values_that_were_there() {
    let (mut host, set) = with_set(2);
    let _ = done(&mut host, 3, set, &[ADD]);
    let _ = done(&mut host, 5, set, &[TAKE.undo()]);
    let most = Operation::new(0, i16::MAX);
    let back = Operation::new(0, -i16::MAX);
    sleep(&mut host, set, &[5], &[most.undo(), back, ADD.undo(), Operation::new(1, -1)]);
    let wanted = vec![(5, Ending::OutOfRange { position: 2 })];
    assert_eq!(host.set_all(1, set, &[0, 0]).map(listed), Ok(wanted));
}

#[test]
fn done_by_an_exit() {
    let (mut host, set) = with_set(2);
    let hold = Operation::new(1, 1).undo();
    assert_eq!(done(&mut host, 1, set, &[hold]).len(), 0);
    sleep(&mut host, set, &[1], &[TAKE]);
    sleep(&mut host, set, &[2], &[Operation::new(1, 0)]);
    // Process 1 is taken out without a waking.
    let wakings = host.exit(1).expect("ended");
    assert_eq!(wakings.looks(), 1);
    assert_eq!(listed(wakings), [(2, Ending::Done)]);
    assert_eq!(host.signal(1).map(listed), Ok(vec![]));
}

#[test]
fn the_last_process_of_all_that_is_named() {
    let (mut host, set) = with_set(3);
    let last = |host: &Host, number| host.query(8, set, number).expect("seen").last;
    let lasts = |host: &Host| [0, 1, 2].map(|number| last(host, number));
    let _ = done(&mut host, 4, set, &[Operation::new(0, 0), Operation::new(1, 1)]);
    assert_eq!(lasts(&host), [4, 4, 0]);
    sleep(&mut host, set, &[2], &[Operation::new(0, 0), Operation::new(1, 0)]);
    assert_eq!(lasts(&host), [4, 4, 0]);
    assert_eq!(listed(done(&mut host, 3, set, &[Operation::new(1, -1)])), [(2, Ending::Done)]);
    assert_eq!(lasts(&host), [2, 2, 0]);
}

#[test]
fn refused_while_asleep() {
    let (mut host, set) = with_set(2);
    sleep(&mut host, set, &[1], &[TAKE, Operation::new(1, 0).nowait()]);
    sleep(&mut host, set, &[2], &[TAKE, Operation::new(1, 1)]);
    assert_eq!(host.set_value(4, set, 1, VALUE_MAX.into()).map(listed), Ok(vec![]));
    let wakings = done(&mut host, 3, set, &[ADD]);
    assert_eq!(wakings.looks(), 2);
    let wanted = [(1, Ending::WouldSleep { position: 1 }), (2, Ending::OutOfRange { position: 1 })];
    assert_eq!(listed(wakings), wanted);
    assert_eq!(host.query(4, set, 0).map(|semaphore| semaphore.value), Ok(1));
}

/// Both have as many operations as there can be.
#[test]
fn done_and_refused_with_the_longest_arrays() {
    const LAST: usize = OPERATIONS - 1;
    let (mut host, set) = with_set(2);
    let mut takes = [ADD; OPERATIONS];
    takes[LAST] = Operation::new(1, -1);
    let mut overflows = [ADD; OPERATIONS];
    overflows[0] = Operation::new(1, -2);
    overflows[LAST] = Operation::new(0, i16::MAX);
    assert_eq!(host.operate(1, set, &takes), Ok(Answer::Asleep { position: LAST }));
    assert_eq!(host.operate(2, set, &overflows), Ok(Answer::Asleep { position: 0 }));
    let wakings = host.set_value(3, set, 1, 3).expect("set");
    assert_eq!(wakings.looks(), 2);
    let wanted = [(1, Ending::Done), (2, Ending::OutOfRange { position: LAST })];
    assert_eq!(listed(wakings), wanted);
    let values = [0, 1].map(|number| host.query(3, set, number).expect("seen").value);
    assert_eq!(values, [31, 2]);
}

#[test]
fn removed_oldest_first() {
    let (mut host, set) = with_set(1);
    sleep(&mut host, set, &[6, 1, 3], &[TAKE]);
    let wakings = host.remove(2, set).expect("removed");
    assert_eq!(wakings.looks(), 0);
    let wanted = [6, 1, 3].map(|process| (process, Ending::Removed));
    assert_eq!(listed(wakings), wanted);
    assert_eq!(host.remove(2, set), Err(Error::Invalid));
}

#[test]
fn interrupted_once() {
    let (mut host, set) = with_set(1);
    sleep(&mut host, set, &[5], &[TAKE]);
    assert_eq!(host.signal(5).map(listed), Ok(vec![(5, Ending::Interrupted)]));
    assert_eq!(host.signal(5).map(listed), Ok(vec![]));
}

#[test]
fn wakings_are_counted_and_compared_by_what_is_left() {
    let (mut host, set) = with_set(1);
    sleep(&mut host, set, &[1, 2], &[TAKE]);
    let mut other = host.clone();
    let mut wakings = host.remove(3, set).expect("removed");
    assert_eq!((wakings.len(), wakings.looks()), (2, 0));
    let whole = wakings.clone();
    assert_eq!(wakings.next().map(|waking| waking.process), Some(1));
    assert_ne!(wakings, whole);
    // The other host has process 2 alone to wake.
    assert_eq!(other.signal(1).map(listed), Ok(vec![(1, Ending::Interrupted)]));
    assert_eq!(Ok(wakings.clone()), other.remove(3, set));
    assert_eq!(wakings.next().map(|waking| waking.process), Some(2));
    assert_eq!((wakings.len(), wakings.next(), wakings.next()), (0, None, None));
}
