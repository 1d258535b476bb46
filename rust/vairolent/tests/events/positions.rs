//! Which operation decided: of a call, and of a sleeper that is judged again.

use vairolent::{Answer, Ending, Error, Host, Operation, Waking, OPERATIONS, VALUE_MAX};

use crate::{sleep, with_set};

const ADD: Operation = Operation::new(0, 1);
const TAKE: Operation = Operation::new(0, -1);
const ZERO: Operation = Operation::new(0, 0);
const OTHER_TAKE: Operation = Operation::new(1, -1);
const OTHER_ZERO: Operation = Operation::new(1, 0);

/// The positions of an event's wakings, by their processes.
fn positions<T: Iterator<Item = Waking>>(wakings: T) -> Vec<(u8, Option<usize>)> {
    wakings.map(|waking| (waking.process, waking.ending.position())).collect()
}

#[test]
fn asleep() {
    let (mut host, set) = with_set(2);
    let arrays = [
        (&[TAKE][..], 0),
        (&[ADD, TAKE, TAKE], 2),
        (&[ADD, OTHER_ZERO, ZERO, TAKE], 2),
        // What stops first decides, whatever comes behind it.
        (&[OTHER_TAKE, TAKE.nowait()], 0),
        (&[OTHER_ZERO, OTHER_TAKE, Operation::new(0, i16::MAX), ADD], 1),
    ];
    for (process, (operations, position)) in (1..).zip(arrays) {
        assert_eq!(host.operate(process, set, operations), Ok(Answer::Asleep { position }));
    }
}

#[test]
fn refused() {
    let (mut host, set) = with_set(2);
    let most = Operation::new(0, i16::MAX);
    let arrays = [
        (&[TAKE.nowait()][..], Error::WouldSleep { position: 0 }),
        (&[OTHER_ZERO, TAKE.nowait(), OTHER_TAKE], Error::WouldSleep { position: 1 }),
        (&[ADD, OTHER_ZERO, ZERO.nowait()], Error::WouldSleep { position: 2 }),
        (&[most, ADD], Error::OutOfRange { position: 1 }),
        (&[OTHER_ZERO, ADD, OTHER_ZERO, most, TAKE.nowait()], Error::OutOfRange { position: 3 }),
        // The value has room for each of these, the adjustment not.
        (&[most.undo(), TAKE, ADD.undo(), TAKE.undo()], Error::OutOfRange { position: 2 }),
    ];
    for (operations, wanted) in arrays {
        assert_eq!(host.operate(1, set, operations), Err(wanted));
    }
}

#[test]
fn every_position() {
    let (mut host, set) = with_set(2);
    for position in 0..OPERATIONS {
        let mut operations = [OTHER_ZERO; OPERATIONS];
        operations[position] = TAKE.nowait();
        assert_eq!(host.operate(1, set, &operations), Err(Error::WouldSleep { position }));
        operations[position] = TAKE;
        assert_eq!(host.operate(1, set, &operations), Ok(Answer::Asleep { position }));
        assert_eq!(host.signal(1).map(positions), Ok(vec![(1, None)]));
    }
}

/// A position is where a sleeper now stops or leaves a range, not where it went to sleep.
#[test]
fn of_the_look_that_ended_it() {
    let (mut host, set) = with_set(2);
    let arrays = [[ZERO.nowait(), OTHER_TAKE], [Operation::new(0, 5), OTHER_TAKE]];
    for (process, operations) in (3..).zip(&arrays) {
        assert_eq!(host.operate(process, set, operations), Ok(Answer::Asleep { position: 1 }));
    }
    let wakings: Vec<Waking> = host.set_value(1, set, 0, 32_765).expect("set").collect();
    let endings = [Ending::WouldSleep { position: 0 }, Ending::OutOfRange { position: 0 }];
    assert_eq!(wakings[0], Waking { process: 3, ending: endings[0] });
    assert_eq!(wakings[1], Waking { process: 4, ending: endings[1] });
    assert_eq!(wakings.len(), 2);
}

/// From every event that judges sleepers, with positions of their own beside those who have none.
#[test]
fn of_each_waking_its_own() {
    let (mut host, set) = with_set(2);
    let _ = host.set_value(1, set, 1, VALUE_MAX.into());
    let sleepers = |host: &mut Host| {
        sleep(host, set, &[2], &[TAKE, OTHER_ZERO.nowait()]);
        sleep(host, set, &[3], &[TAKE, ADD, Operation::new(1, 1)]);
        sleep(host, set, &[4], &[TAKE]);
    };
    let wanted = vec![(2, Some(1)), (3, Some(2)), (4, None)];
    sleepers(&mut host);
    match host.operate(1, set, &[ADD]) {
        Ok(Answer::Done(wakings)) => assert_eq!(positions(wakings), wanted),
        other => panic!("not done: {other:?}"),
    }
    sleepers(&mut host);
    assert_eq!(host.set_value(1, set, 0, 1).map(positions), Ok(wanted.clone()));
    sleepers(&mut host);
    let values = [1, VALUE_MAX.into()];
    assert_eq!(host.set_all(1, set, &values).map(positions), Ok(wanted.clone()));
    let _ = host.operate(1, set, &[ADD]);
    let _ = host.operate(1, set, &[TAKE.undo()]);
    sleepers(&mut host);
    assert_eq!(host.exit(1).map(positions), Ok(wanted));
}

#[test]
fn none_of_the_removed_and_the_interrupted() {
    let (mut host, set) = with_set(2);
    sleep(&mut host, set, &[5, 6], &[OTHER_ZERO, TAKE]);
    assert_eq!(host.signal(5).map(positions), Ok(vec![(5, None)]));
    assert_eq!(host.remove(1, set).map(positions), Ok(vec![(6, None)]));
}

/// With a wait it is named as without; of a wait that is over none is.
#[test]
fn with_a_wait() {
    let (mut host, set) = with_set(2);
    for position in 0..OPERATIONS {
        let mut operations = [OTHER_ZERO; OPERATIONS];
        operations[position] = TAKE;
        let error = Err(Error::WouldSleep { position });
        assert_eq!(host.operate_within(1, set, &operations, 0), error);
        let time = position as u64;
        assert_eq!(host.operate_within(1, set, &operations, 1), Ok(Answer::Asleep { position }));
        assert_eq!(host.clock(time + 1).map(positions), Ok(vec![(1, None)]));
    }
}
