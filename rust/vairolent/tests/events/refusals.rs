//! Every refusal of every event, and that it changes nothing.

use std::fmt::Debug;

use vairolent::{
    Answer, Error, Host, Operation, MODE_MAX, OPERATIONS, SEMAPHORES, TIME_MAX, VALUE_MAX,
};

use crate::{sleep, with_set};

/// Who has made the set, who sleeps at it, and who may do nothing with it.
const OWNER: u8 = 1;
const SLEEPER: u8 = 2;
const STRANGER: u8 = 3;

/// A fresh host with one set, and with these three. The owner has an adjustment.
fn owned(count: usize) -> (Host, i32) {
    let mut host = Host::new();
    host.act_as(OWNER, 7, 7).expect("awake");
    host.act_as(STRANGER, 8, 8).expect("awake");
    let set = host.create(OWNER, count as u8, 0o600).expect("a slot is free");
    assert!(matches!(host.operate(OWNER, set, &[ADD.undo(), TAKE]), Ok(Answer::Done(_))));
    sleep(&mut host, set, &[SLEEPER], &[TAKE]);
    (host, set)
}

/// Numbers that no process has.
const NO_PROCESSES: [u8; 3] = [0, 9, u8::MAX];

/// Numbers that name no live set where set 0 is the only one.
const NO_SETS: [i32; 6] = [1, 4, 262_144, i32::MAX, -1, i32::MIN];

/// Numbers of operations above the limit.
const TOO_MANY: [usize; 3] = [OPERATIONS + 1, 255, 1_000];

/// What no semaphore can be set to.
const BAD_VALUES: [i32; 5] = [-1, VALUE_MAX as i32 + 1, 65_536, i32::MIN, i32::MAX];

const ADD: Operation = Operation::new(0, 1);
const TAKE: Operation = Operation::new(0, -1);
const ZERO: Operation = Operation::new(0, 0);

fn refused<T, E>(host: &mut Host, wanted: Error, event: E)
where
    T: Debug + PartialEq,
    E: FnOnce(&mut Host) -> Result<T, Error>,
{
    let before = host.clone();
    assert_eq!(event(host), Err(wanted));
    assert_eq!(*host, before, "{wanted}");
}

/// An event is refused for its process first, whatever else is wrong with it.
fn refused_by_its_caller<T, E>(host: &mut Host, event: E)
where
    T: Debug + PartialEq,
    E: Fn(&mut Host, u8) -> Result<T, Error>,
{
    for process in NO_PROCESSES {
        refused(host, Error::NoProcess, |host| event(host, process));
    }
    refused(host, Error::ProcessAsleep, |host| event(host, SLEEPER));
}

/// An operate, with a wait or none.
fn operate_refused(host: &mut Host, wanted: Error, process: u8, set: i32, array: &[Operation]) {
    refused(host, wanted, |host| host.operate(process, set, array));
    for wait in [0, 1, u32::MAX] {
        refused(host, wanted, |host| host.operate_within(process, set, array, wait));
    }
}

#[test]
fn create() {
    let (mut host, _) = owned(8);
    refused_by_its_caller(&mut host, |host, process| host.create(process, 0, u16::MAX));
    for wanted in 1..4 {
        assert_eq!(host.create(OWNER, 8, MODE_MAX), Ok(wanted));
    }
    for count in [0, 9, u8::MAX] {
        refused(&mut host, Error::Invalid, |host| host.create(OWNER, count, 0o666));
    }
    for mode in [MODE_MAX + 1, 0o1666, 0o100_666, u16::MAX] {
        refused(&mut host, Error::Invalid, |host| host.create(OWNER, 1, mode));
    }
    refused(&mut host, Error::NoSlot, |host| host.create(OWNER, 1, 0o666));
}

/// Each call has every fault that is asked for later, too.
#[test]
fn operate_by_its_checks() {
    let (mut host, set) = owned(2);
    let far = Operation::new(2, 1);
    for process in NO_PROCESSES {
        operate_refused(&mut host, Error::NoProcess, process, 9, &[]);
    }
    operate_refused(&mut host, Error::ProcessAsleep, SLEEPER, 9, &[]);
    operate_refused(&mut host, Error::Invalid, STRANGER, 9, &[]);
    for length in TOO_MANY {
        let many = vec![far; length];
        operate_refused(&mut host, Error::TooManyOperations, STRANGER, 9, &many);
    }
    for none in NO_SETS {
        operate_refused(&mut host, Error::Invalid, STRANGER, none, &[far]);
    }
    for number in [2, 8, u16::MAX] {
        let operations = [ADD, Operation::new(number, 0)];
        operate_refused(&mut host, Error::NoSemaphore, STRANGER, set, &operations);
    }
    for array in [[TAKE], [TAKE.nowait()]] {
        operate_refused(&mut host, Error::NotPermitted, STRANGER, set, &array);
    }
}

/// Up to the limit every operation is judged, above it none.
#[test]
fn operate_by_its_length() {
    let (mut host, set) = with_set(1);
    let many = [ADD; 1_000];
    for length in 1..=OPERATIONS {
        assert!(matches!(host.operate(1, set, &many[..length]), Ok(Answer::Done(_))));
    }
    let sum = OPERATIONS * (OPERATIONS + 1) / 2;
    assert_eq!(host.query(1, set, 0).map(|semaphore| semaphore.value.into()), Ok(sum));
    for length in TOO_MANY {
        operate_refused(&mut host, Error::TooManyOperations, 1, set, &many[..length]);
    }
}

#[test]
fn operate_by_the_mode() {
    let mut host = Host::new();
    for (process, user, group) in [(1, 7, 9), (2, 8, 9), (3, 8, 8)] {
        assert_eq!(host.act_as(process, user, group), Ok(()));
    }
    let set = host.create(1, 1, 0o642).expect("a slot is free");
    operate_refused(&mut host, Error::NotPermitted, 2, set, &[ADD]);
    operate_refused(&mut host, Error::NotPermitted, 2, set, &[ZERO, ADD]);
    operate_refused(&mut host, Error::NotPermitted, 3, set, &[ZERO]);
    operate_refused(&mut host, Error::NotPermitted, 3, set, &[ZERO, ADD]);
    for (process, operations) in [(2, &[ZERO][..]), (3, &[ADD, TAKE]), (1, &[ZERO, ADD])] {
        assert!(matches!(host.operate(process, set, operations), Ok(Answer::Done(_))));
    }
}

#[test]
fn operate_by_its_judging() {
    let (mut host, set) = with_set(2);
    let other = Operation::new(1, 5);
    let would_sleep = [other, TAKE.nowait()];
    let wanted = Error::WouldSleep { position: 1 };
    operate_refused(&mut host, wanted, 1, set, &would_sleep);
    let value_over = [other, Operation::new(0, i16::MAX), ADD];
    let wanted = Error::OutOfRange { position: 2 };
    operate_refused(&mut host, wanted, 1, set, &value_over);
    let up = Operation::new(0, i16::MAX).undo();
    let adjustment_under = [up, Operation::new(0, -i16::MAX), other, ADD.undo(), TAKE];
    let wanted = Error::OutOfRange { position: 3 };
    operate_refused(&mut host, wanted, 1, set, &adjustment_under);
}

#[test]
fn set_value() {
    let (mut host, set) = owned(2);
    refused_by_its_caller(&mut host, |host, process| host.set_value(process, 9, 2, -1));
    for none in NO_SETS {
        refused(&mut host, Error::Invalid, |host| host.set_value(STRANGER, none, 2, -1));
    }
    refused(&mut host, Error::NotPermitted, |host| host.set_value(STRANGER, set, 2, -1));
    for number in [2, 8, u16::MAX] {
        refused(&mut host, Error::Invalid, |host| host.set_value(OWNER, set, number, -1));
    }
    for value in BAD_VALUES {
        refused(&mut host, Error::BadValue, |host| host.set_value(OWNER, set, 1, value));
    }
    assert!(host.set_value(OWNER, set, 1, VALUE_MAX.into()).is_ok());
    assert_eq!(host.query(OWNER, set, 1).map(|semaphore| semaphore.value), Ok(VALUE_MAX));
}

/// The number of values is asked for before their range, and the set and permission before both.
#[test]
fn set_all_by_its_number() {
    for count in 1..=SEMAPHORES {
        let (mut host, set) = owned(count);
        refused_by_its_caller(&mut host, |host, process| host.set_all(process, 9, &[]));
        for length in (0..=40).chain([255, 1_000]).filter(|&length| length != count) {
            for values in [vec![1; length], vec![-1; length]] {
                refused(&mut host, Error::NotPermitted, |host| {
                    host.set_all(STRANGER, set, &values)
                });
                refused(&mut host, Error::Invalid, |host| host.set_all(OWNER, set, &values));
            }
        }
        for none in NO_SETS {
            let values = vec![-1; count];
            refused(&mut host, Error::Invalid, |host| host.set_all(STRANGER, none, &values));
        }
        assert!(host.set_all(OWNER, set, &vec![1; count]).is_ok());
    }
}

/// One value out of range at each place, and all of them.
#[test]
fn set_all_by_its_values() {
    for count in 1..=SEMAPHORES {
        let (mut host, set) = owned(count);
        for value in BAD_VALUES {
            for place in 0..count {
                let mut values = vec![VALUE_MAX.into(); count];
                values[place] = value;
                refused(&mut host, Error::BadValue, |host| host.set_all(OWNER, set, &values));
            }
            let values = vec![value; count];
            refused(&mut host, Error::BadValue, |host| host.set_all(OWNER, set, &values));
            refused(&mut host, Error::NotPermitted, |host| host.set_all(STRANGER, set, &values));
        }
    }
}

#[test]
fn remove() {
    let (mut host, set) = owned(2);
    refused_by_its_caller(&mut host, |host, process| host.remove(process, 9));
    for none in NO_SETS {
        refused(&mut host, Error::Invalid, |host| host.remove(STRANGER, none));
    }
    refused(&mut host, Error::NotOwner, |host| host.remove(STRANGER, set));
    assert!(host.remove(OWNER, set).is_ok());
}

#[test]
fn query_and_a_whole_set() {
    let (mut host, set) = owned(2);
    refused_by_its_caller(&mut host, |host, process| host.query(process, 9, 2));
    refused_by_its_caller(&mut host, |host, process| host.query_set(process, 9));
    for none in NO_SETS {
        refused(&mut host, Error::Invalid, |host| host.query(STRANGER, none, 2));
        refused(&mut host, Error::Invalid, |host| host.query_set(STRANGER, none));
    }
    refused(&mut host, Error::NotPermitted, |host| host.query(STRANGER, set, 2));
    refused(&mut host, Error::NotPermitted, |host| host.query_set(STRANGER, set));
    for number in [2, 8, u16::MAX] {
        refused(&mut host, Error::Invalid, |host| host.query(OWNER, set, number));
    }
}

#[test]
fn act_as() {
    let (mut host, _) = owned(1);
    refused_by_its_caller(&mut host, |host, process| host.act_as(process, 7, 7));
}

#[test]
fn signal_and_exit() {
    let (mut host, _) = with_set(1);
    for process in NO_PROCESSES {
        refused(&mut host, Error::NoProcess, |host| host.signal(process));
        refused(&mut host, Error::NoProcess, |host| host.exit(process));
    }
}

/// A wait of 0 would be the last thing asked for, and here is the only one.
#[test]
fn operate_within_no_time() {
    let (mut host, set) = owned(2);
    let stops = [ADD, Operation::new(1, 0), Operation::new(1, -1)];
    for (position, array) in [(0, &[TAKE][..]), (2, &stops), (1, &stops[1..])] {
        let wanted = Error::WouldSleep { position };
        refused(&mut host, wanted, |host| host.operate_within(OWNER, set, array, 0));
    }
}

/// Times below the last told, and above the greatest.
#[test]
fn clock() {
    let (mut host, set) = owned(1);
    let answer = host.operate_within(OWNER, set, &[TAKE], 1_000);
    assert_eq!(answer, Ok(Answer::Asleep { position: 0 }));
    assert!(host.clock(100).is_ok());
    for time in [0, 99, TIME_MAX + 1, TIME_MAX + 101, u64::MAX] {
        refused(&mut host, Error::BadTime, |host| host.clock(time));
    }
    assert!(host.clock(TIME_MAX).is_ok());
    for time in [0, TIME_MAX - 1, TIME_MAX + 1, u64::MAX] {
        refused(&mut host, Error::BadTime, |host| host.clock(time));
    }
}
