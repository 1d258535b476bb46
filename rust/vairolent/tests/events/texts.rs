//! What is written of errors, endings, answers and hosts.

use std::error;

use vairolent::{Answer, Ending, Error, Host, Operation};

use crate::{sleep, with_set};

/// How a position is written.
fn place(position: Option<usize>) -> String {
    position.map_or(String::new(), |position| format!(" at operation {position}"))
}

#[test]
fn errors() {
    let all = [
        (Error::NoProcess, "ESRCH (3): no such process"),
        (Error::ProcessAsleep, "EBUSY (16): the process is asleep"),
        (Error::Invalid, "EINVAL (22): no such set, or a bad argument"),
        (Error::TooManyOperations, "E2BIG (7): too many operations"),
        (Error::NoSemaphore, "EFBIG (27): a semaphore number is at or above the set's count"),
        (Error::NotPermitted, "EACCES (13): the set's mode does not permit it"),
        (Error::NotOwner, "EPERM (1): the set is another user's"),
        (Error::NoSlot, "ENOSPC (28): no slot is free"),
        (Error::BadValue, "ERANGE (34): a value to set is not 0 to 32,767"),
        (Error::BadTime, "EINVAL (22): a time is below the last, or above 2^63-1"),
        (
            Error::WouldSleep { position: 0 },
            "EAGAIN (11) at operation 0: an operation would sleep, and may not",
        ),
        (
            Error::OutOfRange { position: 7 },
            "ERANGE (34) at operation 7: a value or an adjustment would leave its range",
        ),
    ];
    for (error, wanted) in all {
        assert_eq!(error.to_string(), wanted);
        let place = place(error.position());
        assert!(wanted.starts_with(&format!("{} ({}){place}: ", error.name(), error.code())));
    }
    let boxed: Box<dyn error::Error + Send + Sync> = Error::NoSlot.into();
    assert_eq!(boxed.to_string(), "ENOSPC (28): no slot is free");
}

#[test]
fn endings() {
    let all = [
        (Ending::Done, "done (0)"),
        (
            Ending::WouldSleep { position: 7 },
            "EAGAIN (11) at operation 7: an operation would sleep, and may not",
        ),
        (
            Ending::OutOfRange { position: 0 },
            "ERANGE (34) at operation 0: a value or an adjustment would leave its range",
        ),
        (Ending::TimedOut, "EAGAIN (11): its wait is over"),
        (Ending::Removed, "EIDRM (43): its set was removed"),
        (Ending::Interrupted, "EINTR (4): a signal interrupted it"),
    ];
    for (ending, wanted) in all {
        assert_eq!(ending.to_string(), wanted);
        let place = place(ending.position());
        assert!(wanted.starts_with(&format!("{} ({}){place}", ending.name(), ending.code())));
    }
}

#[test]
fn answers_and_wakings() {
    let (mut host, set) = with_set(1);
    let take = [Operation::new(0, -1)];
    let text = |answer: Result<Answer, Error>| answer.map(|answer| answer.to_string());
    assert_eq!(text(host.operate(3, set, &take)), Ok("asleep (-1) at operation 0".into()));
    sleep(&mut host, set, &[2, 4], &take);
    let wanted = "done (0), 3 looks; process 3: done (0)";
    assert_eq!(text(host.operate(1, set, &[Operation::new(0, 1)])), Ok(wanted.into()));
    let wakings = host.remove(1, set).expect("removed");
    let wanted = "0 looks; process 2: EIDRM (43): its set was removed; \
                  process 4: EIDRM (43): its set was removed";
    assert_eq!(wakings.to_string(), wanted);
    let wanted = "Wakings { looks: 0, rest: [Waking { process: 2, ending: Removed }, \
                  Waking { process: 4, ending: Removed }] }";
    assert_eq!(format!("{wakings:?}"), wanted);
}

#[test]
fn a_waking_with_a_position() {
    let (mut host, set) = with_set(2);
    let operations = [Operation::new(0, -1), Operation::new(1, 0).nowait()];
    sleep(&mut host, set, &[3], &operations);
    sleep(&mut host, set, &[4], &operations[..1]);
    let wakings = host.set_value(1, set, 1, 5).expect("set");
    assert_eq!(wakings.to_string(), "1 look");
    let wakings = host.set_value(1, set, 0, 1).expect("set");
    let wanted = "2 looks; process 3: EAGAIN (11) at operation 1: an operation would sleep, and \
                  may not; process 4: done (0)";
    assert_eq!(wakings.to_string(), wanted);
    let wanted = "Wakings { looks: 2, rest: [Waking { process: 3, ending: WouldSleep { position: \
                  1 } }, Waking { process: 4, ending: Done }] }";
    assert_eq!(format!("{wakings:?}"), wanted);
}

#[test]
fn one_look_and_a_query() {
    let (mut host, set) = with_set(1);
    sleep(&mut host, set, &[5], &[Operation::new(0, -2)]);
    let answer = host.operate(6, set, &[Operation::new(0, 1)]).expect("done");
    assert_eq!(answer.to_string(), "done (0), 1 look");
    let semaphore = host.query(1, set, 0).expect("seen");
    let wanted = "value 1, last process 6, waiting 1 for increase, 0 for zero";
    assert_eq!(semaphore.to_string(), wanted);
}

#[test]
fn a_whole_set() {
    let (mut host, set) = with_set(2);
    sleep(&mut host, set, &[5], &[Operation::new(1, -2)]);
    let seen = host.query_set(1, set).expect("seen");
    let wanted = "0: value 0, last process 0, waiting 0 for increase, 0 for zero\n\
                  1: value 0, last process 0, waiting 1 for increase, 0 for zero\n";
    assert_eq!(seen.to_string(), wanted);
    let wanted = "Set { semaphores: [Semaphore { value: 0, last: 0, increase: 0, zero: 0, \
                  increase_mask: 0, zero_mask: 0 }, Semaphore { value: 0, last: 0, increase: 1, \
                  zero: 0, increase_mask: 16, zero_mask: 0 }], judged: 1 }";
    assert_eq!(format!("{seen:?}"), wanted);
}

#[test]
fn a_host_in_short() {
    assert_eq!(format!("{:?}", Host::new()), "Host { .. }");
}
