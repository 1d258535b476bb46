//! The events, called as a program calls them.

mod bodies;
mod clock;
mod endings;
mod hosts;
mod modes;
mod positions;
mod refusals;
mod texts;
mod traffic;

use vairolent::{Answer, Host, Operation};

/// A fresh host with one set, for all to read and alter.
fn with_set(count: u8) -> (Host, i32) {
    let mut host = Host::new();
    let set = host.create(8, count, 0o666).expect("a slot is free");
    (host, set)
}

/// Puts processes to sleep, one after the other.
fn sleep(host: &mut Host, set: i32, processes: &[u8], operations: &[Operation]) {
    for &process in processes {
        assert!(matches!(host.operate(process, set, operations), Ok(Answer::Asleep { .. })));
    }
}
